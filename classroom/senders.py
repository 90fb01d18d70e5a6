"""Two senders at one line buffer, for `every --wrong signal-and-continue`: the cards of a deck are put by two processes in turn, and one takes
them all. The buffer tests by `if`. Where a continue hands the turn over that is right; where who continues goes on inside, and who was
delayed comes in like any other, a card is lost."""
from monitors import Monitor, Scene, cont, delay


class Place(Monitor):
    """One place for a card."""

    def start(self):
        self.inside, self.lost = None, None

    def put(self, card):
        if self.inside is not None:
            yield delay("senders")
        self.lost = self.lost or self.inside
        self.inside = card
        yield cont("receiver")

    def take(self):
        if self.inside is None:
            yield delay("receiver")
        card, self.inside = self.inside, None
        yield cont("senders")
        return card


class Places(Place):
    """The same for the right continue, where a queue variable holds one process: each sender has its own."""

    def start(self):
        super().start()
        self.first = None

    def put(self, card):
        if self.inside is not None:
            queue = "one" if self.empty("one") else "other"
            self.first = self.first or queue
            yield delay(queue)
        self.lost = self.lost or self.inside
        self.inside = card
        yield cont("receiver")

    def take(self):
        if self.inside is None:
            yield delay("receiver")
        card, self.inside, queue = self.inside, None, self.first
        self.first = next((other for other in ("one", "other") if other != queue and not self.empty(other)), None)
        yield cont(queue or "one")
        return card


def scene(cards, hand_over):
    words = [card if card else "(blank)" for card in cards]
    puts = [[("put", word) for word in words[start::2]] for start in (0, 1)]
    processes = [("sender A", puts[0]), ("sender B", puts[1]), ("receiver", [("take",)] * len(words))]

    def judge(run):
        lost = run.monitor.lost
        return f"{lost} was in the place, and is lost: the put behind it didn't look once more" if lost else None

    def finish(run):
        taken = run.answers[3]
        return None if run.ended() and sorted(taken) == sorted(words) else f"nobody can go on, and taken were {taken}"
    return Scene(Places if hand_over else Place, processes, judge, finish, hand_over)
