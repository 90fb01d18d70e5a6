"""The pictures of the lessons: what each shows is asked of the oracles' tables and runs, and where it stands is said here."""
import sys

import solonet
import tables
import timetable
import wrong
from canvas import Canvas
from graph import Graph
from tables import ROOT

sys.path.insert(0, str(ROOT / "oracle"))
import solodrive  # noqa: E402
sys.path.pop(0)


def deck(name):
    return (ROOT / f"decks/{name}.deck").read_bytes()


# ---- a monitor, at three events of lesson 1
def monitor():
    """Buffer 1 behind the events 4, 5 and 6 of a run: a delay, a turn that is handed over, and how it is taken up."""
    simulate = tables.load("simulate")
    core, canvas = simulate.Core(deck("listing"), None), Canvas("A monitor: its place, its queue variables, its turn", 560)
    for event in range(1, 7):
        p = next(p for p in core.processes if core.enabled(p))
        does = simulate.said(core, p)
        delays = core.delays
        core.step(p)
        if event >= 4:
            came = "is delayed" if core.delays > delays else "goes on"
            one_monitor(canvas, simulate, core.buffers[1], 66 + 165 * (event - 4), f"event {event}: {simulate.NAMES[p]} {does}, and {came}")
    return canvas


def one_monitor(canvas, simulate, buffer, y, words):
    canvas.words(14, y, words, "name")
    canvas.box(190, y + 16, 380, 116)
    canvas.process(20, y + 46, 110, 46, ["1 card"])
    canvas.process(630, y + 46, 110, 46, ["2 input"])
    canvas.arrow(130, y + 69, 188, y + 69)
    canvas.arrow(628, y + 69, 572, y + 69)
    canvas.words(159, y + 62, "put", "small", True)
    canvas.words(600, y + 62, "take", "small", True)
    canvas.box(310, y + 30, 140, 34, "slot", [simulate.shown(buffer.inside[0]) if buffer.inside else "free"])
    for x, side, name in ((205, "s", "senders"), (425, "r", "receivers")):
        waits, has_turn = buffer.queue[side], buffer.turn == side
        canvas.words(x + 65, y + 86, name, "small", True)
        canvas.box(x, y + 92, 130, 30, "turn" if has_turn else "held" if waits else "slot",
                   [f"{waits} {simulate.NAMES[waits]}" + (": turn" if has_turn else "") if waits else "nobody"])


# ---- the five, and Solo's three
def uses(graph):
    """Which process puts into which buffer, takes from which, and asks for the disk, in a run of each process in turn."""
    found, state = set(), graph.start
    while moves := graph.moves(state):
        slot, after = moves[0]
        action = graph.nodes[graph.processes[slot]].actions[state[slot]]
        if action[0] in ("put", "putpage", "take", "takepage", "request"):
            found.add((graph.processes[slot], action[0][:3], action[1] if len(action) > 1 else "disk"))
        state = after
    return found


def five():
    """The five with their four buffers, and the disk that three of them share."""
    oracle, make = tables.five(deck("listing"), None, (256, 256))
    core, names = make(), oracle.NAMES
    found = uses(Graph(tables.Table(make)))
    canvas = Canvas("The five, their four buffers and the disk", 400)
    middle = {p: 78 + 151 * (p - 1) for p in names}
    for p, name in names.items():
        canvas.process(middle[p] - 62, 56, 124, 50, [f"{p} {name}"])
    for b, buffer in core.buffers.items():
        x = 78 + 151 * (b - 1) + 75
        kind = "one place" if buffer.capacity == 1 else f"{buffer.capacity} pages"
        canvas.box(x - 58, 170, 116, 62, "box", [f"buffer {b}", kind])
        for p, does, place in sorted(found, key=str):
            if place == b:
                ends = ((middle[p] + 14, 107, x - 26, 168), (x + 26, 169, middle[p] - 14, 108))
                canvas.arrow(*ends[does != "put"])
    canvas.box(244, 320, 272, 56, "box", ["disk", "one has it, the others wait"])
    for p in sorted(p for p, does, place in found if place == "disk"):
        canvas.bent((middle[p], 107), (middle[p], 290), (380 + 80 * (p - 3), 318))
    return canvas


def solo():
    """Solo's three and the six buffers between them."""
    canvas = Canvas("Solo's three and their six buffers", 350)
    places = {1: 14, 2: 310, 3: 606}
    for p, name in solonet.NAMES.items():
        canvas.process(places[p], 160, 140, 56, [f"{p} {name}"])
    for b, (sender, receiver) in solonet.solosession.ENDS.items():
        left, row = min(sender, receiver), (b - 1) % 3
        x, y, inset = places[left] + 170, 64 + 96 * row, 8 * (row != 1)
        canvas.box(x - 8, y, 112, 56, "box", [f"buffer {b}", solonet.BUFFERS[b]])
        inner = 172 + 16 * row
        if sender < receiver:
            canvas.arrow(places[sender] + 140 - inset, inner, x - 10, y + 28)
            canvas.arrow(x + 104, y + 28, places[receiver] + inset - 2, inner)
        else:
            canvas.arrow(places[sender] + inset, inner, x + 106, y + 28)
            canvas.arrow(x - 8, y + 28, places[receiver] + 142 - inset, inner)
    return canvas


# ---- the ring of waits of lesson 5
PLACES = {1: (20, 70), 2: (230, 160), 3: (560, 160), 4: (230, 300), 5: (20, 300)}


def waits(core):
    """Who waits for whom, and for what: the processes that can't go on, where nobody can."""
    others = {(b, side): p for p, ends in wrong.ENDS.items() for b, side in ends}
    for p, action in core.next.items():
        if action is None:
            continue
        if action[0] == "request":
            yield p, core.desk.holder, "the disk"
        else:
            side = core.side(action)
            yield p, others[(action[1], "r" if side == "s" else "s")], f"{'room' if side == 's' else 'an item'} in {action[1]}"


def ring():
    """Lesson 5's run where nobody can go on."""
    simulate = tables.load("simulate")
    core = wrong.disk_first(simulate)(deck("long"), None, (1, 1))
    try:
        core.run("least")
    except AssertionError:
        pass
    found = {p: (other, what) for p, other, what in waits(core)}
    canvas = Canvas("Who waits for whom: a ring of two, and three behind it", 380)
    for p, (x, y) in PLACES.items():
        canvas.process(x, y, 190, 48, [f"{p} {simulate.NAMES[p]}"] + ["has the disk"] * (core.desk.holder == p))
    canvas.bent((420, 172), (558, 172), kind="ring")
    canvas.words(489, 160, found[2][1], "words", True)
    canvas.bent((560, 198), (422, 198), kind="ring")
    canvas.words(489, 220, found[3][1], "words", True)
    canvas.arrow(130, 118, 236, 164)
    canvas.words(212, 138, found[1][1])
    canvas.arrow(325, 300, 325, 210)
    canvas.words(335, 262, found[4][1])
    canvas.arrow(210, 324, 228, 324)
    canvas.words(115, 372, found[5][1], "words", True)
    assert [found[p][0] for p in (1, 2, 3, 4, 5)] == [2, 3, 2, 2, 4], "another ring than the one that is drawn"
    return canvas


# ---- the timetable, at event 19 of lesson 9
SCRIPT, NUMBER, EVENT = ["TASK A", "START A 1 1", "TICK 2"], 7, 19


def timetable_picture():
    """The nine and their queues, where the operator waits for a task that is on its way."""
    graph = Graph(timetable.Table(tables.load("times"), SCRIPT, 8))
    state, number = graph.start, NUMBER
    for _ in range(EVENT):
        moves = graph.moves(state)
        number = (number * 1103515245 + 12345) % 2147483648
        state = moves[number // 65536 % len(moves)][1]
    table = graph.values["table"][state[-1]]
    canvas = Canvas(f"The timetable, behind event {EVENT}: who waits in which queue", 430)
    canvas.box(190, 50, 400, 360)
    canvas.words(390, 76, "time table: one monitor, nine queues", "name", True)
    for place, p in enumerate(graph.processes):
        y = 92 + 34 * place
        name, inside = graph.table.names[p], p in table["waiting"]
        canvas.words(206, y + 20, f"queue of {name}", "small")
        canvas.box(372, y, 204, 28, "turn" if table["turn"] == p else "held" if inside else "slot", [f"{name} waits" if inside else "empty"])
        if not inside:
            canvas.process(22, y - 2, 120, 32, [name])
            canvas.arrow(142, y + 14, 188, y + 14)
    canvas.words(600, 120, "turn: " + ("free" if table["turn"] is None else graph.table.names[table["turn"]]))
    if table["awaited"]:
        canvas.words(600, 146, "awaited is", "words")
        canvas.words(600, 166, graph.table.names[table["awaited"]], "words")
    return canvas


# ---- the pages of a drive with three files
FILES = (("NOTE", 2, 2), ("PROG", 3, 1), ("BOOK", 2, 5))
ACROSS, WIDE, HIGH = 10, 72, 58


def drive():
    """Each page of a drive with three files, by what its bytes say."""
    files = {name.encode(): solodrive.File(kind, False, (b"X" * 512,) * pages) for name, kind, pages in FILES}
    made = solodrive.make_drive(files)
    said = page_words(made, [name for name, _, _ in FILES])
    last = max(said)
    canvas = Canvas("The pages of a drive with three files", 118 + (last // ACROSS + 1) * (HIGH + 6))
    for number in range(last + 2):
        kind, words = said.get(number, ("slot", "free"))
        x, y = 14 + (WIDE + 2) * (number % ACROSS), 46 + (HIGH + 6) * (number // ACROSS)
        canvas.box(x, y, WIDE, HIGH, kind)
        canvas.words(x + WIDE / 2, y + 18, str(number), "small", True)
        for place, word in enumerate(words.split("/")):
            canvas.words(x + WIDE / 2, y + 34 + 16 * place, word, "small", True)
    y = 46 + (last // ACROSS + 1) * (HIGH + 6) + 22
    canvas.words(14, y, "cat.: the catalogue, of each file its name, kind and index page; index: its length and")
    canvas.words(14, y + 22, "its parts; part: where its pages are. The map has a bit for each page that is taken.")
    return canvas


def page_words(made, names):
    """What each page is, by the catalogue, the index pages and the parts of the drive."""
    numbers = lambda n: [int.from_bytes(made[512 * n + at:512 * n + at + 2], "big") for at in range(0, 512, 2)]
    said = {0: ("box", "label"), 16: ("box", "map"), 17: ("box", "map"), **{n: ("box", "cat./-") for n in range(1, 16)}}
    for at in range(solodrive.ENTRIES):
        entry = made[512 + 32 * at:512 + 32 * at + 32]
        name = entry[:12].rstrip(b" \0").decode()
        if not name:
            continue
        kind, index = ("one", "two", "three")[names.index(name)], int.from_bytes(entry[14:16], "big")
        length, *parts = numbers(index)
        said[1 + at // 16] = ("box", f"cat./{name}")
        said[index] = (kind, f"{name}/index")
        pages = [page for part in filter(None, parts) for page in filter(None, numbers(part))]
        said |= {part: (kind, f"{name}/part") for part in filter(None, parts)}
        said |= {page: (kind, f"{name}/{place}") for place, page in enumerate(pages[:length], 1)}
    return said


DRAWINGS = {"monitor": monitor, "five": five, "solo": solo, "ring": ring, "timetable": timetable_picture, "drive": drive}
