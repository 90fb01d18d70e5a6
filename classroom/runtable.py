"""What a run shows: its events with their words, as a table (that of `oracle/simulate --trace`) and for a picture."""
from collections import namedtuple

from wrong import FAULT, STOPPED

Event = namedtuple("Event", "number process name does came cells disk turns place")

TOUCHING = ("put", "take", "putpage", "takepage", "await", "stop")


class Teller:
    """Steps a core of oracle/simulate, or of oracle/twin, and tells each event."""

    def __init__(self, simulate, core, names):
        self.simulate, self.core, self.names, self.printing, self.outcomes = simulate, core, names, None, {}

    def step(self, p):
        core, simulate = self.core, self.simulate
        kind, *rest = core.next[p]
        core.printing, told = self.printing, []
        does = f"stops buffer {rest[0]}" if kind == "stop" else simulate.said(core, p)
        delays, taken = core.delays, core.buffers[rest[0]].inside[:1] if kind == "take" else []
        go, core.go = core.go, lambda p, answer=None: (told.append(answer), go(p, answer))
        core.step(p)
        core.go = go
        came = "waits" if core.delays > delays else self.came(p, kind, told)
        if kind == "take" and taken:
            self.printing = taken[0] if p == max(core.processes) else self.printing
        cells = [simulate.buffer_cell(core, b) for b in core.buffers]
        disk = simulate.with_queue(str(core.desk.holder or "-"), core.desk.waiting, core.desk.turn)
        turns = {b: buffer.queue[buffer.turn] for b, buffer in core.buffers.items() if buffer.turn}
        turns |= {"disk": core.desk.turn} if core.desk.turn else {}
        place = "disk" if kind in ("request", "release") else rest[0] if kind in TOUCHING else None
        return Event(core.events, p, self.names[p], does, came, cells, disk, turns, place)

    def came(self, p, kind, told):
        """What came of an event that didn't wait."""
        if told and told[0] in (FAULT, STOPPED):
            self.outcomes[p] = told[0]
            return told[0]
        if kind == "ended":
            return self.outcomes.get(p, "done")
        if kind == "read":
            return self.simulate.shown(self.core.next[p][2])
        return self.simulate.shown(told[0]) if kind == "take" else "done"


WIDTHS = {1: 16, 2: 7, 3: 7, 4: 16}


def row(event):
    """A line of the table."""
    cells = "".join(f"{cell:{width}}" for cell, width in zip(event.cells, WIDTHS.values()))
    return f"{event.number:5} {event.process} {event.name:8}{event.does + ' -> ' + event.came:36}{cells}{event.disk}"


def six_row(event):
    """A line of the table of the six: two line buffers, and four spools between them."""
    line, *spools, lines = event.cells
    cells = f"{line:16}" + "".join(f"{cell:7}" for cell in spools) + f"{lines:16}"
    return f"{event.number:5} {event.process} {event.name:8}{event.does + ' -> ' + event.came:36}{cells}{event.disk}"


SIX_HEAD = "event process  what it does -> what came of it    1 cards         in A   in B   out A  out B  6 lines         disk"
SIX_NAMES = {1: "card", 2: "input", 3: "job A", 4: "job B", 5: "output", 6: "printer"}


def waits_for(core, p, names):
    """What a process that waits lacks, in the core as it stands."""
    kind, *rest = core.next[p]
    if kind == "request":
        return f"waits for the disk, which {names.get(core.desk.holder, core.desk.holder)} has"
    if kind not in ("await", "put", "take"):
        return "may go on"
    side = rest[1] if kind == "await" else "s" if kind == "put" else "r"
    lacks = ("room in" if side == "s" else "a page of") if kind == "await" else ("room in" if side == "s" else "an item of")
    return f"waits for {lacks} buffer {rest[0]}" + (", with the disk in hand" if core.desk.holder == p else "")
