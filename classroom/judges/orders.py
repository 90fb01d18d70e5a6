"""Pieces 6 and 7: an order of events, given as the numbers of the processes that go on, one after the other."""
import re

import tables
import wrong

DECK, MOST, LONGEST = "listing", 20, 57


def walked(path, changed):
    """The core behind an order, how many events it took, and what is wrong with the order."""
    words = re.sub(r"#.*|,", " ", path.read_text(errors="replace")).split()
    oracle, make = tables.five((tables.ROOT / f"decks/{DECK}.deck").read_bytes(), None, (256, 256), None, changed)
    core = make()
    for at, word in enumerate(words, 1):
        may = [p for p in core.processes if core.enabled(p)]
        if word not in map(str, core.processes):
            return core, at - 1, f"event {at}: {word} is no process; they are 1 to 5"
        if int(word) not in may:
            names = ", ".join(f"{p} {oracle.NAMES[p]}" for p in may) or "nobody"
            return core, at - 1, f"event {at}: {word} {oracle.NAMES[int(word)]} can't go on there; {names} can"
        core.step(int(word))
    return core, len(words), None


def stuck(path):
    """Piece 6: with the disk asked for first, nobody can go on behind at most 20 events, and output has the disk."""
    core, events, problem = walked(path, wrong.disk_first)
    may = [p for p in core.processes if core.enabled(p)]
    if problem:
        return problem
    if may:
        return f"behind event {events} the process {may[0]} can still go on"
    if all(core.next[p] is None for p in core.processes):
        return f"behind event {events} all five have ended: that is no deadlock"
    if core.desk.holder != 4:
        return f"nobody can go on behind event {events}, and process {core.desk.holder} has the disk; find one in which output has it"
    return f"nobody can go on behind event {events}, and output has the disk; find a way of at most {MOST}" if events > MOST else None


def longest(path):
    """Piece 7: all five end, behind as many events as any order has."""
    core, events, problem = walked(path, None)
    if problem:
        return problem
    may = [p for p in core.processes if core.enabled(p)]
    if may:
        return f"behind event {events} the process {may[0]} can still go on"
    if events < LONGEST:
        return f"all have ended behind {events} events, {core.delays} of them delays; there is an order of {LONGEST}"
    return None
