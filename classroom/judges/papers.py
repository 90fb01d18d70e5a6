"""Pieces 1 to 4: a deck, a program, a session and a script for what they should print, by the oracles."""
import sys

import tables

sys.path.insert(0, str(tables.ROOT / "oracle"))
import seqbatch  # noqa: E402
import solosession  # noqa: E402
sys.path.pop(0)

WORK = tables.ROOT / "classroom/work"


def lines_of(path):
    return path.read_bytes().split(b"\n")[:-1]


def shown(lines):
    return "\n".join("  " + (line.decode("latin-1") or "(blank)") for line in lines) or "  (nothing)"


def differs(what, found, wanted):
    """The first line in which two texts differ, with what stands before it."""
    for at in range(max(len(found), len(wanted))):
        one, other = (lines[at] if at < len(lines) else None for lines in (found, wanted))
        if one != other:
            told = [f"line {at + 1} of {what} is {said(one)}, and should be {said(other)}; before it stands", shown(wanted[:at])]
            return "\n".join(told)
    return None


def said(line):
    return "missing" if line is None else repr(line.decode("latin-1"))


def deck(path):
    """Piece 1: the deck prints this paper."""
    return differs("the paper", seqbatch.reports(path.read_bytes()), lines_of(WORK / "1-deck/paper.txt"))


INPUTS = ([], [b"A"], [b"B"], [b""], [b"AA", b"A"], [b"BANANA", b"", b"PLUM"], [b"A A", b"AVOCADO", b"B", b"AAAA"], [b"A" * 80] * 20)


def program(path):
    """Piece 2: the program prints how many letters A each card of its input has."""
    cards = solosession.items(path.read_bytes())
    for data in INPUTS:
        wanted = [b"%d" % card.count(b"A") for card in data] + [b"COUNT: TERMINATED"]
        found = seqbatch.ran(b"COUNT", cards, data, 10_000)
        if found != wanted:
            return f"for the input\n{shown(data)}\nit prints\n{shown(found)}\nand should print\n{shown(wanted)}"
    return None


def session(path):
    """Piece 3: over the cards, the typed lines give this console and this paper."""
    room = WORK / "3-session"
    told = solosession.session(path.read_bytes(), (room / "session.cards").read_bytes(), {})
    return differs("the console", told.console, lines_of(room / "console.txt")) or differs("the paper", told.paper, lines_of(room / "paper.txt"))


def script(path):
    """Piece 4: the script gives this console."""
    times = tables.load("times")
    console, _, _ = times.run(times.lines_of(path.read_bytes().decode("latin-1")), 0)
    return differs("the console", [line.encode("latin-1") for line in console], lines_of(WORK / "4-script/console.txt"))
