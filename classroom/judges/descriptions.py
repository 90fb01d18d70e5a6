"""Piece 5: a description of access rights, judged by docs/formats/ACCESS.md; .ci/classroom compares the judgements with those of the samples."""
import re

import tables

MOST = 255
RIGHTS = {"READER": ["INQUEUE", "LOG"], "FORMAT": ["INQUEUE", "OUTQUEUE"], "WRITER": ["OUTQUEUE"], "INQUEUE": ["TABLE"],
          "OUTQUEUE": ["TABLE", "LOG"], "LOG": ["TABLE"]}
MONITORS, PROCESSES = {"INQUEUE", "OUTQUEUE", "TABLE", "LOG"}, {"READER", "FORMAT", "WRITER"}


class Description:
    """What the cards say: the declarations in order, the rights and the order."""

    def __init__(self):
        self.kinds, self.rights, self.order = {}, [], []

    def add(self, words):
        """Takes a card's words, and answers its fault, or nothing."""
        kind, names = words[0], words[1:]
        if kind in ("MONITOR", "PROCESS") and len(names) == 1:
            if names[0] in self.kinds:
                return "DECLARED TWICE"
            if len(self.kinds) == MOST:
                return "TOO MANY"
            self.kinds[names[0]] = kind
            return None
        if kind == "RIGHT" and len(names) >= 2:
            if names[0] not in self.kinds or any(self.kinds.get(name) != "MONITOR" for name in names[1:]):
                return "UNKNOWN NAME"
            self.rights += [(names[0], name) for name in names[1:]]
            return None
        if kind == "ORDER" and names:
            return self.ordered(names)
        return "BAD LINE"

    def ordered(self, names):
        if any(self.kinds.get(name) != "MONITOR" for name in names):
            return "UNKNOWN NAME"
        for name in names:
            if name in self.order:
                return "ORDERED TWICE"
            self.order.append(name)
        return None


def read(text):
    """The description and its judgement."""
    simulate, found = tables.load("simulate"), Description()
    for number, card in enumerate(simulate.cards(text), 1):
        if card == b"":
            continue
        words = card.decode().upper().split() if card is not None else [""]
        if any(not re.fullmatch("[A-Z][A-Z0-9]{0,11}", word) for word in words):
            return found, f"CARD {number}: BAD LINE"
        fault = found.add(words)
        if fault:
            return found, f"CARD {number}: {fault}"
    return found, judgement(found)


def judgement(found):
    monitors = [name for name, kind in found.kinds.items() if kind == "MONITOR"]
    for name in monitors:
        if name not in found.order:
            return f"NOT ORDERED: {name}"
    for holder, name in found.rights:
        if found.kinds[holder] == "MONITOR" and found.order.index(name) <= found.order.index(holder):
            return f"RIGHT OF {holder} TO {name} IS BACKWARD"
    return f"ACCEPTED {len(monitors)} MONITORS, {len(found.kinds) - len(monitors)} PROCESSES"


def description(path):
    """The description is accepted, and has these processes, monitors and rights."""
    found, said = read(path.read_bytes())
    if not said.startswith("ACCEPTED"):
        return said
    declared = {kind: {name for name, its in found.kinds.items() if its == kind} for kind in ("MONITOR", "PROCESS")}
    if declared != {"MONITOR": MONITORS, "PROCESS": PROCESSES}:
        return f"declared are {', '.join(sorted(found.kinds))}; there should be {', '.join(sorted(MONITORS | PROCESSES))}"
    wanted = {(holder, name) for holder, names in RIGHTS.items() for name in names}
    for holder, name in sorted(wanted - set(found.rights)):
        return f"{holder} has no right to {name}"
    for holder, name in sorted(set(found.rights) - wanted):
        return f"{holder} has a right to {name}, which it shouldn't have"
    return None
