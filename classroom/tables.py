"""The tables of the oracles as Graph takes them: the five of oracle/simulate and the six of oracle/twin. What an action does is done by the
oracle's own step, over its own buffers and desk."""
import importlib.machinery
import importlib.util
import sys
from pathlib import Path

from graph import OVER

sys.dont_write_bytecode = True
ROOT = Path(__file__).resolve().parent.parent


def load(name):
    """A new copy of an oracle, so that what one run changes in it no other run sees."""
    loader = importlib.machinery.SourceFileLoader(name, str(ROOT / "oracle" / name))
    module = importlib.util.module_from_spec(importlib.util.spec_from_loader(name, loader))
    sys.path.insert(0, str(ROOT / "oracle"))
    loader.exec_module(module)
    sys.path.pop(0)
    return module


class Table:
    """A table over a core of oracle/simulate. `make_core` gives a new one, which is at the beginning."""

    def __init__(self, make_core):
        self.make_core, self.core = make_core, make_core()
        self.makers = {p: (lambda p=p: self.begun(p)) for p in self.core.processes}
        self.monitors = {**self.core.buffers, "disk": self.core.desk}
        self.core.desk.grants = 0
        self.core.go = self.note
        self.answer = None

    def begun(self, p):
        """A process's generator at its beginning, which no core has asked yet."""
        core = self.make_core()
        first, process = core.next[p], core.processes[p]

        def behind_the_first():
            answer = yield first
            while True:
                try:
                    action = process.send(answer)
                except StopIteration:
                    return
                answer = yield action
        return behind_the_first()

    def note(self, p, answer=None):
        """In place of the core's going on: what came of the action."""
        self.answer = (answer,)

    def touches(self, action):
        kind = action[0]
        if kind in ("request", "release"):
            return "disk"
        return action[1] if kind in ("put", "take", "putpage", "takepage", "await", "stop") else None

    def enabled(self, p, action):
        self.core.next[p] = action
        return self.core.enabled(p)

    def event(self, p, action):
        """The answer of an action in a tuple; None where its process waits; OVER where it has ended."""
        self.core.next[p], self.answer = action, None
        self.core.step(p)
        self.core.desk.grants = 0
        return OVER if self.core.next[p] is None else self.answer

    def who_waits(self, name, values):
        if name == "disk":
            return list(values["waiting"])
        return [p for side, p in values["queue"].items() if p is not None and side != values["turn"]]


def paper_of(graph, state):
    """The paper of a state: what its printer has printed."""
    p = graph.processes[-1]
    core = graph.table.make_core()
    for answer in graph.nodes[p].answers(state[graph.processes.index(p)]):
        if answer != OVER:
            core.go(p, answer)
    return tuple(core.paper)


def five(deck, programs, spools, room=None, wrong=None):
    """A maker of the five over this deck."""
    simulate = load("simulate")
    if room:
        simulate.PAGE_ROOM = room
    core = wrong(simulate) if wrong else simulate.Core
    return simulate, lambda: core(deck, programs, spools)


def twins(deck, programs, spools, room=None, wrong=None):
    """A maker of the six over this deck."""
    twin = load("twin")
    if room:
        twin.simulate.PAGE_ROOM = room
    if wrong:
        wrong(twin.simulate)
    return twin, lambda: twin.Twin(deck, programs, spools)


def least_page(deck, programs):
    """The bytes of the smallest page that has room for each card and each line of a deck."""
    oracle = load("simulate")
    core = oracle.Core(deck, programs)
    core.run("least")
    return 1 + max(len(line or b"") for line in [*oracle.cards(deck), *core.paper])
