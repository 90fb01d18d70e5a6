"""Solo's three processes for Graph: the table of oracle/solosession.py. What a process reads or accepts is a function of how often it did,
so each such action has it beside it."""
import sys

from graph import OVER
from tables import ROOT

sys.path.insert(0, str(ROOT / "oracle"))
import solosession  # noqa: E402
sys.path.pop(0)

NAMES = {1: "input", 2: "job", 3: "output"}
BUFFERS = {1: "orders", 2: "pages", 3: "report", 4: "orders", 5: "pages", 6: "report"}


def fed(process, kind, row):
    """A process whose actions of this kind have what they get beside them."""
    row, answer = list(row), None
    while True:
        try:
            action = process.send(answer)
        except StopIteration:
            return
        if action[0] == kind:
            action = (kind, row.pop(0) if row else solosession.END)
        answer = yield action


class Table:
    def __init__(self, keys, cards, files):
        self.net = solosession.Net(keys, cards, files)
        self.net.go = self.note
        typed, deck = solosession.items(keys), solosession.items(cards)
        job = lambda: solosession.job_process(solosession.command, solosession.Files(files))
        self.makers = {1: lambda: fed(solosession.input_process(), "read", deck), 2: lambda: fed(job(), "accept", typed),
                       3: lambda: fed(solosession.output_process(), "none", [])}
        self.monitors, self.names, self.answer = self.net.buffers, NAMES, None

    def note(self, p, answer=None):
        self.answer = (answer,)

    def touches(self, action):
        return action[1] if action[0] in ("put", "take") else None

    def enabled(self, p, action):
        self.net.next[p] = action
        return self.net.enabled(p)

    def event(self, p, action):
        kind, *rest = action
        if kind == "ended":
            return OVER
        if kind in ("read", "accept"):
            return (rest[0],)
        if kind not in ("put", "take"):
            return (None,)
        self.answer = None
        self.net.visit(p, kind, *rest)
        return self.answer

    def who_waits(self, name, values):
        return [p for side, p in values["waits"].items() if p is not None and side != values["turn"]]


def shown(graph, state, p, kind):
    """The lines that a process has displayed, or printed, in a state."""
    nodes, node = graph.nodes[p], state[graph.processes.index(p)]
    lines = []
    while nodes.parents[node][0] is not None:
        node, _ = nodes.parents[node]
        if nodes.actions[node][0] == kind:
            lines.append(nodes.actions[node][1])
    return lines[::-1]
