"""The timetable's table for Graph: an operator and some tasks at one monitor, by the rules of docs/lessons/9-timetable.md. What a line of the
script means, and which starts are due, is asked of oracle/times; .ci/classroom compares runs with those of oracle/times, event for event."""
from graph import OVER

OPERATOR = 1


class TimeTable:
    """The monitor: who waits in which queue, whose turn it is, whose start is awaited, whether it is closed, who has gone, and how often
    each task has seen its start."""

    def __init__(self, tasks):
        self.waiting, self.turn, self.awaited, self.closed, self.gone, self.runs = set(), None, None, False, set(), [0] * tasks

    def first_task(self):
        return min(self.waiting - {OPERATOR}, default=None)


def operator(times, script):
    """What the operator does, one thing after the other."""
    plain = times.Net(script)
    for line in script:
        yield ("free", f"reads {line}")
        said = times.meaning(line)
        if said[0] == "TICK":
            yield from tick(plain, said[1], times.LIMIT)
        elif said[0] == "BAD":
            yield ("free", "displays BAD COMMAND")
        elif said[0] != "BLANK":
            yield ("enters", f"enters {said[0]}")
            yield ("free", f"displays {said[0]}: {plain.entry(said)}")
    yield ("free", "reads the end")
    yield ("close", "closes the table")
    runs = yield ("join", "joins")
    for place, name in enumerate(plain.names):
        yield ("free", f"displays {name}: {runs[place]} RUNS")


def tick(plain, seconds, limit):
    if plain.now + seconds > limit:
        yield ("free", "displays TICK: CLOCK LIMIT")
        return
    for _ in range(seconds):
        plain.now += 1
        for place, name in enumerate(plain.names):
            due = plain.due(name, plain.now)
            yield ("wake", f"wakes {name} in second {plain.now}, {'due' if due else 'not due'}", place + 2 if due else None)
            if due:
                yield ("free", f"displays {plain.now} {name}")
    yield ("free", f"displays TIME {plain.now}")


def task():
    while (yield ("come", "waits for its start")) == "runs":
        pass


class Table:
    """The processes and the monitor. Process 1 is the operator, task i is process i + 1."""

    def __init__(self, times, script, tasks):
        self.tasks = tasks
        self.makers = {OPERATOR: lambda: operator(times, list(script)), **{p: task for p in range(2, tasks + 2)}}
        self.monitors = {"table": TimeTable(tasks)}
        self.names = {OPERATOR: "operator", **{p: f"task {p - 1}" for p in range(2, tasks + 2)}}

    def touches(self, action):
        return None if action[0] in ("free", "ended") else "table"

    def enabled(self, p, action):
        table = self.monitors["table"]
        if self.touches(action) is None:
            return True
        return table.turn == p if p in table.waiting else table.turn is None

    def event(self, p, action):
        table, kind = self.monitors["table"], action[0]
        if kind == "ended":
            return OVER
        resumes = kind != "free" and p in table.waiting
        if resumes:
            table.waiting.discard(p)
            table.turn = None
        return (None,) if kind in ("free", "enters") else getattr(self, kind)(table, p, action, resumes)

    def wake(self, table, p, action, resumes):
        sleeper = action[2]
        if sleeper is None or resumes:
            return (None,)
        if sleeper in table.waiting:
            table.turn = sleeper
            return (None,)
        table.waiting.add(p)
        table.awaited = sleeper
        return None

    def close(self, table, p, action, resumes):
        table.closed, table.turn = True, table.first_task()
        return (None,)

    def join(self, table, p, action, resumes):
        if len(table.gone) < self.tasks:
            table.waiting.add(p)
            return None
        return (tuple(table.runs),)

    def come(self, table, p, action, resumes):
        if table.closed:
            return self.leave(table, p)
        if not resumes and table.awaited != p:
            table.waiting.add(p)
            return None
        if not resumes:
            table.awaited, table.turn = None, OPERATOR
        table.runs[p - 2] += 1
        return ("runs",)

    def leave(self, table, p):
        table.gone.add(p)
        table.turn = table.first_task() or (OPERATOR if OPERATOR in table.waiting else None)
        return ("gone",)

    def who_waits(self, name, values):
        return [p for p in sorted(values["waiting"]) if p != values["turn"]]


def console(graph, state):
    """What the operator has displayed in a state."""
    nodes, node, lines = graph.nodes[OPERATOR], state[0], []
    while nodes.parents[node][0] is not None:
        node, _ = nodes.parents[node]
        if nodes.actions[node][0] == "free" and nodes.actions[node][-1].startswith("displays "):
            lines.append(nodes.actions[node][-1][len("displays "):])
    return lines[::-1]
