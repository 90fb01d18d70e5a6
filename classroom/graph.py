"""Processes at monitors, and every state that any order of their events reaches.

A process is a generator that says what it does next and is sent the answer, as in oracle/simulate; what it does is a function of the
answers so far. So a process's state is a *node*: a number for its answers so far. A monitor's state is a number for its variables. A state
is a tuple of both, the processes first. An event is of one process and touches one monitor at most: what it leads to is asked once for each
pair of a node and a monitor, and kept. The rules themselves stand elsewhere (tables.py, timetable.py, solonet.py)."""
from array import array

OVER = ("over",)


class Refused(Exception):
    """There are more states than one wants to wait for."""


def frozen(value):
    """A value that can be a key."""
    if isinstance(value, (list, tuple)):
        return tuple(map(frozen, value))
    if isinstance(value, dict):
        return tuple((key, frozen(value[key])) for key in value)
    if isinstance(value, (set, frozenset)):
        return tuple(sorted(value))
    return value


def copied(value):
    """A value that may be changed: the containers are new."""
    if isinstance(value, (list, set)):
        return type(value)(value)
    return dict(value) if isinstance(value, dict) else value


class Nodes:
    """The states of one process: what it does next, by its answers so far. `make` gives a new generator."""

    def __init__(self, make):
        self.make, self.actions, self.children, self.parents, self.live = make, [], [], [], {}
        process = make()
        self.add(next(process), None, None, process)

    def add(self, action, parent, answer, process):
        self.actions.append(action)
        self.children.append({})
        self.parents.append((parent, answer))
        self.live[len(self.actions) - 1] = process
        return len(self.actions) - 1

    def answers(self, node):
        """The answers that led here."""
        found = []
        while self.parents[node][0] is not None:
            node, answer = self.parents[node]
            found.append(answer)
        return found[::-1]

    def at(self, node):
        """A generator that stands here: the one that came here first, or else one that is told all answers again."""
        process = self.live.pop(node, None)
        if process is None:
            process = self.make()
            next(process)
            for answer in self.answers(node):
                process.send(answer)
        return process

    def child(self, node, answer):
        key = frozen(answer)
        if key not in self.children[node]:
            process = self.at(node)
            try:
                action = process.send(answer)
            except StopIteration:
                action = ("ended",)
            self.children[node][key] = self.add(action, node, answer, process)
        return self.children[node][key]

    def over(self, node):
        """Where a process is that has ended here."""
        if OVER not in self.children[node]:
            self.children[node][OVER] = self.add(None, node, OVER, None)
        return self.children[node][OVER]


class Graph:
    """The states of a table: `table` has the processes' makers, the monitors, which monitor an action touches, and what an event does."""

    def __init__(self, table):
        self.table = table
        self.processes = list(table.makers)
        self.nodes = {p: Nodes(make) for p, make in table.makers.items()}
        self.monitors = list(table.monitors)
        self.places = {name: len(self.processes) + n for n, name in enumerate(self.monitors)}
        self.known = {name: {} for name in self.monitors}
        self.values = {name: [] for name in self.monitors}
        self.effects = [{} for _ in self.processes]
        self.waiting = {name: [] for name in self.monitors}
        self.touched = [[] for _ in self.processes]
        first = [self.number(name, vars(monitor)) for name, monitor in table.monitors.items()]
        self.start = (0,) * len(self.processes) + tuple(first)

    def number(self, name, variables):
        """The number of a monitor's variables."""
        known, key = self.known[name], frozen(variables)
        if key not in known:
            known[key] = len(known)
            self.values[name].append({field: copied(value) for field, value in variables.items()})
            self.waiting[name].append(self.table.who_waits(name, variables))
        return known[key]

    def restore(self, name, number):
        """The table's monitor, with the variables of this number."""
        monitor = self.table.monitors[name]
        vars(monitor).update({field: copied(value) for field, value in self.values[name][number].items()})
        return monitor

    def place(self, slot, node):
        """Where in the state the monitor stands that this node's action touches; the process's own place where it touches none."""
        touched = self.touched[slot]
        while len(touched) <= node:
            action = self.nodes[self.processes[slot]].actions[len(touched)]
            touched.append(self.places.get(self.table.touches(action) if action else None, slot))
        return touched[node]

    def effect(self, slot, node, place, number):
        """The node and the monitor behind this process's event, or None where it may make none."""
        p = self.processes[slot]
        action, name = self.nodes[p].actions[node], None
        if action is None:
            return None
        if place != slot:
            name = self.monitors[place - len(self.processes)]
            self.restore(name, number)
        if not self.table.enabled(p, action):
            return None
        moved = self.table.event(p, action)
        if moved is None:
            to = node
        else:
            to = self.nodes[p].over(node) if moved == OVER else self.nodes[p].child(node, moved[0])
        return (to, to) if name is None else (to, self.number(name, vars(self.table.monitors[name])))

    def moves(self, state):
        """Each process that may go on, by its place, and the state behind its event."""
        found = []
        for slot, effects in enumerate(self.effects):
            node = state[slot]
            touched = self.touched[slot]
            place = touched[node] if node < len(touched) else self.place(slot, node)
            key = (node, state[place])
            if key in effects:
                effect = effects[key]
            else:
                effect = effects[key] = self.effect(slot, node, place, state[place])
            if effect is not None:
                after = list(state)
                after[slot], after[place] = effect
                found.append((slot, tuple(after)))
        return found

    def ended(self, state):
        return all(self.nodes[p].actions[node] is None for p, node in zip(self.processes, state))

    def who_waits(self, state):
        """The processes that wait, without those to which a turn is handed."""
        return [p for name, number in zip(self.monitors, state[len(self.processes):]) for p in self.waiting[name][number]]


class Search:
    """All states, in the order of their distance from the first: so the way to each is a shortest one. `wrong` says what is wrong with a
    state, by its graph, the state and its moves; the search ends at the first state with which something is."""

    def __init__(self, graph, most, wrong=lambda graph, state, moves: None):
        self.graph, self.states, self.found = graph, [graph.start], {graph.start: 0}
        self.before, self.by, self.events, self.problem = array("q", [-1]), array("B", [0]), 0, None
        self.ends, self.stuck, self.most_waiting, self.most_at = [], [], 0, 0
        for at, state in enumerate(self.states):
            moves = graph.moves(state)
            self.note(at, state, moves)
            self.problem = wrong(graph, state, moves)
            if self.problem:
                self.wrong_at = at
                return
            for slot, after in moves:
                if after not in self.found:
                    self.found[after] = len(self.states)
                    self.states.append(after)
                    self.before.append(at)
                    self.by.append(slot)
            if len(self.states) > most:
                raise Refused(len(self.states))

    def note(self, at, state, moves):
        self.events += len(moves)
        if not moves:
            (self.ends if self.graph.ended(state) else self.stuck).append(at)
        waiting = sum(len(self.graph.waiting[name][number])
                      for name, number in zip(self.graph.monitors, state[len(self.graph.processes):]))
        if waiting > self.most_waiting:
            self.most_waiting, self.most_at = waiting, at

    def way(self, at):
        """The processes that go on, one after the other, up to this state."""
        found = []
        while at:
            found.append(self.graph.processes[self.by[at]])
            at = self.before[at]
        return found[::-1]


class Orders:
    """How many orders lead to each end, how long they are, and how likely each end is where who goes on next is drawn evenly. The states
    of `last` are ends, too."""

    def __init__(self, search, last=()):
        graph = search.graph
        count, least, most, chance = {0: 1}, {0: 0}, {0: 0}, {0: 1.0}
        for level in levels(search):
            for at in level:
                moves = [] if at in last else graph.moves(search.states[at])
                for _, after in moves if at in count else ():
                    to = search.found[after]
                    count[to] = count.get(to, 0) + count[at]
                    least[to] = min(least.get(to, least[at] + 1), least[at] + 1)
                    most[to] = max(most.get(to, 0), most[at] + 1)
                    chance[to] = chance.get(to, 0) + chance[at] / len(moves)
                if moves and at in count:
                    del count[at], least[at], most[at], chance[at]
        self.count, self.least, self.most, self.chance = count, least, most, chance


def levels(search):
    """The states in an order in which each event leads to a later one: an event either brings a process on, and hands the turn to
    one other at most, or lets a process wait."""
    graph, found = search.graph, {}
    depths = {p: [] for p in graph.processes}
    for p in graph.processes:
        for parent, _ in graph.nodes[p].parents:
            depths[p].append(0 if parent is None else depths[p][parent] + 1)
    rows = [depths[p] for p in graph.processes]
    columns = [list(map(len, graph.waiting[name])) for name in graph.monitors]
    for at, state in enumerate(search.states):
        level = 2 * sum(row[node] for row, node in zip(rows, state))
        level += sum(column[number] for column, number in zip(columns, state[len(rows):]))
        found.setdefault(level, []).append(at)
    return [found[level] for level in sorted(found)]
