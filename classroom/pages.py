"""What a page that one steps through is told of a run: what each process does at each node, how each monitor looks, and what each event
leads to, with its sentence. The page itself is page.html."""
import json
from pathlib import Path

import going_wrong
import solonet
import tables
import timetable
from graph import Graph, Refused, Search
from wrong import FAULT, STOPPED, WRONG

MOST, MOST_LOOKED = 60_000, 1_100_000
SIDES = {"put": "s", "putpage": "s", "take": "r", "takepage": "r"}


class Made:
    """A graph, and how it is drawn: `columns` are the names of processes and monitors from left to right, `foot` those below. A process has on
    the page the number that it has, less `below`: so task 1 is 1, and the operator 0."""

    def __init__(self, title, graph, names, columns, foot, teller):
        self.title, self.graph, self.names, self.columns, self.foot, self.teller = title, graph, names, columns, foot, teller
        self.run, self.whole, self.right, self.below = [], True, None, 0
        self.arrows = ["\u2192"] * (len(columns) - 1) if foot else ["\u2194"] * 2 + ["\u2194" if len(graph.monitors) > 1 else ""] * 2


def of_deck(options, deck):
    plain = tables.load("simulate")
    paper = Path(options.paper or Path(deck).with_suffix(".paper"))
    lines = paper.read_bytes().split(b"\n")[:-1] if paper.is_file() else []
    wrong = WRONG[options.wrong] if options.wrong else None
    text, programs = Path(deck).read_bytes(), plain.from_paper(lines)
    room = options.page or (tables.least_page(text, programs) if options.wrong == "early-last" else None)
    oracle, make = tables.five(text, programs, (options.spools,) * 2, room, wrong)
    graph = Graph(tables.Table(make))
    columns = [[("p", 1)], [("m", 1)], [("p", 2)], [("m", 2)], [("p", 3)], [("m", 3)], [("p", 4)], [("m", 4)], [("p", 5)]]
    title = f"The five over {Path(deck).name}" + (f", {options.wrong}" if options.wrong else "")
    made = Made(title, graph, oracle.NAMES, columns, [("m", "disk")], DeckTeller(oracle, graph))
    if wrong:
        core = plain.Core(text, programs)
        core.run("least")
        made.right = options.wrong != "no-stop", tuple(core.paper)
    return made


def of_solo(options, keys, cards):
    graph = Graph(solonet.Table(Path(keys).read_bytes(), Path(cards).read_bytes(), {}))
    columns = [[("p", 1)], [("m", 1), ("m", 2), ("m", 3)], [("p", 2)], [("m", 4), ("m", 5), ("m", 6)], [("p", 3)]]
    return Made(f"Solo's three over {Path(keys).name}", graph, solonet.NAMES, columns, [], SoloTeller(graph))


def of_times(options, script):
    times = tables.load("times")
    times.TASKS = options.tasks
    lines = times.lines_of(Path(script).read_bytes().decode("latin-1"))
    graph = Graph(timetable.Table(times, lines, options.tasks))
    tasks = [("p", p) for p in range(2, options.tasks + 2)]
    columns = [[("p", 1)], [("m", "table")], tasks[:4]] + ([tasks[4:]] if tasks[4:] else [])
    made = Made(f"The timetable over {Path(script).name}", graph, graph.table.names, columns, [], TimesTeller(graph))
    made.below = timetable.OPERATOR
    return made


def after_node(graph, p, node):
    """The node behind one that has one alone behind it."""
    return next(iter(graph.nodes[p].children[node].values()))


# ---- what is said
class DeckTeller:
    """The words of the five."""

    def __init__(self, oracle, graph):
        self.oracle, self.graph = oracle, graph
        self.titles = {1: "1 cards", 2: "2 input spool", 3: "3 output spool", 4: "4 lines", "disk": "disk"}

    def shown(self, item):
        return self.oracle.shown(item)

    def does(self, p, action, node):
        kind, *rest = action
        if kind == "print":
            return f"prints {self.shown(self.graph.nodes[p].parents[node][1])}"
        fixed = {"read": "reads a card", "local": "works on its page", "request": "requests the disk", "release": "releases the disk",
                 "ended": "ends", "take": "takes", "takepage": "takes a page"}
        if kind in fixed:
            return fixed[kind]
        if kind == "await":
            return "awaits room" if rest[1] == "s" else "awaits a page"
        if kind == "putpage":
            return "puts the last page" if rest[1][1] else "puts a page"
        return {"put": lambda: f"puts {self.shown(rest[1])}", "load": lambda: f"loads {rest[0].decode()}",
                "stop": lambda: f"stops buffer {rest[0]}"}[kind]()

    def view(self, name, values):
        if name == "disk":
            return {"holder": str(values["holder"] or ""), "line": list(values["waiting"]), "turn": values["turn"]}
        inside = values["inside"]
        items = [f"{len(item[0])} items" + (", last" if item[1] else "") for item in inside] if name in (2, 3) else list(map(self.shown, inside))
        turn = values["queue"][values["turn"]] if values["turn"] else None
        return {"items": items[:6] + (["…"] if len(items) > 6 else []), "senders": values["queue"]["s"], "receivers": values["queue"]["r"],
                "turn": turn, "stopped": values.get("stopped") or "", "one": values["capacity"] == 1}

    def sentence(self, p, action, node, before, after, waits, answer):
        """What happens, in a sentence or two; `before` and `after` are the variables of the monitor."""
        kind, who = action[0], f"The {self.oracle.NAMES[p]} process"
        if answer in (FAULT, STOPPED):
            return f"{who} {self.does(p, action, node)}: " + ("that fails." if answer == FAULT else "it is told that the other side has stopped.")
        if kind == "read":
            return f"{who} reads a card: {self.shown(self.graph.nodes[p].actions[after_node(self.graph, p, node)][-1])}."
        if kind in ("local", "load", "print", "ended"):
            return f"{who} {self.does(p, action, node)}." if kind != "ended" else f"{who} has ended."
        if kind in ("request", "release"):
            return self.of_disk(who, p, kind, before, after, waits)
        return self.of_buffer(who, p, action, node, before, after, waits)

    def of_disk(self, who, p, kind, before, after, waits):
        if waits:
            return f"{who} requests the disk, which {self.oracle.NAMES[before['holder']]} has: it is delayed, and stands in the line."
        if kind == "request":
            return f"{who} has the turn: the disk is its." if before["turn"] == p else f"{who} requests the disk, and has it."
        if after["turn"]:
            return f"{who} releases the disk, and hands it to the {self.oracle.NAMES[after['turn']]} process, which has waited longest."
        return f"{who} releases the disk."

    def of_buffer(self, who, p, action, node, before, after, waits):
        kind, number = action[:2]
        side = SIDES.get(kind) or action[2]
        does, queue = self.does(p, action, node), "senders" if side == "s" else "receivers"
        if waits:
            return f"{who} comes to buffer {number}, which is {'full' if side == 's' else 'empty'}: it is delayed in the queue of the {queue}."
        start = f"{who} has the turn and goes on: it {does}" if before["turn"] == side else f"{who} {does}"
        if kind == "take":
            start += f" {self.shown(before['inside'][0])}" if before["inside"] else ""
        start += f" at buffer {number}."
        if after["turn"]:
            start += f" It continues the {self.oracle.NAMES[after['queue'][after['turn']]]} process, which has the turn now."
        return start

    def line(self, p, action, node):
        """What an event adds to the paper."""
        if action[0] == "print":
            return self.graph.nodes[p].parents[node][1].decode("latin-1")
        return None


class SoloTeller:
    """The words of Solo's three."""

    def __init__(self, graph):
        self.graph = graph
        self.titles = {b: f"{b} {word}" for b, word in solonet.BUFFERS.items()}

    @staticmethod
    def shown(parcel):
        if isinstance(parcel, tuple):
            return f"{len(parcel[0])} lines" + (", last" if parcel[1] else "")
        if isinstance(parcel, bytes):
            return parcel.decode("latin-1") or "(blank)"
        return {True: "TRUE", False: "FALSE", "end": "(end)", "nil": "Nil", None: "(spoiled)"}.get(parcel, str(parcel))

    def does(self, p, action, node):
        kind, *rest = action
        if kind in ("read", "accept"):
            return "reads a card" if kind == "read" else "accepts a line"
        if kind == "put":
            return f"puts {self.shown(rest[1])}"
        fixed = {"work": "works", "ended": "ends", "take": "takes"}
        return fixed.get(kind) or f"{kind}s {self.shown(rest[0])}"

    def view(self, name, values):
        turn = values["waits"][values["turn"]] if values["turn"] else None
        return {"items": list(map(self.shown, values["inside"])), "senders": values["waits"]["s"], "receivers": values["waits"]["r"],
                "turn": turn, "stopped": "", "one": True}

    def sentence(self, p, action, node, before, after, waits, answer):
        kind, who = action[0], f"The {solonet.NAMES[p]} process"
        if kind == "ended":
            return f"{who} has ended."
        if kind in ("read", "accept"):
            return f"{who} {self.does(p, action, node)}: {self.shown(action[1])}."
        if kind not in ("put", "take"):
            return f"{who} {self.does(p, action, node)}."
        side = "s" if kind == "put" else "r"
        if waits:
            return f"{who} comes to buffer {action[1]}, which is {'full' if kind == 'put' else 'empty'}: it is delayed."
        start = f"{who} has the turn and goes on: it " if before["turn"] == side else f"{who} "
        start += self.does(p, action, node) + (f" {self.shown(before['inside'][0])}" if kind == "take" else "") + f" at buffer {action[1]}."
        other = after["waits"][after["turn"]] if after["turn"] else None
        return start + (f" It continues the {solonet.NAMES[other]} process, which has the turn now." if other else "")

    def line(self, p, action, node):
        return self.shown(action[1]) if action[0] == "print" else None

    def typed(self, p, action, node):
        """What an event adds to the console."""
        if action[0] == "accept" and action[1] != "end":
            return "> " + self.shown(action[1])
        return action[1].decode("latin-1") if action[0] == "display" else None


class TimesTeller:
    """The words of the timetable."""

    def __init__(self, graph):
        self.graph, self.titles = graph, {"table": "time table"}

    def does(self, p, action, node):
        return "ends" if action[0] == "ended" else action[1]

    def view(self, name, values):
        return {"queue": sorted(values["waiting"]), "turn": values["turn"], "awaited": values["awaited"], "closed": values["closed"],
                "gone": sorted(values["gone"])}

    def sentence(self, p, action, node, before, after, waits, answer):
        start = self.named(p)[0].upper() + self.named(p)[1:]
        if action[0] == "ended":
            return f"{start} has ended."
        if waits:
            return f"{start} {action[1]}: it is delayed in its queue."
        does = {"runs": "sees its start", "gone": "leaves the closed table"}[answer] if action[0] == "come" else action[1]
        said = f"{start} has the turn and goes on: it {does}." if before and before["turn"] == p else f"{start} {does}."
        return said + (f" It continues {self.named(after['turn'])}, which has the turn now." if after and after["turn"] else "")

    def named(self, p):
        name = self.graph.table.names[p]
        return f"the {name}" if p == timetable.OPERATOR else name

    def typed(self, p, action, node):
        if action[0] == "free" and action[1].startswith("reads ") and action[1] != "reads the end":
            return "> " + action[1][6:]
        return action[1][9:] if action[0] == "free" and action[1].startswith("displays ") else None


# ---- the run, and what the page is told
def shortest(made):
    """The places of the processes that go on, on the shortest way into what goes wrong."""
    graph, right = made.graph, made.right
    search = Search(graph, MOST_LOOKED, going_wrong.problem_of(right[0], right[1]))
    return [graph.processes.index(p) for p in search.way(search.wrong_at)] if search.problem else recorded(graph, "least")


def recorded(graph, schedule):
    """The places of the processes that go on, under a schedule."""
    state, found, last, x = graph.start, [], -1, int(schedule) if schedule.isdigit() else 0
    while moves := graph.moves(state):
        if schedule == "least":
            slot, after = moves[0]
        elif schedule == "cyclic":
            slot, after = next((move for move in moves if move[0] > last), moves[0])
        else:
            x = (x * 1103515245 + 12345) % 2147483648
            slot, after = moves[(x // 65536) % len(moves)]
        found.append(slot)
        state, last = after, slot
    return found


def nothing(*_):
    return None


def effects_of(made):
    """Of each process what its events lead to, by node and monitor: the node, the monitor, the sentence, and what is added to paper and console."""
    graph, teller = made.graph, made.teller
    for slot, p in enumerate(graph.processes):
        told = {}
        for (node, number), effect in graph.effects[slot].items():
            if effect is None:
                continue
            action, place = graph.nodes[p].actions[node], graph.place(slot, node)
            name = graph.monitors[place - len(graph.processes)] if place != slot else None
            before, after = (graph.values[name][n] for n in (number, effect[1])) if name is not None else (None, None)
            waits = effect[0] == node
            answer = None if waits else graph.nodes[p].parents[effect[0]][1]
            sentence = teller.sentence(p, action, node, before, after, waits, answer)
            added = [None if waits or answer == FAULT else getattr(teller, kind, nothing)(p, action, node) for kind in ("line", "typed")]
            told[f"{node},{number}"] = [*effect, sentence, *added, waits]
        yield told


def page(made, schedule):
    """The text of the page."""
    graph, teller = made.graph, made.teller
    made.run = recorded(graph, schedule or "least") if schedule or not made.right else shortest(made)
    try:
        Search(graph, MOST)
    except Refused:
        made.whole = False
    data = {
        "title": made.title, "whole": made.whole, "run": made.run, "start": list(graph.start),
        "below": made.below, "processes": [{"number": p, "name": made.names[p]} for p in graph.processes],
        "monitors": [{"name": str(name), "title": teller.titles[name]} for name in graph.monitors],
        "columns": [[[kind, str(name)] for kind, name in column] for column in made.columns],
        "foot": [[kind, str(name)] for kind, name in made.foot],
        "places": [[graph.place(slot, node) for node in range(len(graph.nodes[p].actions))] for slot, p in enumerate(graph.processes)],
        "does": [[None if action is None else teller.does(p, action, node) for node, action in enumerate(graph.nodes[p].actions)]
                 for p in graph.processes],
        "views": [[teller.view(name, values) for values in graph.values[name]] for name in graph.monitors],
        "effects": list(effects_of(made)), "console": hasattr(teller, "typed"),
        "paper": hasattr(teller, "line"), "arrows": made.arrows,
    }
    text = json.dumps(data, ensure_ascii=True, separators=(",", ":")).replace("</", "<\\/")
    template = (Path(__file__).resolve().parent / "page.html").read_text()
    return template.replace("/*DATA*/null", text).replace("<!--TITLE-->", made.title)
