"""Monitors that are written in Python, and every order in which processes may call them.

A monitor is a class over Monitor. Its entries are generators: `yield delay("room")` waits in the queue variable of this name, and
`yield cont("items")` continues who waits there, if somebody does; `self.empty("items")` says whether nobody does. A queue variable holds
one process at most. As in the book `cont` is the last thing that an entry does, but for a `return`: who was delayed goes on before anybody
else enters. With `hand_over = False` it is otherwise: who continues goes on inside, who was delayed has to come in like any other caller,
and a queue may hold many."""
import inspect


class Asked(tuple):
    """What an entry asks for by `yield`: to be delayed in a queue, or to continue who waits there. `unused` has what was not yielded yet."""
    unused = []

    def __new__(cls, kind, queue):
        made = super().__new__(cls, (kind, queue))
        cls.unused.append(made)
        return made

    @classmethod
    def forgotten(cls):
        """What is wrong where something was asked for and not yielded."""
        return "".join(f"{'delay' if kind == 'delay' else 'cont'}({queue!r}) without `yield` does nothing" for kind, queue in cls.unused[:1])


def delay(queue):
    return Asked("delay", queue)


def cont(queue):
    return Asked("continue", queue)


class Wrong(Exception):
    """A monitor does what a monitor may not do."""


class Monitor:
    """What all monitors have. A class over it sets its own variables in `start`."""

    def __init__(self, *words):
        self._queues = {}
        self.start(*words)

    def start(self):
        pass

    def empty(self, queue):
        return not self._queues.get(queue)

    def variables(self):
        """The monitor's own variables, as they can be compared."""
        return tuple(sorted((name, frozen(value)) for name, value in vars(self).items() if not name.startswith("_")))


def frozen(value):
    """A value that can be a key, and that tells its type."""
    if isinstance(value, dict):
        return ("dict", tuple((frozen(key), frozen(other)) for key, other in value.items()))
    if isinstance(value, (list, tuple)):
        return (type(value).__name__, tuple(map(frozen, value)))
    if isinstance(value, (set, frozenset)):
        return ("set", tuple(sorted(map(repr, value))))
    try:
        hash(value)
    except TypeError:
        return repr(value)
    return value


class Scene:
    """Who calls what: of each process its name and its calls, one after the other, each an entry's name and what it is given. `judge` is given
    a run behind each event and says what is wrong with it, and `finish` where nobody can go on. `ghost` is what of the past `judge` asks for:
    two runs are in one state only where they agree in it."""

    def __init__(self, make, processes, judge=lambda run: None, finish=None, hand_over=True, ghost=lambda run: None):
        self.make, self.judge, self.hand_over, self.ghost = make, judge, hand_over, ghost
        self.finish = finish or all_called
        self.names = {p: name for p, (name, _) in enumerate(processes, 1)}
        self.calls = {p: calls for p, (_, calls) in enumerate(processes, 1)}


def all_called(run):
    """What is wrong where nobody can go on, and nothing else is known."""
    return None if run.ended() else "nobody can go on"


class Run:
    """A run so far. `answers` has what each process's calls answered, `inside` who stands where in an entry, `turn` whose turn it is."""

    def __init__(self, scene):
        self.scene, self.monitor = scene, scene.make()
        if not hasattr(self.monitor, "_queues"):
            raise Wrong("write a class over Monitor, and set its variables in `start`, not in `__init__`")
        self.answers = {p: [] for p in scene.calls}
        self.inside, self.turn, self.history = {}, None, []

    def call(self, p):
        """The call that a process makes, or None where it has made all."""
        at = len(self.answers[p])
        return self.scene.calls[p][at] if at < len(self.scene.calls[p]) else None

    def ended_call(self, p):
        """Whether its latest call is done."""
        return p not in self.inside and bool(self.answers[p])

    def waits(self, p):
        """Whether it stands in a queue, and nobody has continued it."""
        return any(p in queue for queue in self.monitor._queues.values())

    def waiting(self):
        return [p for p in self.scene.calls if self.waits(p)]

    def may(self):
        """Who may go on."""
        if self.turn is not None:
            return [self.turn]
        return [p for p in self.scene.calls if self.call(p) is not None and not self.waits(p)]

    def ended(self):
        return all(self.call(p) is None for p in self.scene.calls)

    def key(self):
        inside = tuple((p, entry.gi_frame.f_lasti, frozen({name: value for name, value in entry.gi_frame.f_locals.items() if name != "self"}))
                       for p, entry in sorted(self.inside.items()))
        queues = tuple(sorted((repr(name), tuple(queue)) for name, queue in self.monitor._queues.items() if queue))
        return (self.monitor.variables(), queues, inside, self.turn, frozen(self.answers), frozen(self.scene.ghost(self)))

    def step(self, p):
        """One event: a call up to its delay or its end, or the rest of one that was delayed. It tells the event's words."""
        name, *words = self.call(p)
        said = " ".join([name, *map(str, words)])
        Asked.unused.clear()
        if p in self.inside:
            entry, self.turn = self.inside.pop(p), None
            said = "goes on in " + said
        else:
            made = getattr(self.monitor, name)(*words)
            entry, said = made if inspect.isgenerator(made) else self.plain(made), "calls " + said
        came = self.go_through(p, entry)
        self.history.append((p, said, came))
        return said, came

    @staticmethod
    def plain(answer):
        """An entry without delay and continue."""
        return answer
        yield

    def asked(self, given):
        """What a `yield` asks for."""
        if not isinstance(given, Asked):
            raise Wrong(f"it yields {given!r}: delay(..) or cont(..) is what an entry yields")
        if given in Asked.unused:
            Asked.unused.remove(given)
        self.all_yielded()
        return given

    @staticmethod
    def all_yielded():
        if Asked.unused:
            raise Wrong(Asked.forgotten())

    def go_through(self, p, entry):
        continued = None
        while True:
            before = self.monitor.variables()
            try:
                kind, queue = self.asked(next(entry))
            except StopIteration as ended:
                self.all_yielded()
                if continued is not None and self.scene.hand_over and self.monitor.variables() != before:
                    raise Wrong(f"the monitor is changed behind cont({continued!r}), which is the last thing that an entry does") from None
                self.answers[p].append(ended.value)
                return "done" if ended.value is None else f"{ended.value}"
            if continued is not None and self.scene.hand_over:
                raise Wrong(f"{kind} comes behind cont({continued!r}), which is the last thing that an entry does")
            held = self.monitor._queues.setdefault(queue, [])
            if kind == "delay":
                if held and self.scene.hand_over:
                    raise Wrong(f"process {p} is delayed in {queue!r}, where process {held[0]} waits: a queue variable holds one")
                held.append(p)
                self.inside[p] = entry
                return "waits"
            continued = queue
            if held:
                other = held.pop(0)
                self.turn = other if self.scene.hand_over else self.turn


class Found:
    """What a search found: how many states, the problem, and the shortest way into it."""

    def __init__(self, states, events, problem=None, way=()):
        self.states, self.events, self.problem, self.way = states, events, problem, list(way)


def search(scene, most=60000):
    """Every state that any order of calls reaches, the nearest first, up to the first problem."""
    ways, found, events = [()], {Run(scene).key()}, 0
    for way in ways:
        run = replay(scene, way)
        may = run.may()
        if not may:
            problem = scene.finish(run)
            if problem:
                return Found(len(ways), events, problem, way)
        for p in may:
            events += 1
            after = replay(scene, way)
            try:
                after.step(p)
                problem = scene.judge(after)
            except Wrong as wrong:
                problem = str(wrong)
            except Exception as failed:
                problem = Asked.forgotten() or f"{type(failed).__name__}: {failed}"
            if problem:
                return Found(len(ways), events, problem, (*way, p))
            key = after.key()
            if key not in found:
                found.add(key)
                ways.append((*way, p))
        if len(ways) > most:
            raise Wrong(f"more than {most} states: the monitor counts something without end")
    return Found(len(ways), events)


def replay(scene, way):
    run = Run(scene)
    for p in way:
        run.step(p)
    return run


def told(scene, way):
    """The events of a way, a line each, with who waits where behind it."""
    run, lines = Run(scene), []
    for number, p in enumerate(way, 1):
        call = " ".join(map(str, run.call(p)))
        try:
            said, came = run.step(p)
        except Exception as failed:
            said, came = f"calls {call}", f"{type(failed).__name__}"
        queues = " ".join(f"{name}:" + ",".join(map(str, queue)) for name, queue in run.monitor._queues.items() if queue)
        turn = f" turn:{run.turn}" if run.turn else ""
        lines.append(f"{number:5} {p} {run.scene.names[p]:12}{said + ' -> ' + came:40}{queues}{turn}".rstrip())
    return lines


def events(scene, way):
    """The events of a way as a picture has them."""
    from runtable import Event
    run, found = Run(scene), []
    for number, p in enumerate(way, 1):
        said, came = run.step(p)
        turns = {"monitor": run.turn} if run.turn else {}
        found.append(Event(number, p, scene.names[p], said, came, [], "-", turns, "queue"))
    return found
