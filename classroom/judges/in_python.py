"""Pieces 8 to 11: monitors written in Python, in every order of some calls, the smallest first."""
import importlib.machinery
import importlib.util
import traceback

from monitors import Scene, Wrong, search, told


def loaded(path, name):
    """The class of a file."""
    spec = importlib.util.spec_from_loader("work", importlib.machinery.SourceFileLoader("work", str(path)))
    module = importlib.util.module_from_spec(spec)
    spec.loader.exec_module(module)
    if not hasattr(module, name):
        raise Wrong(f"there is no class {name}")
    return getattr(module, name)


def tried(path, name, scenes):
    """The first scene of which some order goes wrong, and its shortest way there."""
    try:
        make = loaded(path, name)
        for words, scene in scenes(make):
            found = search(scene)
            if found.problem:
                way = "\n".join(told(scene, found.way))
                return f"{words}: {found.problem}, behind {some(len(found.way), 'event')}\n{way}"
    except Wrong as wrong:
        return str(wrong)
    except SyntaxError as failed:
        return f"Python doesn't read it: {failed}"
    except Exception as failed:
        lines = [at.lineno for at in traceback.extract_tb(failed.__traceback__) if at.filename == str(path)]
        if not lines:
            raise
        return f"line {lines[-1]}: {type(failed).__name__}: {failed}"
    return None


def called(run, name):
    """The processes that stand in a call of this entry, by their words."""
    return {p: run.call(p)[1:] for p in run.inside if run.call(p)[0] == name}


def done(run, name):
    """How many calls of an entry are done."""
    return sum(call[0] == name for p, answers in run.answers.items() for call in run.scene.calls[p][:len(answers)])


def some(count, word):
    return f"{count} {word}" if count == 1 else f"{count} {word}s"


# ---- 8: a buffer of some places
def buffer_scene(make, places, items):
    processes = [("sender", [("put", item) for item in items]), ("receiver", [("take",)] * len(items))]

    def judge(run):
        put, taken = done(run, "put"), run.answers[2]
        if taken != items[:len(taken)]:
            return f"taken were {', '.join(map(str, taken))}"
        if not 0 <= put - len(taken) <= places:
            return f"{put} were put and {len(taken)} taken, and there {'is' if places == 1 else 'are'} {some(places, 'place')}"
        if run.waits(1) and put - len(taken) < places:
            return f"the sender waits, and {put - len(taken)} of {some(places, 'place')} are taken"
        if run.waits(2) and put > len(taken):
            return f"the receiver waits, and {put - len(taken)} are inside"
        return None
    return Scene(lambda: make(places), processes, judge)


def buffer(path):
    def scenes(make):
        for places, count in ((1, 1), (1, 2), (1, 3), (2, 3), (2, 5), (3, 7)):
            yield f"{some(places, 'place')} and {some(count, 'item')}", buffer_scene(make, places, list("ABCDEFG")[:count])
    return tried(path, "Buffer", scenes)


# ---- 9: readers and writers
def users(run, kind):
    """The processes that have begun to read, or to write, and haven't ended."""
    found = []
    for p, answers in run.answers.items():
        begun = [call[0] for call in run.scene.calls[p][:len(answers)]]
        if begun and begun[-1] == f"begin_{kind}":
            found.append(p)
    return found


def readers_scene(make, readers, writers, rounds, seen):
    calls = lambda p, kind: [(f"begin_{kind}", p), (f"end_{kind}", p)] * rounds
    processes = [(f"reader {n}", calls(n, "read")) for n in range(1, readers + 1)]
    processes += [(f"writer {n}", calls(readers + n, "write")) for n in range(1, writers + 1)]

    def judge(run):
        reading, writing = users(run, "read"), users(run, "write")
        seen["together"] = seen["together"] or len(reading) > 1
        if len(writing) > 1 or writing and reading:
            return f"{len(reading)} read and {len(writing)} write at once"
        p, words, came = run.history[-1]
        waiting = [q for q in called(run, "begin_write") if run.waits(q)]
        if words.startswith("calls begin_read") and came != "waits" and waiting:
            return f"process {p} begins to read, and the writer {waiting[0]} waits already"
        return None
    return Scene(make, processes, judge)


def readers(path):
    def scenes(make):
        for count, writers, rounds in ((1, 1, 1), (2, 0, 1), (1, 2, 1), (2, 1, 1), (2, 1, 2), (2, 2, 1), (3, 1, 1)):
            seen = {"together": False}
            scene = readers_scene(make, count, writers, rounds, seen)
            yield f"{some(count, 'reader')} and {some(writers, 'writer')}, {some(rounds, 'time')} each", scene
            if count > 1 and not seen["together"]:
                raise Wrong(f"with {some(count, 'reader')} and {some(writers, 'writer')} two never read at once, in no order")
    return tried(path, "Readers", scenes)


# ---- 10: an alarm clock
def now(run):
    return done(run, "tick")


def dues(run):
    """When each sleeper is to wake: the second in which it called, and its seconds."""
    found, second = {}, 0
    for p, words, came in run.history:
        if words.startswith("calls sleep"):
            found[p] = second + int(words.split()[-1])
        second += words.startswith("calls tick")
    return found


def clock_scene(make, sleeps, ticks):
    processes = [("clock", [("tick",)] * ticks)] + [(f"sleeper {n}", [("sleep", n + 1, seconds)]) for n, seconds in enumerate(sleeps, 1)]

    def judge(run):
        due = dues(run)
        for p, second in due.items():
            if run.ended_call(p) and now(run) < second:
                return f"process {p} wakes in second {now(run)}, and should sleep up to second {second}"
            if run.waits(p) and run.turn is None and now(run) >= second:
                return f"process {p} sleeps on in second {now(run)}, and was to wake in second {second}"
        return None

    def finish(run):
        return None if run.call(1) is None else "the clock can't go on"
    return Scene(make, processes, judge, finish, ghost=lambda run: sorted(dues(run).items()))


def clock(path):
    def scenes(make):
        for sleeps, ticks in (([1], 1), ([2], 3), ([1, 1], 2), ([2, 1], 3), ([1, 1, 1], 2), ([1, 2, 2], 3)):
            yield f"to sleep {', '.join(map(str, sleeps))}, and {some(ticks, 'tick')}", clock_scene(make, sleeps, ticks)
    return tried(path, "AlarmClock", scenes)


# ---- 11: the same buffer, where who continues goes on inside
def senders_scene(make, senders, receivers, count):
    items = list("ABCDEFG")[:count]
    puts = [[("put", item) for item in items[n::senders]] for n in range(senders)]
    takes = [[("take",)] * len(items[n::receivers]) for n in range(receivers)]
    processes = [(f"sender {n}", calls) for n, calls in enumerate(puts, 1)] + [(f"receiver {n}", calls) for n, calls in enumerate(takes, 1)]

    def taken(run):
        return [item for p in range(senders + 1, senders + receivers + 1) for item in run.answers[p]]

    def judge(run):
        found = taken(run)
        for item in found:
            if item not in items or found.count(item) > 1:
                return f"{item} was taken twice" if item in items else f"{item} was taken, which nobody put"
        put = done(run, "put")
        return f"{put} were put and {len(found)} taken, and there is one place" if put > len(found) + 1 else None

    def finish(run):
        return None if run.ended() else f"nobody can go on, and taken were {', '.join(map(str, taken(run))) or 'none'}"
    return Scene(make, processes, judge, finish, hand_over=False)


def tests_again(path):
    def scenes(make):
        for senders, receivers, count in ((1, 1, 2), (2, 1, 2), (2, 1, 3), (1, 2, 2), (2, 2, 3), (2, 2, 4)):
            yield f"{some(senders, 'sender')}, {some(receivers, 'receiver')} and {some(count, 'item')}", senders_scene(make, senders, receivers, count)
    return tried(path, "Place", scenes)
