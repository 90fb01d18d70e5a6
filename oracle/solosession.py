"""A session of Solo, and its three processes, written from their tables alone, for `oracle/solo` and `oracle/sessions`.

A command is a generator of needs: ("cards",) is sent a card file, ("typed",) a typed line; ("display", line) and ("print", line) are
shown, and a line that is printed is told whether the page in hand had room for it. It returns the lines that answer it. `session`
meets the needs at once; `Net` by the three processes, one event at a time."""
import re

import seqcode
import seqpascal
from solodrive import IN_A_PART, ENTRIES, KINDS, LONGEST, PAGE, File, free_pages, taken_pages

END, NIL, ROOM = "end", "nil", "room"
SPOILED = None
TICKS, STACK = 1_000_000, 5
SIX = [b"COPY", b"COMPILE", b"LIST", b"DELETE", b"RENAME", b"PROTECT"]
NOWHERE = [b"CARDS", b"PRINTER"]
ASCII, SEQCODE = 2, 3


# ---- lines and names
def items(text):
    """Typed lines, or cards: each bytes, or SPOILED."""
    pieces = text.split(b"\n")
    if pieces[-1] == b"":
        pieces.pop()
    return [item(piece) for piece in pieces]


def item(line):
    if line.endswith(b"\r"):
        line = line[:-1]
    return SPOILED if len(line) > 80 or any(byte < 32 or byte > 126 for byte in line) else line.rstrip(b" ")


def ends_file(card):
    return card is not SPOILED and re.fullmatch(rb"#END *", card.upper()) is not None


def identifier(word):
    return word.upper() if re.fullmatch(rb"[A-Za-z][A-Za-z0-9]{0,11}", word) else None


def name_in(array):
    """The name that 12 numbers of a program are, or None."""
    while array and array[-1] == 32:
        array = array[:-1]
    return identifier(bytes(array)) if all(0 <= code <= 255 for code in array) else None


class Lines:
    """Characters to lines."""

    def __init__(self):
        self.held = b""

    def add(self, code):
        done = []
        if code == 10 or len(self.held) == 132:
            done, self.held = [self.held], b""
        if code != 10:
            self.held += bytes([code if 32 <= code <= 126 else ord("?")])
        return done

    def end(self):
        return [self.held] if self.held else []


# ---- the grammar of commands
def read_command(line):
    """None where the line is no command; else its word and what stands in parentheses."""
    found = re.fullmatch(rb" *([^ (),]+) *(?:\(([^()]*)\))? *", line)
    name = identifier(found.group(1)) if found else None
    if name is None or name in NOWHERE:
        return None
    words = [] if found.group(2) is None else [word.strip(b" ") for word in found.group(2).split(b",")]
    if any(word == b"" or b" " in word for word in words):
        return None
    arguments = six_arguments(name, words) if name in SIX else program_arguments(words)
    return None if arguments is None else (name, arguments)


def six_arguments(name, words):
    names = [identifier(word) for word in words]
    if len(words) != {b"LIST": 0, b"DELETE": 1}.get(name, 2) or None in names:
        return None
    if name == b"PROTECT":
        return [names[0], names[1] == b"ON"] if names[0] not in NOWHERE and names[1] in (b"ON", b"OFF") else None
    other = {(b"COPY", 0): b"CARDS", (b"COPY", 1): b"PRINTER"}
    good = all(word not in NOWHERE or other.get((name, place)) == word for place, word in enumerate(names))
    return names if good else None


def program_arguments(words):
    arguments = [argument(word) for word in words]
    return None if None in arguments or len(words) > 10 else arguments


def argument(word):
    """A tag, a number and a name."""
    if word.upper() in (b"NIL", b"TRUE", b"FALSE"):
        return {b"NIL": (0, 0, b""), b"TRUE": (1, 1, b""), b"FALSE": (1, 0, b"")}[word.upper()]
    if re.fullmatch(rb"-?[0-9]{1,5}", word):
        return (2, int(word), b"") if -32768 <= int(word) <= 32767 else None
    return (3, 0, identifier(word)) if identifier(word) else None


# ---- files
def text_of(file):
    return b"".join(file.pages).split(bytes([25]))[0]


def pages_of(data):
    return tuple(data[at:at + PAGE].ljust(PAGE, b"\0") for at in range(0, len(data), PAGE))


class Files:
    """The files of a session: a map that is never changed in place, and all the maps so far."""

    def __init__(self, files):
        self.maps = [{name: file._replace(pages=tuple(file.pages)) for name, file in files.items()}]

    def now(self):
        return self.maps[-1]

    def change(self, name, file=None):
        self.maps.append({**self.now(), name: file} if file else {key: file for key, file in self.now().items() if key != name})

    def store(self, name, kind, pages):
        """Stores a new file, and answers OK, or why not."""
        made = File(kind, False, tuple(pages))
        if len(self.now()) == ENTRIES:
            return b"CATALOG FULL"
        if len(made.pages) > LONGEST:
            return b"FILE FULL"
        if taken_pages(made) > free_pages(self.now()):
            return b"DISK FULL"
        self.change(name, made)
        return b"OK"

    def code_of(self, name):
        """The code of a file, or why there is none."""
        file = self.now().get(name)
        if file is None:
            return None, b"NO FILE"
        if file.kind != SEQCODE:
            return None, b"NOT CODE"
        try:
            return seqcode.verify(seqcode.decode(b"".join(file.pages))), b""
        except seqcode.BadCode as bad:
            return None, b"BAD CODE AT %d" % bad.args


# ---- programs
class Own:
    """What one program has."""

    def __init__(self, incoming):
        self.incoming, self.outgoing, self.opened = list(incoming), [], {}


class Programs:
    """The programs of one command, and what they share."""

    def __init__(self, files):
        self.files, self.printed, self.shown = files, Lines(), Lines()
        self.unread, self.spoiled, self.typed = None, False, b""

    def run(self, code, incoming, limit, deep):
        """Runs a program, and returns its result, its line, its ticks and its outgoing arguments."""
        own, running, reply = Own(incoming), seqcode.Machine(code, limit).run(), None
        while True:
            try:
                row, values, array, left = running.send(reply)
            except StopIteration as ended:
                return (*ended.value, own.outgoing)
            if row == "RUN":
                reply = yield from self.run_other(own, name_in(array), left, deep)
            elif row in ("READ", "WRITE", "WRITEINT", "ACCEPT", "DISPLAY"):
                reply = yield from self.device(row, values)
            else:
                reply = getattr(self, row.lower())(own, values, array)

    def run_other(self, own, name, left, deep):
        code, _ = self.files.code_of(name)
        if code is None or deep == STACK:
            return [0, seqcode.CALL_ERROR], None, 0
        incoming, own.outgoing = own.outgoing, []
        result, line, ticks, own.incoming = yield from self.run(code, incoming, left, deep + 1)
        return [min(line, 32767), result], None, ticks

    def device(self, row, values):
        if row == "READ":
            if self.unread is None:
                cards, self.spoiled = yield ("cards",)
                self.unread = b"".join(card + b"\n" for card in cards)
            code, self.unread = self.unread[0] if self.unread else 25, self.unread[1:]
            return [code], None, 0
        if row == "ACCEPT":
            if not self.typed:
                line = yield ("typed",)
                if line == END:
                    return [25], None, 0
                self.typed = b"\n" if line is SPOILED else line + b"\n"
            code, self.typed = self.typed[0], self.typed[1:]
            return [code], None, 0
        lines, need = (self.shown, "display") if row == "DISPLAY" else (self.printed, "print")
        for code in b"%d" % values[0] if row == "WRITEINT" else values:
            for line in lines.add(code):
                yield (need, line)
        return [], None, 0

    def open(self, own, values, array):
        f, name = values[0], name_in(array)
        if f not in (1, 2) or f in own.opened:
            return None
        found = name in self.files.now()
        if found:
            own.opened[f] = name
        return [int(found)], None, 0

    def close(self, own, values, _):
        if values[0] not in own.opened:
            return None
        del own.opened[values[0]]
        return [], None, 0

    def opened(self, own, f):
        return self.files.now()[own.opened[f]] if f in own.opened else None

    def get(self, own, values, _):
        file, p = self.opened(own, values[0]), values[1]
        if file is None or not 1 <= p <= len(file.pages):
            return None
        return [], list(file.pages[p - 1]), 0

    def put(self, own, values, array):
        file, p = self.opened(own, values[0]), values[1]
        if file is None or not 1 <= p <= len(file.pages) + 1 or file.protected:
            return None
        if p > len(file.pages):
            wanted = 1 + (len(file.pages) % IN_A_PART == 0)
            if len(file.pages) == LONGEST or wanted > free_pages(self.files.now()):
                return None
        pages = file.pages[:p - 1] + (bytes(array),) + file.pages[p:]
        self.files.change(own.opened[values[0]], file._replace(pages=pages))
        return [], None, 0

    def length(self, own, values, _):
        file = self.opened(own, values[0])
        return None if file is None else ([len(file.pages)], None, 0)

    def lookup(self, _, __, array):
        file = self.files.now().get(name_in(array))
        return [file.kind if file else 0, int(file is not None)], None, 0

    def readarg(self, own, _, __):
        tag, number, name = own.incoming.pop(0) if own.incoming else (0, 0, b"")
        return [tag, number], list(name.ljust(12)), 0

    def writearg(self, own, values, array):
        (tag, number), name = values, name_in(array)
        good = {0: True, 1: number in (0, 1), 2: True, 3: name is not None}.get(tag, False)
        if not good or len(own.outgoing) == 10:
            return None
        own.outgoing.append((tag, number if tag in (1, 2) else 0, name if tag == 3 else b""))
        return [], None, 0


RESULTS = {
    seqcode.TERMINATED: b"TERMINATED", seqcode.OVERFLOW: b"OVERFLOW IN LINE %d", seqcode.RANGE_ERROR: b"RANGE ERROR IN LINE %d",
    seqcode.STACK_LIMIT: b"STACK LIMIT IN LINE %d", seqcode.TIME_LIMIT: b"TIME LIMIT IN LINE %d", seqcode.CALL_ERROR: b"CALL ERROR IN LINE %d",
}


# ---- commands
def command(line, files):
    """The needs of a typed line that isn't blank."""
    read = None if line is SPOILED else read_command(line)
    if read is None:
        return [b"BAD COMMAND"]
    name, args = read
    if name == b"LIST":
        return listed(files.now())
    if name not in SIX:
        return (yield from run_program(files, name, args))
    told = (yield from copy(files, *args)) if name == b"COPY" else ON_FILES[name](files, *args)
    return [name + b": " + told]


def run_program(files, name, args):
    code, why = files.code_of(name)
    if code is None:
        return [name + b": " + why]
    programs = Programs(files)
    result, line, _, _ = yield from programs.run(code, args, TICKS, 1)
    for rest in programs.printed.end():
        yield ("print", rest)
    told = RESULTS[result]
    answers = [name + b": " + (told % line if b"%d" in told else told)]
    return programs.shown.end() + answers + ([name + b": SPOILED CARD"] if programs.spoiled else [])


def listed(files):
    lines = [b"%s %s %d PAGES" % (name, KINDS[file.kind], len(file.pages)) + (b" PROTECTED" if file.protected else b"")
             for name, file in sorted(files.items())]
    return lines + [b"LIST: %d FILES" % len(lines)]


def copy(files, origin, to):
    source = files.now().get(origin)
    if origin != b"CARDS" and source is None:
        return b"NO FILE"
    if to in files.now():
        return b"FILE EXISTS"
    if to == b"PRINTER" and source is not None and source.kind != ASCII:
        return b"NOT TEXT"
    if origin == b"CARDS":
        cards, spoiled = yield ("cards",)
        if spoiled:
            return b"SPOILED CARD"
        text = b"".join(card + b"\n" for card in cards)
        source = File(ASCII, False, pages_of(text + bytes([25])))
    if to != b"PRINTER":
        return files.store(to, source.kind, source.pages)
    lines = Lines()
    for code in text_of(source):
        for line in lines.add(code):
            yield ("print", line)
    for line in lines.end():
        yield ("print", line)
    return b"OK"


def compile_text(files, origin, to):
    source = files.now().get(origin)
    if source is None:
        return b"NO FILE"
    if to in files.now():
        return b"FILE EXISTS"
    if source.kind != ASCII:
        return b"NOT TEXT"
    lines = text_of(source).split(b"\n")
    try:
        code = seqpascal.compile_lines(lines if lines[-1] else lines[:-1])
    except seqpascal.Refused as refused:
        return refused.args[0]
    return files.store(to, SEQCODE, pages_of(seqcode.encode(code)))


def delete(files, name):
    file = files.now().get(name)
    if file is None or file.protected:
        return b"PROTECTED" if file else b"NO FILE"
    files.change(name)
    return b"OK"


def rename(files, old, new):
    file = files.now().get(old)
    if file is None:
        return b"NO FILE"
    if new in files.now() or file.protected:
        return b"FILE EXISTS" if new in files.now() else b"PROTECTED"
    files.maps.append({new if name == old else name: file for name, file in files.now().items()})
    return b"OK"


def protect(files, name, on):
    file = files.now().get(name)
    if file is None:
        return b"NO FILE"
    files.change(name, file._replace(protected=on))
    return b"OK"


ON_FILES = {b"COMPILE": compile_text, b"DELETE": delete, b"RENAME": rename, b"PROTECT": protect}


# ---- a session, at once
class Told:
    """What a session tells: the lines of the console and of the paper, and the maps of the files."""

    def __init__(self):
        self.console, self.paper, self.maps = [], [], []


def card_file(cards):
    """The next card file: its cards up to a spoiled one, and whether there is one."""
    taken = []
    while cards:
        card = cards.pop(0)
        if ends_file(card):
            break
        taken.append(card)
    sound = taken.index(SPOILED) if SPOILED in taken else len(taken)
    return taken[:sound], sound < len(taken)


def session(keys, cards, files, commands=command):
    told, area, typed, deck = Told(), Files(files), items(keys), items(cards)
    while typed:
        line = typed.pop(0)
        if line == b"":
            continue
        needs, reply = commands(line, area), None
        while True:
            try:
                need = needs.send(reply)
            except StopIteration as ended:
                told.console += ended.value
                break
            reply = None
            if need[0] == "cards":
                reply = card_file(deck)
            elif need[0] == "typed":
                reply = typed.pop(0) if typed else END
            else:
                (told.console if need[0] == "display" else told.paper).append(need[1])
    told.maps = area.maps
    return told


# ---- the three processes: generators that say what they do next
INPUT, JOB, OUTPUT = 1, 2, 3
PAGE_ROOM = 506
# Of each buffer its sender and its receiver.
ENDS = {1: (JOB, INPUT), 2: (INPUT, JOB), 3: (INPUT, JOB), 4: (JOB, OUTPUT), 5: (JOB, OUTPUT), 6: (OUTPUT, JOB)}


def packed(held, line):
    """Packs a line behind those held. A page, where it has no room there: it then begins the next one."""
    full = None
    if sum(1 + len(other) for other in held) + 1 + len(line) > PAGE_ROOM:
        full = list(held)
        held.clear()
    held.append(line)
    return full


def input_process():
    while True:
        order = yield ("take", 1)
        if order == NIL:
            return
        held, sound = [], True
        while True:
            card = yield ("read",)
            if card == END or ends_file(card):
                break
            sound = sound and card is not SPOILED
            full = packed(held, card) if sound else None
            if full is not None:
                yield ("put", 2, (full, False))
        yield ("put", 2, (held, True))
        yield ("put", 3, sound)


def job_process(commands, area):
    while True:
        line = yield ("accept",)
        if line == END:
            break
        if line != b"":
            yield from command_process(commands(line, area))
    yield ("put", 1, NIL)
    yield ("put", 4, NIL)


def command_process(needs):
    held, pages, reply, need = [], 0, None, None
    while need != ("end",):
        yield ("work",)
        need, answers = next_need(needs, reply, held)
        reply = None
        if need[0] == "cards":
            reply = yield from take_cards()
        elif need[0] == "typed":
            reply = yield ("accept",)
        elif need[0] == "display":
            yield need
        elif need[0] == "page":
            yield from put_page(pages, need[1], False)
            pages += 1
    if held:
        yield from put_page(pages, held, True)
        yield ("take", 6)
    for line in answers:
        yield ("display", line)


def next_need(needs, reply, held):
    """One piece of work, up to what the command needs next, and the answers at its end."""
    while True:
        try:
            need = needs.send(reply)
        except StopIteration as ended:
            return ("end",), ended.value
        if need[0] != "print":
            return need, None
        full, reply = packed(held, need[1]), ROOM
        if full is not None:
            return ("page", full), None


def take_cards():
    yield ("put", 1, "CARDS")
    cards, last = [], False
    while not last:
        page, last = yield ("take", 2)
        cards += page
    sound = yield ("take", 3)
    return cards, not sound


def put_page(pages, lines, last):
    if pages == 0:
        yield ("put", 4, "PRINTER")
    yield ("put", 5, (lines, last))


def output_process():
    while (yield ("take", 4)) != NIL:
        last = False
        while not last:
            lines, last = yield ("take", 5)
            for line in lines:
                yield ("print", line)
        yield ("put", 6, True)


class Buffer:
    """One slot, a queue for each side, the turn, and who stopped it first."""

    def __init__(self):
        self.inside, self.waits, self.turn, self.stopped_by = [], {"s": None, "r": None}, None, None

    def go_on(self, side):
        if self.waits[side] is not None:
            self.turn = side


FAULTS = {"read": "ReadFault", "accept": "ReadFault", "display": "ConsoleFault", "print": "PrintFault", "work": "DiskFault"}


class Net:
    """The three processes over six buffers. `fails` says which call of a kind of device fails, counted from 1."""

    def __init__(self, keys, cards, files, commands=command, fails=None):
        self.typed, self.deck, self.area, self.fails = items(keys), items(cards), Files(files), fails or {}
        self.console, self.paper, self.events, self.delays = [], [], 0, 0
        self.buffers = {b: Buffer() for b in ENDS}
        self.calls, self.outcomes, self.trace = dict.fromkeys(FAULTS, 0), {}, []
        self.processes = {INPUT: input_process(), JOB: job_process(commands, self.area), OUTPUT: output_process()}
        self.next = {p: next(process) for p, process in self.processes.items()}

    def side(self, p, b):
        return "sr"[ENDS[b].index(p)]

    def enabled(self, p):
        action = self.next[p]
        if action is None:
            return False
        if action[0] not in ("put", "take", "stop"):
            return True
        buffer, side = self.buffers[action[1]], self.side(p, action[1])
        if buffer.turn is not None:
            return buffer.turn == side and buffer.waits[side] == p
        return buffer.waits[side] is None

    def go(self, p, reply=None):
        try:
            self.next[p] = self.processes[p].send(reply)
        except StopIteration:
            self.end(p, "Done", [])

    def end(self, p, outcome, stops):
        """Stops buffers, and ends so."""
        def closing():
            for b in stops:
                yield ("stop", b)
            yield ("ended", outcome)
            yield None
        self.processes[p] = closing()
        self.next[p] = next(self.processes[p])

    def fault(self, p, outcome):
        self.end(p, outcome, [b for b in ENDS if p in ENDS[b]])

    def step(self, p):
        self.events += 1
        kind, *rest = self.next[p]
        self.trace.append((p, kind, *rest))
        if kind == "ended":
            self.outcomes[p], self.next[p] = rest[0], None
        elif kind == "stop":
            self.stop(p, rest[0])
        elif kind in FAULTS:
            self.calls[kind] += 1
            if self.calls[kind] == self.fails.get(kind):
                self.fault(p, FAULTS[kind])
            else:
                self.go(p, self.perform(kind, rest))
        else:
            self.visit(p, kind, *rest)

    def perform(self, kind, rest):
        if kind in ("read", "accept"):
            row = self.deck if kind == "read" else self.typed
            return row.pop(0) if row else END
        if kind != "work":
            (self.console if kind == "display" else self.paper).append(rest[0])

    def stop(self, p, b):
        buffer, side = self.buffers[b], self.side(p, b)
        buffer.stopped_by = buffer.stopped_by or side
        buffer.go_on("r" if side == "s" else "s")
        self.go(p)

    def visit(self, p, kind, b, parcel=None):
        buffer, side = self.buffers[b], self.side(p, b)
        if buffer.turn == side:
            buffer.turn, buffer.waits[side] = None, None
        if kind == "put" and buffer.stopped_by == "r" or kind == "take" and not buffer.inside and buffer.stopped_by == "s":
            self.fault(p, "Stopped")
        elif bool(buffer.inside) == (kind == "put"):
            buffer.waits[side] = p
            self.delays += 1
        elif kind == "put":
            buffer.inside.append(parcel)
            buffer.go_on("r")
            self.go(p)
        else:
            taken = buffer.inside.pop()
            buffer.go_on("s")
            self.go(p, taken)

    def run(self, schedule):
        """Runs to the end by the schedule of a number, and gives its events and its delays."""
        x = schedule
        while True:
            may = [p for p in (INPUT, JOB, OUTPUT) if self.enabled(p)]
            if not may:
                break
            x = (x * 1103515245 + 12345) % 2147483648
            self.step(may[(x // 65536) % len(may)])
        assert len(self.outcomes) == 3, "stuck"
        return self.events, self.delays
