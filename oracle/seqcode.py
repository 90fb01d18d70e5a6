"""Code files and the stack machine, written from their tables alone, for `oracle/solo`.

A code is a pair: its routines (start, params, function, words, height) and its instructions (op, a, b), all of them numbers."""

OPS = ("PUSH LOADG LOADL STOREG STOREL LOADGX LOADLX STOREGX STORELX INDEX ADD SUB MUL DIV MOD NEG ABS NOT AND OR "
       "EQ NE LT GT LE GE CHR JUMP JUMPF TICK CALL RETURN SYS SYSG SYSL HALT SUCC PRED REFG REFL LOADR STORER").split()
NUMBER = {name: op for op, name in enumerate(OPS)}
WITH_A = {"PUSH", "LOADG", "LOADL", "STOREG", "STOREL", "JUMP", "JUMPF", "CALL", "SYS", "REFG", "REFL", "LOADR", "STORER"}
WITH_BOTH = {"LOADGX", "LOADLX", "STOREGX", "STORELX", "INDEX", "TICK", "SYSG", "SYSL"}
# What an instruction pops, and what it pushes then.
MOVES = {
    **dict.fromkeys(["PUSH", "LOADG", "LOADL", "LOADR"], (0, 1)), **dict.fromkeys(["STOREG", "STOREL", "STORER", "JUMPF"], (1, 0)),
    **dict.fromkeys(["LOADGX", "LOADLX", "INDEX", "NEG", "ABS", "NOT", "CHR", "SUCC", "PRED"], (1, 1)),
    **dict.fromkeys(["STOREGX", "STORELX"], (2, 0)), **dict.fromkeys(["REFG", "REFL"], (0, 2)),
    **dict.fromkeys(["ADD", "SUB", "MUL", "DIV", "MOD", "AND", "OR", "EQ", "NE", "LT", "GT", "LE", "GE"], (2, 1)),
    **dict.fromkeys(["JUMP", "TICK", "RETURN", "HALT"], (0, 0)),
}
# The calls: how many values each takes, the words of its array and which way it goes, and how many values come back.
ROWS = {
    "READ": (0, 0, None, 1), "WRITE": (1, 0, None, 0), "WRITEINT": (1, 0, None, 0), "ACCEPT": (0, 0, None, 1),
    "DISPLAY": (1, 0, None, 0), "OPEN": (1, 12, "in", 1), "CLOSE": (1, 0, None, 0), "GET": (2, 512, "out", 0),
    "PUT": (2, 512, "in", 0), "LENGTH": (1, 0, None, 1), "LOOKUP": (0, 12, "in", 2), "READARG": (0, 12, "out", 2),
    "WRITEARG": (2, 12, "in", 0), "RUN": (0, 12, "in", 2),
}
ROW_NAMES = list(ROWS)
TERMINATED, OVERFLOW, RANGE_ERROR, STACK_LIMIT, CODE_LIMIT, TIME_LIMIT, CALL_ERROR = range(7)
HEAD, RECORD, INSTRUCTION = 12, 8, 5


def signed(word):
    return word - 65536 if word > 32767 else word


# ---- code files
def encode(code):
    routines, instructions = code
    number = lambda value: value.to_bytes(2, "big")
    data = b"SEQCODE1" + number(len(routines)) + number(len(instructions))
    for start, params, function, words, height in routines:
        data += number(start) + bytes([params, function]) + number(words) + number(height)
    for op, a, b in instructions:
        data += bytes([op]) + number(a) + number(b)
    return data + bytes(-len(data) % 512)


class BadCode(Exception):
    """The least place of a code file that is wrong."""


def decode(data):
    def byte(at):
        if at >= len(data):
            raise BadCode(at)
        return data[at]

    def word(at):
        return byte(at) * 256 + byte(at + 1)

    for at, letter in enumerate(b"SEQCODE1"):
        if byte(at) != letter:
            raise BadCode(at)
    routines, instructions = [], []
    counts = word(8)
    if not 1 <= counts <= 255:
        raise BadCode(8)
    count = word(10)
    if not 1 <= count <= 8192:
        raise BadCode(10)
    for at in range(HEAD, HEAD + RECORD * counts, RECORD):
        start, params, function = word(at), byte(at + 2), byte(at + 3)
        if function > 1:
            raise BadCode(at + 3)
        routines.append((start, params, function, word(at + 4), word(at + 6)))
    first = HEAD + RECORD * counts
    for at in range(first, first + INSTRUCTION * count, INSTRUCTION):
        if byte(at) >= len(OPS):
            raise BadCode(at)
        name = OPS[byte(at)]
        used = 5 if name in WITH_BOTH else 3 if name in WITH_A else 1
        for unused in range(at + 1, at + 5):
            if byte(unused) and unused >= at + used:
                raise BadCode(unused)
        instructions.append((byte(at), word(at + 1), word(at + 3)))
    end = first + INSTRUCTION * count
    whole = end + -end % 512
    for at in range(end, whole):
        if byte(at):
            raise BadCode(at)
    if len(data) > whole:
        raise BadCode(whole)
    return routines, instructions


def moves(instruction, routines):
    """What an instruction pops and pushes; None where it names no routine or row."""
    name, a = OPS[instruction[0]], instruction[1]
    if name == "CALL":
        return (routines[a][1], routines[a][2]) if 0 < a < len(routines) else None
    if name in ("SYS", "SYSG", "SYSL"):
        if a >= len(ROW_NAMES):
            return None
        values, _, _, back = ROWS[ROW_NAMES[a]]
        return values, back
    return MOVES[name]


def verify(code):
    """The code, where it breaks no rule."""
    routines, instructions = code
    last = -1
    for number, (start, params, function, words, height) in enumerate(routines):
        good = start > last and start < len(instructions) and params <= 16 and params + function <= words
        if number == 0:
            good = good and start == 0 and params == 0 and function == 0
        if not (good and words <= 4352 and height <= 1536):
            raise BadCode(HEAD + RECORD * number)
        last = start
    ends = [routine[0] for routine in routines[1:]] + [len(instructions)]
    targets = {a for op, a, _ in instructions if OPS[op] in ("JUMP", "JUMPF")}
    for number, (routine, end) in enumerate(zip(routines, ends)):
        height, sure_tick = 0, False
        for at in range(routine[0], end):
            if at in targets:
                sure_tick = False
            good, height = keeps(code, number, at, end, height, sure_tick, at in targets)
            if not good:
                raise BadCode(HEAD + RECORD * len(routines) + INSTRUCTION * at)
            name = OPS[instructions[at][0]]
            sure_tick = name == "TICK" or sure_tick and name not in ("JUMP", "JUMPF")
    return code


def keeps(code, number, at, end, height, sure_tick, is_target):
    """Whether an instruction keeps the rules, and the height behind it."""
    routines, instructions = code
    start, _, _, words, most = routines[number]
    op, a, b = instructions[at]
    name, moved = OPS[op], moves(instructions[at], routines)
    globals_ = routines[0][3]
    if at == end - 1 and name not in ("JUMP", "RETURN", "HALT") or name == "HALT" and number or name == "RETURN" and not number:
        return False, 0
    if name in ("JUMP", "JUMPF") and not (start <= a < end and (a > at or OPS[instructions[a][0]] == "TICK")):
        return False, 0
    if name in ("LOADG", "STOREG", "REFG") and a >= globals_ or name in ("LOADL", "STOREL", "REFL") and a >= words:
        return False, 0
    if name in ("LOADR", "STORER") and a + 1 >= words:
        return False, 0
    if name in ("LOADGX", "STOREGX", "LOADLX", "STORELX"):
        if not 1 <= b <= 4096 or a + b > (globals_ if name in ("LOADGX", "STOREGX") else words):
            return False, 0
    if name == "INDEX" and not 0 <= signed(b) - signed(a) <= 4095:
        return False, 0
    if moved is None or name == "CALL" and not sure_tick:
        return False, 0
    if name in ("SYS", "SYSG", "SYSL"):
        size = ROWS[ROW_NAMES[a]][1]
        frame = globals_ if name == "SYSG" else words
        if (name == "SYS") != (size == 0) or size and b + size > frame:
            return False, 0
    if is_target and height != 0 or moved[0] > height:
        return False, 0
    behind = height - moved[0]
    if name in ("JUMP", "JUMPF", "RETURN", "HALT") and behind != 0 or behind + moved[1] > most:
        return False, 0
    return True, behind + moved[1]


# ---- the machine
class Ends(Exception):
    """The result of a program that ends."""


class Activation:
    def __init__(self, routine, back):
        self.routine, self.back = routine, back
        self.words, self.stack, self.line = [0] * routine[3], [], 0


def arithmetic(name, left, right):
    if name in ("DIV", "MOD") and right == 0:
        raise Ends(OVERFLOW)
    quotient = abs(left) // abs(right) * (1 if (left < 0) == (right < 0) else -1) if name in ("DIV", "MOD") else 0
    value = {"ADD": left + right, "SUB": left - right, "MUL": left * right, "DIV": quotient, "MOD": left - quotient * right}[name]
    return ranged(value)


def ranged(value):
    if not -32768 <= value <= 32767:
        raise Ends(OVERFLOW)
    return value


RELATIONS = {
    "EQ": lambda x, y: x == y, "NE": lambda x, y: x != y, "LT": lambda x, y: x < y, "GT": lambda x, y: x > y,
    "LE": lambda x, y: x <= y, "GE": lambda x, y: x >= y, "AND": lambda x, y: x != 0 and y != 0, "OR": lambda x, y: x != 0 or y != 0,
}


class Machine:
    """A program that is run. `run` is a generator: it gives each call, (row, values, array, ticks that are left), and is sent None
    for a call error or (values, array, ticks that a called program took). It ends with (result, line, ticks)."""

    def __init__(self, code, limit):
        self.routines, self.instructions = code
        self.limit, self.ticks, self.at = limit, 0, 0
        self.open = [Activation(self.routines[0], None)]

    def run(self):
        try:
            while True:
                yield from self.step()
        except Ends as ended:
            return ended.args[0], self.open[-1].line, self.ticks

    def step(self):
        op, a, b = self.instructions[self.at]
        name, top = OPS[op], self.open[-1]
        stack = top.stack
        self.at += 1
        frame = self.open[0].words if name in ("LOADG", "STOREG", "LOADGX", "STOREGX", "SYSG") else top.words
        if name == "PUSH":
            stack.append(signed(a))
        elif name in ("LOADG", "LOADL"):
            stack.append(frame[a])
        elif name in ("STOREG", "STOREL"):
            frame[a] = stack.pop()
        elif name in ("LOADGX", "LOADLX"):
            stack.append(frame[a + within(stack.pop(), 0, b - 1)])
        elif name in ("STOREGX", "STORELX"):
            value = stack.pop()
            frame[a + within(stack.pop(), 0, b - 1)] = value
        elif name == "INDEX":
            stack.append(within(stack.pop(), signed(a), signed(b)) - signed(a))
        elif name in ("ADD", "SUB", "MUL", "DIV", "MOD"):
            right = stack.pop()
            stack.append(arithmetic(name, stack.pop(), right))
        elif name in RELATIONS:
            right = stack.pop()
            stack.append(int(RELATIONS[name](stack.pop(), right)))
        elif name in ("NEG", "ABS", "SUCC", "PRED", "NOT"):
            value = stack.pop()
            stack.append(int(value == 0) if name == "NOT" else
                         ranged({"NEG": -value, "ABS": abs(value), "SUCC": value + 1, "PRED": value - 1}[name]))
        elif name == "CHR":
            within(stack[-1], 0, 127)
        elif name == "JUMP" or name == "JUMPF" and stack.pop() == 0:
            self.at = a
        elif name == "TICK":
            top.line = a * 65536 + b
            if self.ticks == self.limit:
                raise Ends(TIME_LIMIT)
            self.ticks += 1
        elif name == "CALL":
            self.call(self.routines[a], stack)
        elif name == "RETURN":
            self.open.pop()
            self.at = top.back
            if top.routine[2]:
                self.open[-1].stack.append(top.words[top.routine[1]])
        elif name in ("SYS", "SYSG", "SYSL"):
            yield from self.ask(ROW_NAMES[a], frame, b, stack)
        elif name == "HALT":
            raise Ends(TERMINATED)
        elif name in ("REFG", "REFL"):
            stack += [0 if name == "REFG" else len(self.open) - 1, a]
        elif name == "LOADR":
            words, place = self.referred(top, a)
            stack.append(words[place])
        elif name == "STORER":
            value = stack.pop()
            words, place = self.referred(top, a)
            words[place] = value

    def call(self, routine, stack):
        if len(self.open) == 64:
            raise Ends(STACK_LIMIT)
        called = Activation(routine, self.at)
        params = routine[1]
        called.words[:params] = stack[len(stack) - params:]
        del stack[len(stack) - params:]
        self.open.append(called)
        self.at = routine[0]

    def referred(self, top, a):
        number, place = top.words[a], top.words[a + 1]
        if not 0 <= number < len(self.open):
            raise Ends(RANGE_ERROR)
        words = self.open[number].words
        return words, within(place, 0, len(words) - 1)

    def ask(self, row, frame, place, stack):
        values, size, way, _ = ROWS[row]
        taken = stack[len(stack) - values:]
        del stack[len(stack) - values:]
        array = frame[place:place + size] if way == "in" else None
        if row in ("WRITE", "DISPLAY") or row == "PUT":
            for code in taken if row != "PUT" else array:
                within(code, 0, 255)
        reply = yield row, taken, array, self.limit - self.ticks
        if reply is None:
            raise Ends(CALL_ERROR)
        back, array, ticks = reply
        self.ticks += ticks
        if way == "out":
            frame[place:place + size] = array
        stack += back


def within(value, low, high):
    if not low <= value <= high:
        raise Ends(RANGE_ERROR)
    return value
