"""Sequential Pascal, from the lines of a text to its code: words, grammar, rules and code schemes, written from their tables alone,
for `oracle/solo`."""
import re
from collections import namedtuple

from seqcode import MOVES, NUMBER, OPS, ROWS, moves

LEVELS, ROOM, PARAMETERS, ROUTINES, INSTRUCTIONS = 64, 4096, 16, 254, 8192
RESERVED = set("ARRAY BEGIN CASE CONST DIV DO DOWNTO ELSE END FOR FUNCTION IF MOD NOT OF OR PROCEDURE PROGRAM REPEAT THEN TO UNTIL "
               "VAR WHILE".split())
WORD = re.compile(rb"[A-Za-z][A-Za-z0-9]*|[0-9]+|'\(:[0-9]+:\)'|'[ -&(-~]'|<>|<=|>=|:=|\(\.|\.\)|\.\.|[-+*&=<>(),;:.\[\]]")


class Refused(Exception):
    """What a text is answered that has no code."""


# ---- words
class Token:
    """kind: name, number, char, end, or a reserved word or symbol itself."""

    def __init__(self, kind, value, line):
        self.kind, self.value, self.line = kind, value, line


def token(text, line):
    if text[:1].isalpha():
        word = text.upper().decode()
        return Token("&", word, line) if word == "AND" else Token(word if word in RESERVED else "name", word, line)
    if text[:1].isdigit():
        return Token("number", int(text), line) if int(text) <= 32767 else None
    if text.startswith(b"'"):
        value = int(text[3:-3]) if len(text) > 3 else text[1]
        return Token("char", value, line) if value <= 127 else None
    symbol = {b"[": "(.", b"]": ".)"}.get(text, text.decode())
    return Token(symbol, symbol, line)


def words(lines):
    """The tokens of lines, with an end token."""
    tokens, comment = [], None
    for number, line in enumerate(lines, 1):
        if len(line) > 132 or any(byte < 32 or byte > 126 for byte in line):
            closed = comment is None or any(b'"' in later for later in lines[number - 1:])
            raise Refused(b"BAD WORD IN LINE %d" % (number if closed else comment))
        at = 0
        while at < len(line):
            if comment is not None or line[at:at + 1] == b'"':
                begun = at if comment is not None else at + 1
                comment = number if comment is None else comment
                closing = line.find(b'"', begun)
                at = len(line) if closing < 0 else closing + 1
                comment = comment if closing < 0 else None
            elif line[at:at + 1] == b" ":
                at += 1
            else:
                found = WORD.match(line, at)
                made = token(found.group(), number) if found else None
                if made is None:
                    raise Refused(b"BAD WORD IN LINE %d" % number)
                tokens.append(made)
                at = found.end()
    if comment is not None:
        raise Refused(b"BAD WORD IN LINE %d" % comment)
    return tokens + [Token("end", None, len(lines) + 1)]


# ---- grammar
Program = namedtuple("Program", "consts groups routines body")
ConstDef = namedtuple("ConstDef", "name constant")
Constant = namedtuple("Constant", "first minus word")
Group = namedtuple("Group", "names type")
TypeName = namedtuple("TypeName", "name")
ArrayType = namedtuple("ArrayType", "array low high element")
Params = namedtuple("Params", "by_reference names type")
Routine = namedtuple("Routine", "name params result consts groups body")
Assign = namedtuple("Assign", "name index becomes value")
Call = namedtuple("Call", "name args")
Compound = namedtuple("Compound", "parts")
If = namedtuple("If", "word test then other")
While = namedtuple("While", "word test body")
Repeat = namedtuple("Repeat", "word parts until test")
For = namedtuple("For", "word name first way last body")
Case = namedtuple("Case", "word selector branches")
Expr = namedtuple("Expr", "left relation right")
Simple = namedtuple("Simple", "sign terms")
Term = namedtuple("Term", "factors")
Literal = namedtuple("Literal", "word")
Named = namedtuple("Named", "name index args")
Paren = namedtuple("Paren", "expr")
Not = namedtuple("Not", "word factor")


class Parser:
    def __init__(self, tokens):
        self.tokens, self.at = tokens, 0

    def sees(self, *kinds):
        return self.tokens[self.at].kind in kinds

    def take(self, *kinds):
        found = self.tokens[self.at]
        if found.kind not in kinds:
            raise Refused(b"SYNTAX ERROR IN LINE %d" % found.line)
        self.at += 1
        return found

    def may_take(self, *kinds):
        return self.take(*kinds) if self.sees(*kinds) else None

    def program(self):
        if self.may_take("PROGRAM"):
            self.take("name")
            self.take(";")
        consts, groups, routines = self.consts(), self.groups(), []
        while self.sees("PROCEDURE", "FUNCTION"):
            routines.append(self.routine())
        body = self.body(1)
        self.take(".")
        self.take("end")
        return Program(consts, groups, routines, body)

    def consts(self):
        made = []
        if self.may_take("CONST"):
            while not made or self.sees("name"):
                name = self.take("name")
                self.take("=")
                made.append(ConstDef(name, self.constant()))
                self.take(";")
        return made

    def constant(self):
        first = self.take("name", "number", "-", "char")
        return Constant(first, first.kind == "-", self.take("number") if first.kind == "-" else first)

    def names(self):
        names = [self.take("name")]
        while self.may_take(","):
            names.append(self.take("name"))
        return names

    def groups(self):
        made = []
        if self.may_take("VAR"):
            while not made or self.sees("name"):
                names = self.names()
                self.take(":")
                made.append(Group(names, self.type()))
                self.take(";")
        return made

    def type(self):
        if not self.sees("ARRAY"):
            return TypeName(self.take("name", "ARRAY"))
        array = self.take("ARRAY")
        self.take("(.")
        low = self.constant()
        self.take("..")
        high = self.constant()
        self.take(".)")
        self.take("OF")
        return ArrayType(array, low, high, self.take("name"))

    def routine(self):
        word = self.take("PROCEDURE", "FUNCTION")
        name, params, result = self.take("name"), [], None
        if self.may_take("("):
            params.append(self.params())
            while self.may_take(";"):
                params.append(self.params())
            self.take(")")
        if word.kind == "FUNCTION":
            self.take(":")
            result = self.take("name")
        self.take(";")
        consts, groups, body = self.consts(), self.groups(), self.body(1)
        self.take(";")
        return Routine(name, params, result, consts, groups, body)

    def params(self):
        by_reference = self.may_take("VAR") is not None
        names = self.names()
        self.take(":")
        return Params(by_reference, names, self.take("name"))

    def body(self, level):
        """The statements of a body stand at this level."""
        self.take("BEGIN")
        parts = self.statements(level)
        self.take("END")
        return Compound(parts)

    def statements(self, level):
        parts = [self.statement(level)]
        while self.may_take(";"):
            parts.append(self.statement(level))
        return parts

    def statement(self, level):
        if self.sees("BEGIN", "IF", "WHILE", "REPEAT", "FOR", "CASE"):
            if level == LEVELS:
                self.take()
            return {"BEGIN": self.body, "IF": self.if_, "WHILE": self.while_, "REPEAT": self.repeat, "FOR": self.for_,
                    "CASE": self.case}[self.tokens[self.at].kind](level + 1)
        return self.simple_statement() if self.sees("name") else None

    def simple_statement(self):
        name, index = self.take("name"), None
        if self.may_take("("):
            return Call(name, self.arguments(1))
        if self.may_take("(."):
            index = self.expr(1)
            self.take(".)")
            becomes = self.take(":=")
        else:
            becomes = self.may_take(":=")
        return Assign(name, index, becomes, self.expr(1)) if becomes else Call(name, [])

    def arguments(self, level):
        args = [self.expr(level)]
        while self.may_take(","):
            args.append(self.expr(level))
        self.take(")")
        return args

    def if_(self, level):
        word, test = self.take("IF"), self.expr(1)
        self.take("THEN")
        then = self.statement(level)
        return If(word, test, then, (self.statement(level),) if self.may_take("ELSE") else None)

    def while_(self, level):
        word, test = self.take("WHILE"), self.expr(1)
        self.take("DO")
        return While(word, test, self.statement(level))

    def repeat(self, level):
        word, parts = self.take("REPEAT"), self.statements(level)
        return Repeat(word, parts, self.take("UNTIL"), self.expr(1))

    def for_(self, level):
        word, name = self.take("FOR"), self.take("name")
        self.take(":=")
        first, way, last = self.expr(1), self.take("TO", "DOWNTO"), self.expr(1)
        self.take("DO")
        return For(word, name, first, way, last, self.statement(level))

    def case(self, level):
        word, selector = self.take("CASE"), self.expr(1)
        self.take("OF")
        branches = [self.branch(level)]
        while self.may_take(";"):
            branches.append(self.branch(level))
        self.take("END")
        return Case(word, selector, branches)

    def branch(self, level):
        labels = [self.constant()]
        while self.may_take(","):
            labels.append(self.constant())
        self.take(":")
        return labels, self.statement(level)

    def expr(self, level):
        left = self.simple(level)
        relation = self.may_take("=", "<>", "<", ">", "<=", ">=")
        return Expr(left, relation, self.simple(level) if relation else None)

    def simple(self, level):
        sign = self.may_take("+", "-")
        terms = [(None, self.term(level))]
        while self.sees("+", "-", "OR"):
            operator = self.take("+", "-", "OR")
            terms.append((operator, self.term(level)))
        return Simple(sign, terms)

    def term(self, level):
        factors = [(None, self.factor(level))]
        while self.sees("*", "DIV", "MOD", "&"):
            operator = self.take("*", "DIV", "MOD", "&")
            factors.append((operator, self.factor(level)))
        return Term(factors)

    def factor(self, level):
        deeper = level < LEVELS
        if self.sees("number", "char"):
            return Literal(self.take("number", "char"))
        if deeper and self.may_take("("):
            inner = self.expr(level + 1)
            self.take(")")
            return Paren(inner)
        if deeper and self.sees("NOT"):
            return Not(self.take("NOT"), self.factor(level + 1))
        name, index, args = self.take("name"), None, []
        if deeper and self.may_take("(."):
            index = self.expr(level + 1)
            self.take(".)")
        elif deeper and self.may_take("("):
            args = self.arguments(level + 1)
        return Named(name, index, args)


# ---- what names mean
class Meant:
    """sort: type, const, var, procedure or function. A row of the calls has `row`, an own routine `number`, another one `op`."""

    def __init__(self, sort, **rest):
        self.sort = sort
        self.type = self.value = self.low = self.high = self.place = self.row = self.number = self.op = self.result = None
        self.is_global = self.by_reference = False
        self.params = []
        self.__dict__.update(rest)

    def is_array(self):
        return self.sort == "var" and self.low is not None

    def words(self):
        return 2 if self.by_reference else self.high - self.low + 1 if self.is_array() else 1


V, R, T = "value", "reference", "array"
KINDS_OF_ROWS = {
    "READ": [(R, "CHAR")], "WRITE": [(V, "CHAR")], "WRITEINT": [(V, "INTEGER")], "ACCEPT": [(R, "CHAR")], "DISPLAY": [(V, "CHAR")],
    "OPEN": [(V, "INTEGER"), (T, 12), (R, "BOOLEAN")], "CLOSE": [(V, "INTEGER")], "GET": [(V, "INTEGER"), (V, "INTEGER"), (T, 512)],
    "PUT": [(V, "INTEGER"), (V, "INTEGER"), (T, 512)], "LENGTH": [(V, "INTEGER")],
    "LOOKUP": [(T, 12), (R, "INTEGER"), (R, "BOOLEAN")], "READARG": [(R, "INTEGER"), (R, "INTEGER"), (T, 12)],
    "WRITEARG": [(V, "INTEGER"), (V, "INTEGER"), (T, 12)], "RUN": [(T, 12), (R, "INTEGER"), (R, "INTEGER")],
}


def predeclared():
    meant = {name: Meant("type", type=name) for name in ("INTEGER", "BOOLEAN", "CHAR")}
    for name, type_, value in (("TRUE", "BOOLEAN", 1), ("FALSE", "BOOLEAN", 0), ("NL", "CHAR", 10), ("EM", "CHAR", 25)):
        meant[name] = Meant("const", type=type_, value=value)
    for name, takes, gives, op in (("ABS", "INTEGER", "INTEGER", "ABS"), ("SUCC", "INTEGER", "INTEGER", "SUCC"),
                                   ("PRED", "INTEGER", "INTEGER", "PRED"), ("ORD", "CHAR", "INTEGER", None),
                                   ("CHR", "INTEGER", "CHAR", "CHR")):
        meant[name] = Meant("function", type=gives, params=[(V, takes)], op=op)
    for name in ROWS:
        meant[name] = Meant("function" if name == "LENGTH" else "procedure", type="INTEGER", params=KINDS_OF_ROWS[name], row=name)
    return meant


def plain_name(expr):
    """The name that an argument is and nothing else, or None."""
    simple = expr.left
    if expr.relation or simple.sign or len(simple.terms) > 1 or len(simple.terms[0][1].factors) > 1:
        return None
    factor = simple.terms[0][1].factors[0][1]
    return factor.name if isinstance(factor, Named) and factor.index is None and not factor.args else None


# ---- rules: nodes as they end
class Checker:
    """Judges a tree, and keeps what each name of it means in `means`, by its token."""

    def __init__(self):
        self.outer, self.program, self.own = predeclared(), {}, None
        self.means, self.routine, self.routines = {}, None, 0

    def broken(self, *rules):
        """The least rule of those that a node breaks, each (broken, rule, token)."""
        found = sorted((rule for rule in rules if rule[0]), key=lambda rule: rule[1])
        if found:
            raise Refused(b"SEMANTIC ERROR %d IN LINE %d" % (found[0][1], found[0][2].line))

    def look_up(self, name):
        for scope in (self.own, self.program, self.outer):
            if scope is not None and name.value in scope:
                self.means[name] = scope[name.value]
                return scope[name.value]
        return None

    def scope(self):
        return self.program if self.own is None else self.own

    def check(self, tree):
        words = self.declare(tree.consts, tree.groups, 0)
        for routine in tree.routines:
            self.heading_and_body(routine)
        self.statement(tree.body)
        self.program_words = words
        return self

    def declare(self, consts, groups, words):
        for name, constant in consts:
            type_, value = self.constant(constant)
            self.broken((name.value in self.scope(), 1, name))
            self.scope()[name.value] = Meant("const", type=type_, value=value)
        for group in groups:
            type_, low, high = self.type(group.type)
            for name in group.names:
                made = Meant("var", type=type_, low=low, high=high, place=words, is_global=self.own is None)
                words += made.words()
                self.broken((name.value in self.scope(), 1, name), (words > ROOM, 6, name))
                self.scope()[name.value] = made
        return words

    def constant(self, constant):
        if constant.word.kind == "number":
            return "INTEGER", -constant.word.value if constant.minus else constant.word.value
        if constant.word.kind == "char":
            return "CHAR", constant.word.value
        meant = self.look_up(constant.word)
        self.broken((meant is None, 2, constant.word), (meant is not None and meant.sort != "const", 3, constant.word))
        return meant.type, meant.value

    def type_name(self, name):
        meant = self.look_up(name)
        return meant.type if meant is not None and meant.sort == "type" else None

    def type(self, type_):
        if isinstance(type_, TypeName):
            found = self.type_name(type_.name)
            self.broken((found is None, 4, type_.name))
            return found, None, None
        (low_type, low), (high_type, high) = self.constant(type_.low), self.constant(type_.high)
        found = self.type_name(type_.element)
        self.broken((found is None, 4, type_.element), (low_type != "INTEGER" or high_type != "INTEGER" or low > high, 5, type_.array))
        return found, low, high

    def heading_and_body(self, routine):
        self.own, words, kinds = {}, 0, []
        for params in routine.params:
            found = self.type_name(params.type)
            self.broken((found is None, 4, params.type))
            for name in params.names:
                made = Meant("var", type=found, place=words, by_reference=params.by_reference)
                words += made.words()
                self.broken((name.value in self.own, 1, name), (words > ROOM, 6, name), (words > PARAMETERS, 7, name))
                self.own[name.value] = made
                kinds.append((R if params.by_reference else V, found))
        result = self.type_name(routine.result) if routine.result else None
        self.routines += 1
        self.broken((routine.name.value in self.program, 1, routine.name), (bool(routine.result) and result is None, 4, routine.result),
                    (self.routines > ROUTINES, 7, routine.name))
        meant = Meant("function" if result else "procedure", type=result, params=kinds, number=self.routines, result=words)
        meant.param_words = words
        self.program[routine.name.value] = self.means[routine.name] = meant
        self.routine = meant
        meant.frame = self.declare(routine.consts, routine.groups, words + (result is not None))
        self.statement(routine.body)
        self.own = self.routine = None

    def statement(self, statement):
        if statement is not None:
            getattr(self, type(statement).__name__.lower() + "_")(statement)

    def compound_(self, compound):
        for part in compound.parts:
            self.statement(part)

    def assign_(self, assign):
        index = self.expr(assign.index) if assign.index else None
        value = self.expr(assign.value)
        meant, name = self.look_up(assign.name), assign.name
        self.broken((meant is None, 2, name))
        self.broken((meant.sort != "var" and not (meant.sort == "function" and meant is self.routine), 3, name))
        if assign.index:
            self.broken((meant.is_array() and meant.type != value, 10, assign.becomes), (not meant.is_array() or index != "INTEGER", 11, name))
        else:
            self.broken((meant.is_array() or meant.type != value, 10, assign.becomes), (meant.is_array(), 11, name))

    def call_(self, call):
        meant = self.look_up(call.name)
        types = self.arguments(meant, call.args)
        self.broken((meant is None, 2, call.name))
        self.broken((meant.sort != "procedure", 3, call.name))
        self.judge_arguments(meant, call.name, call.args, types)

    def arguments(self, meant, args):
        """The types of arguments; an array's is itself where its row has one at this place."""
        kinds = meant.params if meant is not None and meant.row else []
        types = []
        for place, arg in enumerate(args):
            name = plain_name(arg)
            found = self.look_up(name) if name is not None else None
            array = found is not None and found.is_array() and place < len(kinds) and kinds[place][0] == T
            types.append(found if array else self.expr(arg))
        return types

    def judge_arguments(self, meant, name, args, types):
        wrong = len(args) == len(meant.params) and not all(map(self.fits, meant.params, args, types))
        self.broken((len(args) != len(meant.params), 12, name), (wrong, 13, name))

    def fits(self, param, arg, type_):
        kind, wanted = param
        if kind == T:
            return isinstance(type_, Meant) and type_.type == "CHAR" and type_.high - type_.low + 1 == wanted
        if kind == V:
            return type_ == wanted
        name = plain_name(arg)
        meant = self.look_up(name) if name is not None else None
        return meant is not None and meant.sort == "var" and not meant.is_array() and meant.type == wanted

    def if_(self, statement):
        test = self.expr(statement.test)
        self.statement(statement.then)
        if statement.other:
            self.statement(statement.other[0])
        self.broken((test != "BOOLEAN", 9, statement.word))

    def while_(self, statement):
        test = self.expr(statement.test)
        self.statement(statement.body)
        self.broken((test != "BOOLEAN", 9, statement.word))

    def repeat_(self, statement):
        self.compound_(statement)
        self.broken((self.expr(statement.test) != "BOOLEAN", 9, statement.until))

    def for_(self, statement):
        types = [self.expr(statement.first), self.expr(statement.last)]
        self.statement(statement.body)
        meant = self.look_up(statement.name)
        counts = meant is None or meant.sort == "var" and not meant.is_array() and meant.type == "INTEGER"
        self.broken((meant is None, 2, statement.name), (not counts or types != ["INTEGER", "INTEGER"], 14, statement.word))

    def case_(self, statement):
        selector, before = self.expr(statement.selector), set()
        for labels, inner in statement.branches:
            for label in labels:
                type_, value = self.constant(label)
                self.broken((type_ != selector or value in before, 15, label.first))
                before.add(value)
            self.statement(inner)

    def expr(self, expr):
        left = self.simple(expr.left)
        if not expr.relation:
            return left
        self.broken((self.simple(expr.right) != left, 8, expr.relation))
        return "BOOLEAN"

    def simple(self, simple):
        types = [self.term(term) for _, term in simple.terms]
        operators = [operator for operator, _ in simple.terms[1:]]
        return self.operated(simple.sign, types, operators)

    def term(self, term):
        types = [self.factor(factor) for _, factor in term.factors]
        return self.operated(None, types, [operator for operator, _ in term.factors[1:]])

    def operated(self, sign, types, operators):
        kind = lambda operator: "BOOLEAN" if operator.kind in ("OR", "&") else "INTEGER"
        if sign is not None:
            self.broken((types[0] != "INTEGER", 8, sign))
        found = types[0]
        for operator, right in zip(operators, types[1:]):
            self.broken((found != kind(operator) or right != kind(operator), 8, operator))
        return found

    def factor(self, factor):
        if isinstance(factor, Literal):
            return "INTEGER" if factor.word.kind == "number" else "CHAR"
        if isinstance(factor, Paren):
            return self.expr(factor.expr)
        if isinstance(factor, Not):
            self.broken((self.factor(factor.factor) != "BOOLEAN", 8, factor.word))
            return "BOOLEAN"
        return self.named(factor)

    def named(self, factor):
        name, meant = factor.name, self.look_up(factor.name)
        index = self.expr(factor.index) if factor.index else None
        types = self.arguments(meant, factor.args)
        self.broken((meant is None, 2, name))
        self.broken((meant.sort not in ("const", "var", "function"), 3, name))
        if factor.index:
            self.broken((not meant.is_array() or index != "INTEGER", 11, name))
        elif meant.sort == "function":
            self.judge_arguments(meant, name, factor.args, types)
        else:
            self.broken((meant.is_array(), 11, name), (bool(factor.args), 12, name))
        return meant.type


# ---- code
class Coder:
    def __init__(self, checker):
        self.means, self.outer_words = checker.means, checker.program_words
        self.code, self.routines, self.labels = [], [], []

    def program(self, tree):
        frames = [self.routine(tree.body, None, self.outer_words)]
        frames += [self.routine(routine.body, self.means[routine.name], self.means[routine.name].frame) for routine in tree.routines]
        if len(self.code) > INSTRUCTIONS:
            raise Refused(b"CODE LIMIT")
        instructions = [(NUMBER[name], self.placed(a) & 65535, b & 65535) for name, a, b in self.code]
        routines = [(*frame, 0) for frame in frames]
        ends = [routine[0] for routine in routines[1:]] + [len(instructions)]
        heights = [self.height(routines, instructions[routine[0]:end]) for routine, end in zip(routines, ends)]
        return [(*routine[:4], height) for routine, height in zip(routines, heights)], instructions

    def placed(self, a):
        return self.labels[a[0]] if isinstance(a, list) else a

    @staticmethod
    def height(routines, instructions):
        height = most = 0
        for instruction in instructions:
            popped, pushed = moves(instruction, routines)
            height += pushed - popped
            most = max(most, height)
        return most

    def routine(self, body, meant, words):
        self.own, self.base, self.most, start = meant, words, words, len(self.code)
        self.statement(body)
        self.emit("HALT" if meant is None else "RETURN")
        if meant is None:
            return start, 0, 0, self.most
        return start, meant.param_words, int(meant.type is not None), self.most

    def emit(self, name, a=0, b=0):
        assert name in OPS and (name in MOVES or name in ("CALL", "SYS", "SYSG", "SYSL"))
        self.code.append((name, a, b))

    def label(self):
        self.labels.append(None)
        return [len(self.labels) - 1]

    def here(self, label):
        self.labels[label[0]] = len(self.code)

    def tick(self, word):
        self.emit("TICK", word.line // 65536, word.line % 65536)

    def access(self, load, meant):
        """LD or ST of a scalar, or of the result of the function itself."""
        if meant.sort == "function":
            self.emit(load + "L", meant.result)
        elif meant.by_reference:
            self.emit(load + "R", meant.place)
        else:
            self.emit(load + ("G" if meant.is_global or self.own is None else "L"), meant.place)

    def frame_word(self, load, place):
        self.emit(load + ("G" if self.own is None else "L"), place)

    def indexed(self, op, meant):
        self.emit(op + ("GX" if meant.is_global else "LX"), meant.place, meant.high - meant.low + 1)

    def words(self, count):
        """So many words more of the frame, for the statement that is nested here."""
        first = self.base
        self.base += count
        self.most = max(self.most, self.base)
        return first

    def statement(self, statement):
        if statement is not None:
            getattr(self, type(statement).__name__.lower() + "_")(statement)

    def compound_(self, compound):
        for part in compound.parts:
            self.statement(part)

    def assign_(self, assign):
        meant = self.means[assign.name]
        self.tick(assign.name)
        if assign.index:
            self.expr(assign.index)
            self.emit("INDEX", meant.low, meant.high)
        self.expr(assign.value)
        if assign.index:
            self.indexed("STORE", meant)
        else:
            self.access("STORE", meant)

    def call_(self, call):
        self.tick(call.name)
        self.called(self.means[call.name], call.args)

    def called(self, meant, args):
        if meant.row is None:
            for (kind, _), arg in zip(meant.params, args):
                self.argument(kind, arg)
            if meant.number is not None:
                self.emit("CALL", meant.number)
            elif meant.op is not None:
                self.emit(meant.op)
            return
        array, variables = None, []
        for (kind, _), arg in zip(meant.params, args):
            if kind == V:
                self.expr(arg)
            elif kind == T:
                array = self.means[plain_name(arg)]
            else:
                variables.append(self.means[plain_name(arg)])
        row = list(ROWS).index(meant.row)
        if array is None:
            self.emit("SYS", row)
        else:
            self.emit("SYSG" if array.is_global else "SYSL", row, array.place)
        for variable in reversed(variables):
            self.access("STORE", variable)

    def argument(self, kind, arg):
        if kind == V:
            self.expr(arg)
            return
        meant = self.means[plain_name(arg)]
        if meant.by_reference:
            self.emit("LOADL", meant.place)
            self.emit("LOADL", meant.place + 1)
        else:
            self.emit("REFG" if meant.is_global else "REFL", meant.place)

    def if_(self, statement):
        self.tick(statement.word)
        self.expr(statement.test)
        other, out = self.label(), self.label()
        self.emit("JUMPF", other if statement.other else out)
        self.statement(statement.then)
        if statement.other:
            self.emit("JUMP", out)
            self.here(other)
            self.statement(statement.other[0])
        self.here(out)

    def while_(self, statement):
        turn, out = self.label(), self.label()
        self.tick(statement.word)
        self.here(turn)
        self.tick(statement.word)
        self.expr(statement.test)
        self.emit("JUMPF", out)
        self.statement(statement.body)
        self.emit("JUMP", turn)
        self.here(out)

    def repeat_(self, statement):
        body, turn, out = self.label(), self.label(), self.label()
        self.tick(statement.word)
        self.emit("JUMP", body)
        self.here(turn)
        self.tick(statement.word)
        self.expr(statement.test)
        self.emit("NOT")
        self.emit("JUMPF", out)
        self.here(body)
        self.compound_(statement)
        self.emit("JUMP", turn)
        self.here(out)

    def for_(self, statement):
        control, base = self.means[statement.name], self.base
        turn, out, up = self.label(), self.label(), statement.way.kind == "TO"
        counter = self.words(2)
        self.tick(statement.word)
        self.expr(statement.first)
        self.frame_word("STORE", counter)
        self.expr(statement.last)
        self.frame_word("STORE", counter + 1)
        self.frame_word("LOAD", counter)
        self.frame_word("LOAD", counter + 1)
        self.emit("LE" if up else "GE")
        self.emit("JUMPF", out)
        self.here(turn)
        self.tick(statement.word)
        self.frame_word("LOAD", counter)
        self.access("STORE", control)
        self.statement(statement.body)
        self.frame_word("LOAD", counter)
        self.frame_word("LOAD", counter + 1)
        self.emit("LT" if up else "GT")
        self.emit("JUMPF", out)
        self.frame_word("LOAD", counter)
        self.emit("SUCC" if up else "PRED")
        self.frame_word("STORE", counter)
        self.emit("JUMP", turn)
        self.here(out)
        self.base = base

    def case_(self, statement):
        base, selector, out = self.base, self.words(1), self.label()
        self.tick(statement.word)
        self.expr(statement.selector)
        self.frame_word("STORE", selector)
        for labels, inner in statement.branches:
            matches, following = self.label(), self.label()
            for label in labels:
                self.frame_word("LOAD", selector)
                self.emit("PUSH", self.value(label))
                self.emit("NE")
                self.emit("JUMPF", matches)
            self.emit("JUMP", following)
            self.here(matches)
            self.statement(inner)
            self.emit("JUMP", out)
            self.here(following)
        self.emit("PUSH", 65535)
        self.emit("INDEX", 0, 0)
        self.emit("JUMPF", out)
        self.here(out)
        self.base = base

    def value(self, constant):
        if constant.word.kind == "name":
            return self.means[constant.word].value
        return -constant.word.value if constant.minus else constant.word.value

    RELATIONS = {"=": "EQ", "<>": "NE", "<": "LT", ">": "GT", "<=": "LE", ">=": "GE"}
    OPERATORS = {"+": "ADD", "-": "SUB", "OR": "OR", "*": "MUL", "DIV": "DIV", "MOD": "MOD", "&": "AND"}

    def expr(self, expr):
        self.simple(expr.left)
        if expr.relation:
            self.simple(expr.right)
            self.emit(self.RELATIONS[expr.relation.kind])

    def simple(self, simple):
        for operator, term in simple.terms:
            for inner, factor in term.factors:
                self.factor(factor)
                if inner:
                    self.emit(self.OPERATORS[inner.kind])
            if operator:
                self.emit(self.OPERATORS[operator.kind])
            elif simple.sign and simple.sign.kind == "-":
                self.emit("NEG")

    def factor(self, factor):
        if isinstance(factor, Literal):
            self.emit("PUSH", factor.word.value)
        elif isinstance(factor, Paren):
            self.expr(factor.expr)
        elif isinstance(factor, Not):
            self.factor(factor.factor)
            self.emit("NOT")
        else:
            self.named(factor)

    def named(self, factor):
        meant = self.means[factor.name]
        if meant.sort == "const":
            self.emit("PUSH", meant.value)
        elif meant.sort == "function":
            self.called(meant, factor.args)
        elif factor.index:
            self.expr(factor.index)
            self.emit("INDEX", meant.low, meant.high)
            self.indexed("LOAD", meant)
        else:
            self.access("LOAD", meant)


def compile_lines(lines):
    """The code of the lines of a text; or Refused, with what is answered."""
    tree = Parser(words(lines)).program()
    return Coder(Checker().check(tree)).program(tree)
