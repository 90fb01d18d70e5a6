"""Random sessions of Solo, for `oracle/solo` and `oracle/sessions`: what is typed, the cards, and the files on the drive. Session
`number` of a seed is the same in each run."""
import random

import seqcode
import seqpascal
from solodrive import IN_A_PART, File, free_pages
from solosession import pages_of

NAMES = ["A", "B", "TEXT", "PROG", "P1", "LOOP", "LongName1234", "list"]
WEIGHTS = [2, 1, 6, 6, 2, 2, 1, 1]
ROOM_NAMES = [f"N{number}" for number in range(240)]
HEAD = """VAR A, B, C, I, F: INTEGER; X: CHAR; Q: BOOLEAN;
ID: ARRAY (.1..12.) OF CHAR; PG: ARRAY (.1..512.) OF CHAR; T: ARRAY (.1..8.) OF INTEGER;
PROCEDURE NAME(C1, C2, C3, C4: CHAR);
VAR K: INTEGER;
BEGIN FOR K := 1 TO 12 DO ID(.K.) := ' ';
ID(.1.) := C1; ID(.2.) := C2; ID(.3.) := C3; ID(.4.) := C4 END;
PROCEDURE SHOW(N: INTEGER);
BEGIN WRITEINT(N); WRITE(NL) END;
PROCEDURE TELL(N: INTEGER);
BEGIN IF N > 9 THEN TELL(N DIV 10); DISPLAY(CHR(48 + ABS(N) MOD 10)) END;
PROCEDURE GROW(VAR V: INTEGER);
BEGIN V := V + 1; B := V END;
FUNCTION SUM(N: INTEGER): INTEGER;
BEGIN IF N > 1 THEN SUM := SUM(N - 1) + N ELSE SUM := 1 END;
BEGIN I := 1; F := 1; NAME('T', 'E', 'X', 'T');""".split("\n")
PLAIN = "ABCXYZ 0123456789abc.,;~"


def named(rng, count=len(NAMES)):
    """One of the first names, some of them more often, so that commands and programs meet the same files."""
    return rng.choices(NAMES[:count], WEIGHTS[:count])[0]


# ---- programs
def expression(rng, depth=0):
    if depth > 1 or rng.random() < 0.4:
        return rng.choice(["A", "B", "C", "I", "F", "T(.I.)", "SUM(5)", "LENGTH(F)", "ORD(X)", str(rng.choice([0, 1, 2, 7, 255, 32767]))])
    return f"({expression(rng, depth + 1)} {rng.choice(['+', '-', '*', 'DIV', 'MOD'])} {expression(rng, depth + 1)})"


def spelled(rng):
    letters = named(rng, 6).ljust(4)
    return "NAME(" + ", ".join(f"'{letter}'" for letter in letters) + ")"


CALLS = [
    "READ(X); WRITE(X)", "READ(X); WHILE X <> EM DO BEGIN WRITE(X); READ(X) END", "READ(X); DISPLAY(X)", "WRITE(NL)", "DISPLAY(NL)",
    "REPEAT ACCEPT(X); DISPLAY(X) UNTIL (X = NL) OR (X = EM)", "ACCEPT(X); WRITE(X)", "TELL(A); DISPLAY(' ')", "SHOW(B)",
    "FOR I := 1 TO 600 DO WRITE('A')", "FOR I := 1 TO 140 DO DISPLAY('D')", "WRITE(CHR(A MOD 128))",
    "OPEN(F, ID, Q); IF Q THEN BEGIN SHOW(LENGTH(F)); CLOSE(F) END ELSE WRITE('N')", "OPEN(1, ID, Q)", "OPEN(2, ID, Q)", "CLOSE(F)",
    "OPEN(F, ID, Q); IF Q THEN BEGIN GET(F, 1, PG); FOR I := 1 TO 99 DO WRITE(PG(.I.)); CLOSE(F) END",
    "OPEN(F, ID, Q); IF Q THEN BEGIN PUT(F, LENGTH(F) + 1, PG); SHOW(LENGTH(F)); CLOSE(F) END",
    "GET(F, B, PG); WRITE(PG(.1.))", "PUT(F, B, PG)", "PG(.1.) := 'P'; PG(.A.) := EM", "FOR I := 1 TO 300 DO PUT(F, LENGTH(F) + 1, PG)",
    "LOOKUP(ID, A, Q); SHOW(A)", "READARG(A, B, ID); SHOW(A); SHOW(B); WRITE(ID(.1.))", "WRITEARG(2, B, ID); WRITEARG(3, 0, ID)",
    "WRITEARG(A, B, ID)", "RUN(ID, A, B); SHOW(A); SHOW(B)", "WRITEARG(2, C + 1, ID); RUN(ID, A, B); READARG(C, B, ID); SHOW(C)",
    "GROW(A)", "B := SUM(C MOD 20)", "B := SUM(70)", "F := 3 - F",
]
FIRST_WITH_NAME = 12
# Statements that break a rule, each another one or another part of one.
WRONG = [
    "A := X", "X := A", "SHOW(X)", "SHOW(A, B)", "SHOW", "READ(A)", "READ(SUM(1))", "UNKNOWN(A)", "UNKNOWN := 1", "A := UNKNOWN",
    "IF A THEN B := 1", "WHILE B DO", "REPEAT UNTIL C", "PG := 'A'", "PG := X", "A(.1.) := 2", "T(.X.) := 1", "T(.1.) := X", "WRITE(ID)",
    "GET(F, 1, ID)", "OPEN(1, PG, Q)", "OPEN(1, ID, A)", "FOR X := 1 TO 2 DO", "FOR I := 1 TO X DO", "FOR NOBODY := X TO 2 DO",
    "CASE A OF 1: ; 'A': END", "CASE A OF 1: ; 2, 1: A := X END", "A := TRUE + 1 + UNKNOWN", "A := -Q", "SUM(3)", "A := SHOW(1)",
    "A := SUM", "A := SUM(1, 2)", "T := 1", "Q := A < X", "Q := NOT A", "A := (A + B) & C", "GROW(3)", "GROW((A))", "GROW(X)", "A := A(1)",
    "A := TRUE(1)", "SUM := 1", "INTEGER := 1", "A := CHAR", "WRITE(PG(.1.), X)", "LENGTH(F)", "A := LENGTH(X)", "RUN((ID), A, B)",
]


def statement(rng, depth=0):
    """The cards of a statement."""
    kind = rng.randrange(6 if depth > 2 else 9)
    if kind == 0:
        return [f"{rng.choice(['A', 'B', 'C', 'T(.I.)', 'T(.A.)'])} := {expression(rng)}"]
    if kind < 4:
        return [spelled(rng) + ";", rng.choice(CALLS[FIRST_WITH_NAME:])]
    if kind < 6:
        return [rng.choice(CALLS)]
    inner = statement(rng, depth + 1)
    if kind == 6:
        return [f"FOR C := {rng.choice(['1 TO 3', '3 DOWNTO 1', '1 TO A', '1 TO 0'])} DO BEGIN", *inner, "END"]
    if kind == 7:
        return [f"IF {expression(rng)} < {expression(rng)} THEN BEGIN", *inner, "END ELSE BEGIN", *statement(rng, depth + 1), "END"]
    return ["CASE A MOD 3 OF 0, 1: BEGIN", *inner, "END; 2: B := 1; -1: END"]


def program(rng):
    """The cards of a program; some have one character that is another one."""
    cards = list(HEAD)
    for _ in range(rng.choice([0, 1, 3, 6, 12])):
        cards += statement(rng) if rng.random() < 0.98 else [rng.choice(WRONG)]
        cards[-1] += ";"
    cards.append(rng.choice(["END."] * 90 + ["WHILE TRUE DO END.", '"NOT CLOSED', ""]))
    cards = [piece for card in cards for piece in pieces(card)]
    if rng.random() < 0.1:
        place = rng.randrange(len(cards))
        at = rng.randrange(len(cards[place]) + 1)
        cards[place] = cards[place][:at] + rng.choice(";:=()'X9 \"?.") + cards[place][at + 1:]
    return cards


def pieces(card):
    """A card of at most 80 columns, or several, cut at blanks."""
    while len(card) > 80:
        at = card.rindex(" ", 0, 80)
        if card[at - 1] == card[at + 1] == "'":
            at = card.rindex(" ", 0, at)
        yield card[:at]
        card = card[at + 1:]
    yield card


# ---- cards and typed lines
def plain(rng):
    if rng.random() < 0.03:
        return rng.choice(["Y" * 81, "A\tB", "\x7f"])
    return "".join(rng.choice(PLAIN) for _ in range(rng.choice([0, 1, 5, 20, 79, 80])))


def card_file(rng, programs):
    """A program with this chance, or plain cards."""
    cards = program(rng) if rng.random() < programs else [plain(rng) for _ in range(rng.choice([0, 1, 3, 8, 40]))]
    if rng.random() < 0.05:
        cards.insert(rng.randrange(len(cards) + 1), rng.choice(["Y" * 81, "#END X", "#JOB A", "A\tB"]))
    return cards + [rng.choice(["#END", "#END", "#end  "])]


def varied(rng, line):
    """The same command, typed another way."""
    if rng.random() < 0.2:
        line = line.upper() if rng.random() < 0.5 else line.replace("(", " ( ").replace(",", "  ,")
    return rng.choice(["", " "]) + line + rng.choice(["", " "])


def arguments(rng):
    words = ["nil", "true", "FALSE", "7", "-32768", "00042", "32768", "a", "cards", "PROG", "x y", "123456"]
    count = rng.choice([0, 0, 0, 1, 2, 10, 11])
    return "(" + ", ".join(rng.choice(words[:10] if rng.random() < 0.9 else words) for _ in range(count)) + ")" if count else ""


def typed(rng):
    """The typed lines of a turn, and for each card file that they may take the chance that it is a program."""
    name, other, kind = named(rng), named(rng), rng.randrange(16)
    if kind < 5:
        name, other = rng.choice(["TEXT", "A", name]), rng.choice(["PROG", "P1", "LOOP", other])
        lines = [f"delete({word})" for word in (name, other) if rng.random() < 0.7]
        lines += [f"copy(cards, {name})", f"compile({name}, {other})", other + arguments(rng)]
        return lines + [plain(rng) for _ in range(rng.choice([0, 0, 1, 3]))], [0.97, 0.1][:1 + rng.randrange(2)]
    if kind < 8:
        name = rng.choice(["PROG", "P1", "LOOP", name])
        return [name + arguments(rng), *[plain(rng) for _ in range(rng.choice([0, 0, 1, 3]))]], [0.1][:rng.randrange(2)]
    rows = [f"copy({name}, printer)", f"copy({name}, {other})", f"copy(cards, {rng.choice([name, 'printer'])})", f"delete({name})",
            f"rename({name}, {other})", f"protect({name}, {rng.choice(['on', 'off'])})", f"compile({name}, {other})",
            rng.choice(["list", "list", "list", plain(rng), "", "list()", "copy(cards)", "delete(cards)", "copy(printer, a)", f"{name}()", "("])]
    return [rows[kind - 8]], [0.5] if kind == 10 else []


# ---- drives
def files_of(rng):
    kind, files = rng.randrange(12), {}
    if kind < 4:
        return files
    for name in NAMES[:rng.randrange(7)]:
        files[name.upper().encode()] = file_of(rng)
    if kind == 9:
        files.update((name.encode(), File(1, False, [])) for name in ROOM_NAMES[:rng.choice([233, 237, 239]) - len(files)])
    elif kind == 10:
        fill(files, rng.choice([0, 1, 2, 3, 5, 30]))
    elif kind == 11:
        files[b"TEXT"] = File(2, False, [b"L" * 512] * rng.choice([249, 250, 3990, 4000]))
    return files


def fill(files, left):
    """Takes all pages of the area but so many, or a few more."""
    room, place = free_pages(files) - left, 0
    while room > 1:
        count = min(room - 1 - -(-room // (IN_A_PART + 1)), 10 * IN_A_PART)
        made = File(1, False, [bytes(512)] * max(count, 0))
        files[ROOM_NAMES[place].encode()] = made
        room, place = free_pages(files) - left, place + 1


def file_of(rng):
    kind, protected = rng.choice([1, 2, 2, 3, 3, 3, 4]), rng.random() < 0.2
    if kind != 3:
        text = "\n".join(program(rng) if rng.random() < 0.5 else [plain(rng) for _ in range(9)]).encode()
        return File(kind, protected, list(pages_of(text + bytes([25]))) if rng.random() < 0.9 else [])
    try:
        data = bytearray(seqcode.encode(seqpascal.compile_lines([card.encode() for card in program(rng)])))
    except seqpascal.Refused:
        return File(kind, protected, [bytes(512)])
    if rng.random() < 0.15:
        data[rng.randrange(len(data))] = rng.randrange(256)
    return File(kind, protected, list(pages_of(bytes(data))))


def joined(rng, lines):
    feed = rng.choice(["\n", "\n", "\r\n"])
    text = "".join(line + feed for line in lines).encode()
    return text[:-len(feed)] if rng.random() < 0.1 else text


def session_of(seed, number):
    """What is typed, the cards, the files, and a schedule."""
    rng = random.Random(f"solo {seed} {number}")
    lines, cards, files = [], [], files_of(rng)
    for _ in range(rng.choice([0, 1, 3, 8, 20])):
        made, wanted = typed(rng)
        lines += [line if line[:1] in PLAIN[:6] else varied(rng, line) for line in made]
        for programs in wanted if rng.random() < 0.95 else [0.5] * rng.randrange(3):
            cards += card_file(rng, programs)
    return joined(rng, lines), joined(rng, cards), files, rng.randrange(2147483648)
