"""The tests of `oracle/solo`: rows worked out by hand, and random sessions by the three processes."""
import random

import seqcode
import seqpascal
import solorandom
from solodrive import File, make_drive, read_drive
from solosession import END, ENDS, FAULTS, Net, ROOM, SPOILED, pages_of, session

DEEP = b"""VAR ID: ARRAY (.1..12.) OF CHAR; L, R, I: INTEGER;
BEGIN FOR I := 1 TO 12 DO ID(.I.) := ' ';
ID(.1.) := 'D'; ID(.2.) := 'E'; ID(.3.) := 'E'; ID(.4.) := 'P';
RUN(ID, L, R); WRITEINT(R); WRITE(NL) END."""
ACCEPTS = b"VAR I: INTEGER; C: CHAR;\nBEGIN FOR I := 1 TO 600 DO WRITE('A'); ACCEPT(C) END.\n#END\n"
MADE = "copy(cards, text)|compile(text, prog)|"
# What is typed, the cards, the console and the paper, with `|` for the ends of lines.
ROWS = [
    (MADE + "prog|copy(text, printer)|copy(cards, text)|list|", b"BEGIN WRITE('H'); WRITE('I') END.\n#END\n",
     "COPY: OK|COMPILE: OK|PROG: TERMINATED|COPY: OK|COPY: FILE EXISTS|PROG SEQCODE 1 PAGES|TEXT ASCII 1 PAGES|LIST: 2 FILES",
     "HI|BEGIN WRITE('H'); WRITE('I') END."),
    ("deep|", b"", "DEEP: TERMINATED", "6|0|0|0|0"),
    (MADE + "prog|go|", ACCEPTS, "COPY: OK|COMPILE: OK|PROG: TERMINATED", "|".join(["A" * 132] * 4 + ["A" * 72])),
    ("|  |list()|copy(cards)|cards|prog(nil, 7, text)|prog(32768)|rename(a, a)|" + "x" * 81 + "|", b"",
     "BAD COMMAND|BAD COMMAND|BAD COMMAND|PROG: NO FILE|BAD COMMAND|RENAME: NO FILE|BAD COMMAND", ""),
    ("copy(cards, a)|copy(cards, printer)|copy(a, a)|delete(a)|delete(a)|", b"ONE\nA\tB\nTWO\n#end \nTHREE\n",
     "COPY: SPOILED CARD|COPY: OK|COPY: NO FILE|DELETE: NO FILE|DELETE: NO FILE", "THREE"),
    (MADE + "prog|spare|", b"VAR C: CHAR;\nBEGIN REPEAT ACCEPT(C); DISPLAY(C) UNTIL C = EM END.\n#END\n",
     "COPY: OK|COMPILE: OK|spare|?|PROG: TERMINATED", ""),
    (MADE + "prog|", b"VAR C: CHAR;\nBEGIN REPEAT READ(C); WRITE(C) UNTIL C = EM END.\n#END\nA\nB\nX\tY\nC\n#END\n",
     "COPY: OK|COMPILE: OK|PROG: TERMINATED|PROG: SPOILED CARD", "A|B|?"),
    (MADE + "protect(text, on)|delete(text)|list|protect(text, off)|delete(text)|", b'BEGIN\nX := 1\nEND.\n#END\n',
     "COPY: OK|COMPILE: SEMANTIC ERROR 2 IN LINE 2|PROTECT: OK|DELETE: PROTECTED|TEXT ASCII 1 PAGES PROTECTED|LIST: 1 FILES|PROTECT: OK|"
     "DELETE: OK", ""),
]
RANDOM_SESSIONS = 200


def lines(text):
    return text.encode().split(b"|") if text else []


def rows():
    """0 where each test holds, else what doesn't."""
    deep = {b"DEEP": File(3, False, list(pages_of(seqcode.encode(seqpascal.compile_lines(DEEP.split(b"\n"))))))}
    for keys, cards, console, paper in ROWS:
        told = session(keys.replace("|", "\n").encode(), cards, deep if keys.startswith("deep") else {})
        if (told.console, told.paper) != (lines(console), lines(paper)):
            return f"{keys} {told.console} {told.paper}"
    for number in range(RANDOM_SESSIONS):
        keys, cards, files, schedule = solorandom.session_of(0, number)
        wrong = differs(keys, cards, files, schedule) or fails_badly(keys, cards, files, schedule)
        if wrong:
            return f"random session {number}: {wrong}"
    print(f"{len(ROWS)} rows, and {RANDOM_SESSIONS} random sessions by the three processes")
    return 0


def differs(keys, cards, files, schedule):
    """What differs between a session and its three processes; nothing as a rule."""
    told, net = session(keys, cards, files), Net(keys, cards, files)
    net.run(schedule)
    if net.console != told.console or net.paper != told.paper:
        return "the lines differ"
    if net.area.maps != told.maps or set(net.outcomes.values()) != {"Done"} or any(b.stopped_by for b in net.buffers.values()):
        return "the files or the outcomes differ"
    now = {name: file._replace(pages=list(file.pages)) for name, file in told.maps[-1].items()}
    return "" if read_drive(make_drive(now)) == now else "the drive differs"


def fails_badly(keys, cards, files, schedule):
    """What is wrong where a call of a device fails; nothing as a rule."""
    rng = random.Random(schedule)
    kind = rng.choice(list(FAULTS))
    whole, net = Net(keys, cards, files), Net(keys, cards, files, fails={kind: rng.randrange(1, 9)})
    whole.run(schedule)
    net.run(schedule)
    if net.console != whole.console[:len(net.console)] or net.paper != whole.paper[:len(net.paper)]:
        return "no first part of the lines"
    stopped = {p for p, outcome in net.outcomes.items() if outcome == "Stopped"}
    told = {ENDS[b]["sr".index("r" if buffer.stopped_by == "s" else "s")] for b, buffer in net.buffers.items() if buffer.stopped_by}
    faults = [outcome for outcome in net.outcomes.values() if outcome not in ("Done", "Stopped")]
    if not stopped <= told or bool(told) != bool(faults) or len(faults) > 1:
        return f"the outcomes {net.outcomes}"
    return ""


# ---- the commands of the tests of the network: rows of deeds
KEYS = b"dpcpt\nHELLO\n     \ncd   \nx\ty z\nppppp\nt    \n"
CARDS = [b"A" * 80, b"B", b"C" * 80, b"D" * 80, b"E" * 80, b"F" * 80, b"G" * 80, b"H" * 80, b"#END", b"ONE", b"\x7f", b"TWO"]
WIDTH = 80


def deeds(line, _):
    """Each letter of a typed line is a deed: `c` prints a card file, `t` answers with a typed line, `p` prints a line of 120
    columns, and any other displays one."""
    answers = []
    for letter in b"" if line is SPOILED else line:
        if letter == ord("c"):
            cards, spoiled = yield ("cards",)
            answers += [b"SPOILED"] if spoiled else []
            for card in cards:
                yield ("print", card)
        elif letter == ord("t"):
            typed = yield ("typed",)
            answers.append(b"NONE" if typed == END else typed or b"")
        elif letter != ord("p") or (yield ("print", b"P" * 120)) == ROOM:
            yield ("display", bytes([letter]))
    return answers + [b"OK"]


def deed_cards():
    return b"".join(card.ljust(WIDTH) + b"\n" for card in CARDS)


def deeds_net(schedule, fails=None):
    net = Net(KEYS, deed_cards(), {}, deeds, fails)
    return net, net.run(schedule)


SHORT = {"read": "R", "accept": "A", "display": "D", "print": "P", "work": "W", "put": "p", "take": "t", "stop": "s", "ended": "E"}


def print_deeds():
    """The tables of solo_net_tests: what is told, the events of a schedule, counts, and each call that fails."""
    net, _ = deeds_net(7)
    print("console", net.console)
    print("paper", net.paper)
    print("events", " ".join(f"{p}{SHORT[kind]}{rest[0] if kind in ('put', 'take', 'stop') else ''}" for p, kind, *rest in net.trace))
    print("counts", ", ".join(str(deeds_net(schedule)[1]) for schedule in range(10)))
    for kind in FAULTS:
        for call in range(1, net.calls[kind] + 1):
            failed, counts = deeds_net(call, {kind: call})
            stops = "".join(buffer.stopped_by or "-" for buffer in failed.buffers.values())
            if set(failed.outcomes.values()) != {"Done"}:
                print(kind, call, *(failed.outcomes[p] for p in (1, 2, 3)), stops, *counts, len(failed.console), len(failed.paper))
