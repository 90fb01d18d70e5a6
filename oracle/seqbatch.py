"""What a deck prints, written from the documents alone, for `oracle/soak`: its jobs with their programs compiled and run here. There
are no files, so a job of one finds none."""
import re

import seqcode
import seqpascal
from solosession import RESULTS, SPOILED, Lines, identifier, items

LIMIT = 10_000


def control(card):
    """None for a plain card; else its first word, and the words behind it; ("BAD",) where it isn't well formed."""
    if card is SPOILED or not card.startswith(b"#"):
        return None
    word, *rest = re.split(rb" +", card[1:].rstrip(b" "))
    word, names = word.upper(), [identifier(other) for other in rest]
    limited = word == b"JOB" and len(rest) == 2 and re.fullmatch(rb"[0-9]{1,7}", rest[1]) and 1 <= int(rest[1]) <= 1_000_000
    wanted = {b"LIST": 1, b"JOB": 1, b"RUN": 2, b"DATA": 0, b"END": 0}.get(word)
    good = names and names[0] and limited or wanted == len(rest) and None not in names
    return (word, *rest) if good else (b"BAD",)


def is_opener(card):
    told = control(card)
    return told is not None and told[0] in (b"LIST", b"JOB", b"RUN")


def groups(cards):
    """Each group by its opener and its cards, and None with the count of cards where some stand outside groups."""
    outside = 0
    while cards:
        card = cards.pop(0)
        if not is_opener(card):
            outside += card != b""
            continue
        if outside:
            yield None, outside
        outside, inside = 0, []
        while cards and not is_opener(cards[0]):
            inside.append(cards.pop(0))
            if control(inside[-1]) == (b"END",):
                inside.pop()
                break
        yield control(card), inside
    if outside:
        yield None, outside


def parted(kind, cards):
    """The program or list, the input, the fault, and whether that is in the input."""
    parts, at = ([], []), int(kind == b"RUN")
    for number, card in enumerate(cards, 1):
        told = control(card)
        if told == (b"DATA",) and kind == b"JOB" and at == 0:
            at = 1
        elif card is SPOILED or told is not None:
            return (*parts, (b"SPOILED CARD %d" if card is SPOILED else b"BAD CONTROL CARD %d") % number, at == 1)
        else:
            parts[at].append(card)
    return (*parts, None, False)


def ran(name, program, data, limit):
    """The lines of a program, and how it ended."""
    try:
        code = seqpascal.compile_lines(program)
    except seqpascal.Refused as refused:
        return [name + b": " + refused.args[0]]
    told, lines, reply = [], Lines(), None
    unread, running = b"".join(card + b"\n" for card in data), seqcode.Machine(code, limit).run()
    while True:
        try:
            row, values, _, _ = running.send(reply)
        except StopIteration as ended:
            result, line, _ = ended.value
            how = RESULTS[result]
            return told + lines.end() + [name + b": " + (how % line if b"%d" in how else how)]
        reply = None
        if row == "READ":
            reply, unread = ([unread[0] if unread else 25], None, 0), unread[1:]
        elif row in ("WRITE", "WRITEINT"):
            for code_ in b"%d" % values[0] if row == "WRITEINT" else values:
                told += lines.add(code_)
            reply = [], None, 0


def reports(deck):
    """The lines that a deck prints."""
    told = []
    for opener, cards in groups(items(deck)):
        if opener is None:
            told.append(b"%d CARDS SKIPPED" % cards)
            continue
        kind, name = opener[0], identifier(opener[1])
        program, data, fault, in_input = parted(kind, cards)
        told.append(b"JOB " + name)
        if kind == b"LIST":
            told += program + [name + b": " + (fault or b"LISTED %d CARDS" % len(program))]
            continue
        if kind == b"RUN":
            told.append(name + b": NO FILE")
        elif not fault or in_input:
            told += ran(name, program, data, int(opener[2]) if len(opener) == 3 else LIMIT)
        told += [name + b": " + fault] if fault else []
    return told
