"""The file area of a drive, written from its format alone, for `oracle/solo`: read into a map of files, and made from one.

A file is (kind, protected, pages), where kind is 1 scratch, 2 ascii, 3 seqcode or 4 concode, and each page has 512 bytes."""
from collections import namedtuple

PAGE, AREA, DRIVE, FIRST = 512, 4288, 4800, 18
ENTRIES, IN_A_PAGE, ENTRY = 240, 16, 32
IN_A_PART, LONGEST = 250, 4000
KINDS = {1: b"SCRATCH", 2: b"ASCII", 3: b"SEQCODE", 4: b"CONCODE"}
File = namedtuple("File", "kind protected pages")


def taken_pages(file):
    """Its index, its parts and its pages."""
    return 1 + -(-len(file.pages) // IN_A_PART) + len(file.pages)


def free_pages(files):
    return AREA - FIRST - sum(map(taken_pages, files.values()))


def number(value):
    return value.to_bytes(2, "big")


def key_of(name):
    key = 1
    for code in name:
        key = key * code % ENTRIES + 1
    return key


class Broken(Exception):
    """What is wrong with a drive."""


def expect(holds, what):
    if not holds:
        raise Broken(what)


def read_drive(drive):
    """The files of a drive whose area breaks no rule of its format."""
    page = lambda n: drive[PAGE * n:PAGE * (n + 1)]
    numbers = lambda n: [int.from_bytes(page(n)[at:at + 2], "big") for at in range(0, PAGE, 2)]
    expect(len(drive) == PAGE * DRIVE, "the drive has another length")
    expect(page(0) == (b"SOLODISK" + number(2) + number(AREA)).ljust(PAGE, b"\0"), "page 0")
    files, taken, keys = {}, set(range(FIRST)), [0] * ENTRIES
    for at in range(ENTRIES):
        entry = drive[PAGE + ENTRY * at:PAGE + ENTRY * (at + 1)]
        kind, index, protected, key = (int.from_bytes(entry[place:place + 2], "big") for place in (12, 14, 16, 28))
        if not any(entry[:30]):
            continue
        name = entry[:12].rstrip(b" ")
        expect(name.isalnum() and name[:1].isalpha() and name.isupper() and name not in files, f"the name at {at}")
        expect(kind in KINDS and protected in (0, 1) and not any(entry[18:28]) and key == key_of(name), f"the entry at {at}")
        keys[key - 1] += 1
        files[name] = File(kind, bool(protected), file_pages(numbers, page, index, taken))
    for at in range(ENTRIES):
        expect(int.from_bytes(drive[PAGE + ENTRY * at + 30:PAGE + ENTRY * at + 32], "big") == keys[at], f"the search length at {at}")
    bits = b"".join(page(n) for n in (16, 17))
    for n in range(2 * PAGE * 8):
        expect(bits[n // 8] >> n % 8 & 1 == (n in taken), f"the bit of page {n}")
    return files


def file_pages(numbers, page, index, taken):
    def take(n):
        expect(FIRST <= n < AREA and n not in taken, f"page {n} is used twice, or lies outside")
        taken.add(n)
        return n

    length, *rest = numbers(take(index))
    expect(length <= LONGEST, f"the length in page {index}")
    count = -(-length // IN_A_PART)
    expect(not any(rest[count:]), f"the end of page {index}")
    pages = []
    for part in rest[:count]:
        addresses, wanted = numbers(take(part)), min(IN_A_PART, length - len(pages))
        expect(not any(addresses[wanted:]), f"the end of page {part}")
        pages += [bytes(page(take(n))) for n in addresses[:wanted]]
    return pages


def make_drive(files):
    """A drive with these files and no other, whose pages stand one behind the other."""
    drive, following = bytearray(PAGE * DRIVE), FIRST

    def write(n, at, data):
        drive[PAGE * n + at:PAGE * n + at + len(data)] = data

    write(0, 0, b"SOLODISK" + number(2) + number(AREA))
    places = [None] * ENTRIES
    for name, file in files.items():
        key, index = key_of(name), following
        count = -(-len(file.pages) // IN_A_PART)
        parts = range(index + 1, index + 1 + count)
        following = index + 1 + count + len(file.pages)
        write(index, 0, number(len(file.pages)) + b"".join(map(number, parts)))
        for place, data in enumerate(file.pages):
            write(parts[place // IN_A_PART], place % IN_A_PART * 2, number(index + 1 + count + place))
            write(index + 1 + count + place, 0, data)
        at = next((key - 1 + step) % ENTRIES for step in range(ENTRIES) if places[(key - 1 + step) % ENTRIES] is None)
        places[at] = name
        entry = name.ljust(12) + number(file.kind) + number(index) + number(file.protected) + bytes(10) + number(key)
        write(1 + at // IN_A_PAGE, at % IN_A_PAGE * ENTRY, entry)
    for name in files:
        at = PAGE + ENTRY * (key_of(name) - 1) + 30
        drive[at:at + 2] = number(int.from_bytes(drive[at:at + 2], "big") + 1)
    for n in range(following):
        drive[PAGE * 16 + n // 8] |= 1 << n % 8
    return bytes(drive)
