"""Follows names from the clauses of a public function to the definitions on which they rest, one by one.

A definition counts by its lines without blank ones and comments. Of a lemma its statement counts alone, and only that is followed. A struct, an enum and a
constant of the code count by their declarations, with the model that a struct gives itself; a trait counts whole, with the contracts of its calls. Names of
std and of the toolchain are followed no further. A name that is bound where it stands, as a variable of a pattern, hides the definition of that name.
"""
import functools
import os
import re
from pathlib import Path

WORD = re.compile(r"[(){}\[\],;]|[^\s(){}\[\],;]+")
BOUND_BEHIND = re.compile(r"\s*(?:→|×|=|:|\(|\{|where\b|in\b|$)")
NAMES_OF_TYPE = re.compile(r"\s*((?:[^\s(){}:=,;]+\s+)*[^\s(){}:=,;]+)\s+:\s")
HEAD = re.compile(r"(?P<words>(?:(?:abbrev|unfoldable|opaque|pub|record|data) )*)(?P<name>[^\s:(){}]+)(?P<rest>.*)")
RUST_ITEM = re.compile(r"(?:pub(?:\([a-z]+\))? )?(?P<kind>struct|enum|trait|const|type|static|union) (?P<name>\w+)")
RUST_MODEL = re.compile(r"impl(?:<.*?>)? Model for (?P<name>\w+)")
RUST_WORD = re.compile(r"[A-Za-z_][\w'-]*(?:\.[A-Za-z_][\w'-]*)?")
unresolved = set()


class Declaration:
    """A definition, a lemma, or an item of the code, with its lines and the comment in front of it."""

    def __init__(self, file, name, kind, comment, head=""):
        self.file, self.name, self.kind, self.comment, self.head, self.lines = file, name, kind, comment, head, []

    def __repr__(self):
        return f"{self.file.path}: {self.name}"

    def read(self, cases=()):
        """What of it is read: of a lemma its statement, else all but the equations of the cases that are left out, which are pairs of a name and a constructor."""
        if self.kind == "lemma":
            ends = (place for place, line in enumerate(self.lines) if place and re.match(rf"\s*({re.escape(self.name)}|unfolding)(\s|$)", line))
            return self.lines[: next(ends, len(self.lines))]
        dropped = [f"({constructor} " for name, constructor in cases if name == self.name]
        if not dropped:
            return self.lines
        return [line for part in self.equations() if not any(case in part.split(" =")[0] for case in dropped) for line in part.split("\n")]

    def equations(self):
        """Its type, and each of its equations."""
        return re.split(rf"\n(?=\s*{re.escape(self.name)}(?:\s|$))", "\n".join(self.lines))

    def length(self, cases=()):
        return len(self.read(cases))

    def sentence(self):
        """The first sentence of the comment in front of it."""
        return first_sentence(self.comment)


def first_sentence(comment):
    """The first sentence of some lines of comment."""
    text = " ".join(re.sub(r"^(--|//!|///?)( ----)?", "", line.strip()).strip() for line in comment)
    return re.split(r"(?<=[^.]\.)(?= )|$", text.strip(), maxsplit=1)[0]


class File:
    """A file of definitions or of code: its declarations, the names that it takes from other files, and its constructors."""

    def __init__(self, path):
        self.path, self.text = path, path.read_text()
        self.declared, self.constructors, self.model = {}, {}, {}
        self.names, self.modules = imports(self.text)
        self.order = []

    def sentence(self):
        """The first sentence of its head, if it has one."""
        lines = self.text.split("\n")
        return first_sentence(lines[: next(place for place, line in enumerate(lines) if not re.match(r"--|//(?!/)", line))])

    def add(self, declaration):
        self.declared.setdefault(declaration.name, declaration)
        self.order.append(declaration)


def without_comment(line):
    return re.sub(r"(^|\s)--.*", "", line).rstrip()


def imports(text):
    """The names that a file takes from others, and the names that it gives to whole files."""
    names, modules = {}, {}
    for found in re.finditer(r"^[ \t]*(?:pub )?(?:ghost )?use (Rattle\.[^\s;{]+?)(?:\.\{([^}]*)\}| as (\w+)|)[ \t]*;?[ \t]*$", text, re.MULTILINE):
        module, taken, other = found.groups()
        for name in (taken or "").split(","):
            if name.strip():
                old, new = name.split(" as ") if " as " in name else (name, name)
                names[new.strip()] = (module, old.strip())
        if taken is None:
            modules[other or module.split(".")[-1]] = module
    return names, modules


def indent(line):
    return len(line) - len(line.lstrip(" "))


@functools.cache
def definitions(path):
    """A file of specs/, with its declarations."""
    file = File(path)
    lines = re.sub(r"^[ \t]*(?:pub )?use [^\n{]*(?:\{[^}]*\})?[^\n]*", lambda use: "\n" * use.group().count("\n"), file.text, flags=re.MULTILINE).split("\n")
    block(file, lines, 0)
    for declaration in file.order:
        for line in declaration.lines[1:] if declaration.kind == "data" else []:
            found = re.match(r"\s+(?:pub )?([^\s:]+(?: [^\s:]+)*) :", line)
            for name in found.group(1).split() if found else []:
                file.constructors[name] = declaration
    return file


def block(file, lines, depth, head="", defines=False):
    """The declarations of lines that begin in one column: those of a file, of a module with parameters, or of a mutual group, which may define."""
    current, comment, place = None, [], 0
    while place < len(lines):
        line, place = lines[place], place + 1
        plain = without_comment(line)
        if not plain:
            comment = comment + [line.strip()] if line.strip() else []
        elif indent(line) > depth:
            if current:
                current.lines.append(plain)
        elif re.match(r"\s*(?:pub )?mod ", plain):
            current = None
        elif re.match(r"\s*(?:pub )?module |\s*(?:abbrev )?(?:unfoldable )?mutual\b", plain):
            end = next((n for n in range(place, len(lines)) if lines[n].strip() and indent(lines[n]) <= depth), len(lines))
            opened = next(n for n in range(place - 1, end) if re.search(r"\b(where|mutual)$", without_comment(lines[n])))
            inner = lines[opened + 1 : end]
            inside = next((indent(inner_line) for inner_line in inner if without_comment(inner_line)), depth)
            module = "\n".join(lines[place - 1 : opened + 1]) if "module" in plain else ""
            block(file, inner, inside, head + module, defines or "abbrev" in plain or "unfoldable" in plain)
            current, comment, place = None, [], end
        else:
            current = begun(file, plain, comment, head, defines) or current
            current.lines.append(plain)
            comment = []


def begun(file, line, comment, head, defines):
    """The declaration that a line begins, if it begins one; else it is an equation of the one before."""
    found = HEAD.fullmatch(line.strip())
    words = found.group("words").split() if found else []
    if not found or not words and not re.match(r"(\{.*\} )?:(\s|$)", found.group("rest").strip()):
        return None
    kinds = [word for word in words if word in ("record", "data")] or [word for word in words if word in ("abbrev", "unfoldable") or defines] or ["abbrev" if defines else "lemma"]
    declaration = Declaration(file, found.group("name"), kinds[0], comment, head)
    file.add(declaration)
    return declaration


@functools.cache
def code(path):
    """A file of src/, with its structs, enums, traits and constants, and the names of the code that it takes from elsewhere."""
    file = File(path)
    file.taken = {}
    plain = re.sub(r"^\s*ghost use [^;]*;", "", file.text, flags=re.MULTILINE)
    for found in re.findall(r"^(?:pub )?use ([^;]*);", plain, re.MULTILINE):
        front, inner = re.fullmatch(r"([\w:]+)::(?:\{(.*)\}|\w+(?: as \w+)?)", re.sub(r"\s+", " ", found)).groups()
        for name in inner.split(",") if inner is not None else [found.rsplit("::", 1)[1]]:
            if name.strip():
                old, new = name.split(" as ") if " as " in name else (name, name)
                file.taken[new.strip()] = (front, old.strip())
    lines, place, comment = file.text.split("\n"), 0, []
    while place < len(lines):
        item = RUST_ITEM.match(lines[place])
        model = RUST_MODEL.match(lines[place])
        if item or model:
            end = end_of_item(lines, place)
            declaration = Declaration(file, (item or model).group("name"), item.group("kind") if item else "model", comment)
            declaration.lines = [line for line in lines[place:end] if line.strip() and not line.strip().startswith(("//", "#["))]
            if item:
                file.add(declaration)
            else:
                file.model[declaration.name] = declaration
            place, comment = end, []
        else:
            comment = comment + [lines[place]] if lines[place].startswith("//") else comment if lines[place].startswith("#[") else []
            place += 1
    return file


def end_of_item(lines, place):
    depth, seen = 0, False
    for end in range(place, len(lines)):
        plain = re.sub(r"//.*", "", lines[end])
        depth += sum(plain.count(mark) for mark in "{(") - sum(plain.count(mark) for mark in "})")
        seen = seen or "{" in plain or ";" in plain
        if seen and depth == 0:
            return end + 1
    return len(lines)


@functools.cache
def items(crate):
    """The items of a crate's code, by name."""
    found = {}
    for path in sorted(Path("crates", crate, "src").glob("**/*.rt")):
        for declaration in code(path).order:
            found.setdefault(declaration.name, []).append(declaration)
    return found


def item_of(crate, modules, name):
    """The item of a crate with that name, in that module where the crate has several."""
    found = items(crate).get(name, [])
    if len(found) > 1:
        place = Path("crates", crate, "src", *modules)
        found = [declaration for declaration in found if declaration.file.path.with_suffix("") in (place, place / "mod")] or found
    if len(found) > 1:
        unresolved.add(f"{crate}: {name} is several items")
    return found[0] if found else None


def resolved(module, name):
    """The declaration that a name of a module is, or nothing where it is one of std or of the toolchain."""
    parts = module.split(".")
    if parts[0] != "Rattle" or not Path("crates", parts[1]).is_dir():
        return None
    for way in ("declared", "contracts"):
        if way in parts:
            inside = parts[parts.index(way) + 1 :] + [name]
            place = next((place for place, part in enumerate(inside) if items(parts[1]).get(part)), None)
            if place is None:
                unresolved.add(f"{module}.{name}")
                return None
            return item_of(parts[1], inside[:place], inside[place])
    path = Path("crates", *parts[1:]).with_suffix(".antt")
    if not path.is_file():
        unresolved.add(f"{module}.{name}")
        return None
    file = definitions(path)
    if name in file.names and name not in file.declared:
        return resolved(*file.names[name])
    found = file.declared.get(name) or file.constructors.get(name)
    if found is None:
        unresolved.add(f"{module}.{name}")
    return found


def known(file, word):
    """The declaration that a free word of a file is, if it is one."""
    front, _, behind = word.partition(".")
    if behind and front in file.modules:
        return resolved(file.modules[front], behind.split(".")[0])
    for name in (word, front):
        found = file.declared.get(name) or file.constructors.get(name)
        if found:
            return found
        if name in file.names:
            return resolved(*file.names[name])
    return None


def free_words(text, bound):
    """The words of an expression that nothing in it binds: `λ x.`, `(x : T) →` and `let x =` bind up to the end of the brackets that they stand in."""
    scopes, waiting, place = [set(bound)], [], 0
    words = list(WORD.finditer(text))
    while place < len(words):
        word, end = words[place].group(), words[place].end()
        if word in "({":
            names = NAMES_OF_TYPE.match(text, end)
            waiting.append(names.group(1).split() if names else [])
            scopes.append(set(scopes[-1]))
        elif word in ")}":
            scopes.pop() if len(scopes) > 1 else None
            names = waiting.pop() if waiting else []
            if names and BOUND_BEHIND.match(text, end):
                scopes[-1] |= set(names)
        elif word == "λ":
            place += 1
            while place < len(words) and not words[place].group().endswith("."):
                scopes[-1].add(words[place].group())
                place += 1
            scopes[-1].add(words[place].group().rstrip("."))
        elif word == "let":
            place += 1
            scopes[-1].add(words[place].group())
        elif re.match(r" = ", text[end:]) and place and words[place - 1].group() in "{;":
            pass
        elif word.split(".")[0] not in scopes[-1] and word not in scopes[-1]:
            yield word
        place += 1


def is_variable(file, word):
    """Whether a word of a pattern is a variable: no constructor."""
    if "." in word or word in file.constructors:
        return False
    found = file.declared.get(word) or (resolved(*file.names[word]) if word in file.names else None)
    return found.kind in ("abbrev", "unfoldable", "lemma") if found else word not in file.names


def words_of(declaration, cases=()):
    """The free words of a definition."""
    yield from free_words(declaration.head, ())
    text = "\n".join(declaration.read(cases))
    if declaration.kind == "record":
        fields = set()
        for part in re.split(r"\n(?=\s+(?:pub )?[^\s:(){}]+ :)", text):
            yield from free_words(re.sub(r"^\s+(?:pub )?[^\s:(){}]+ :", "", part), fields | parameters(text))
            fields |= set(re.findall(r"^\s+(?:pub )?([^\s:(){}]+) :", part))
        return
    for part in re.split(rf"\n(?=\s*{re.escape(declaration.name)}(?:\s|$))", text):
        pattern = re.match(rf"\s*{re.escape(declaration.name)}(|\s.*?)\s=(?:\s|$)", part, re.DOTALL)
        front = WORD.findall(pattern.group(1)) if pattern and not part.startswith(("abbrev", "pub", "unfoldable")) else []
        bound = {word for word in front if is_variable(declaration.file, word)}
        yield from (word for word in front if word not in bound)
        yield from free_words(part, bound | parameters(text) if declaration.kind == "data" else bound)


def parameters(text):
    """The names in front of the colon of a record's or a data's head."""
    front = re.split(r"\s:\s", re.sub(r"[({]([^(){}:=]+?) :\s", r"«\1»", text), maxsplit=1)[0]
    return {name for names in re.findall(r"«(.*?)»", front) for name in names.split()}


@functools.cache
def needs(declaration, cases=(), exchanged=False):
    """The declarations that a declaration rests on, in the order of their first words, but for the cases that are left out; of one that is exchanged for a law, those of its type."""
    file = declaration.file
    if file.path.suffix == ".rt":
        found = [known_in_code(file, word) for word in RUST_WORD.findall(re.sub(r"//.*", "", "\n".join(declaration.lines)))]
        found.append(file.model.get(declaration.name) if declaration.kind != "model" else None)
    else:
        words = free_words(declaration.equations()[0], ()) if exchanged else words_of(declaration, cases)
        found = [known(file, word) for word in words]
    return tuple(dict.fromkeys(one for one in found if one and one is not declaration))


def known_in_code(file, word):
    """The declaration that a word of a clause, a signature or an item of the code is."""
    front, _, behind = word.partition(".")
    if behind and front in file.modules:
        return resolved(file.modules[front], behind)
    if front in file.names:
        return resolved(*file.names[front])
    if front in file.taken:
        way, name = file.taken[front]
        first, *modules = way.split("::")
        crate = file.path.parts[1] if first in ("crate", "self", "super") else first
        return item_of(crate, modules, name) if Path("crates", crate).is_dir() else None
    return file.declared.get(front) if front[:1].isupper() else None


def function(crate, name):
    """The file of a crate's public function, its signature and its clauses: of each its kind, its name and its text."""
    for path in sorted(Path("crates", crate, "src").glob("**/*.rt")):
        found = re.search(rf"^pub fn {name}\b", path.read_text(), re.MULTILINE)
        if found:
            break
    head = re.split(r"^\{", path.read_text()[found.start() :], maxsplit=1, flags=re.MULTILINE)[0]
    clauses = []
    for clause in re.finditer(r"\b(requires|ensures)(?: (\w+))? \{", head):
        depth, end = 1, clause.end()
        while depth:
            depth += {"{": 1, "}": -1}.get(head[end], 0)
            end += 1
        clauses.append((clause.group(1), clause.group(2) or "", head[clause.end() : end - 1]))
    return code(path), re.split(r"^\s*(?:requires|ensures)\b", head, maxsplit=1, flags=re.MULTILINE)[0], clauses


def begins(crate, name, chosen=None):
    """What the clauses of a function name, and how many lines they and its signature are; `chosen` are the names of its clauses, of which `requires` are all."""
    file, signature, clauses = function(crate, name)
    texts = [text for kind, clause, text in clauses if chosen is None or (kind if kind == "requires" else clause) in chosen]
    found = [known_in_code(file, word) for word in RUST_WORD.findall(re.sub(r"//.*", "", signature))]
    for text in texts:
        found += [known_in_code(file, word) for word in free_words(text, ())]
    lines = sum(1 + text.strip().count("\n") for text in texts) + sum(bool(line.strip()) for line in signature.split("\n"))
    return [one for one in dict.fromkeys(found) if one], lines


def followed(first, exchanged=(), cases=(), without=()):
    """The declarations on which the first ones rest, in the order of need: each behind those that it rests on; those that they are to be read without are passed over."""
    done, order = set(), []
    for start in first:
        stack = [(start, None)]
        while stack:
            declaration, rest = stack.pop()
            if rest is None:
                if declaration in done or declaration in without:
                    continue
                done.add(declaration)
                rest = iter(needs(declaration, cases, declaration.name in exchanged))
            following = next(rest, None)
            if following is None:
                order.append(declaration)
            else:
                stack += [(declaration, rest), (following, None)]
    return order
