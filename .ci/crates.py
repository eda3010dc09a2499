"""Reads the crates: their functions with their clauses, their definitions, and their wrong bodies.

It knows as much of the language as it takes to find a `fn` with its contract, and which of them another crate can call.
"""

import re
from collections import defaultdict
from dataclasses import dataclass, field
from pathlib import Path

TOP = Path(__file__).resolve().parent.parent

OPAQUE = re.compile(r"//[^\n]*|\"(?:\\.|[^\"\\])*\"|'(?:\\.|[^'\\])'")
PROVED = "# Proved"
ITEM = re.compile(r"[{}]|\bghost\b|\bpub(?:\([^)]*\))?\s+use\b|\b(?:impl|trait|mod|fn)\b")
TYPE = re.compile(r"\b(struct|enum|trait|const|type) (\w+)")
CLAUSE = re.compile(r"\s*\b(requires|ensures)\*?\s*(\w*)\s*(?=\{)")
WORD = re.compile(r"(?<![\w.'])[^\W\d][\w']*(?:\.[^\W\d][\w']*)?")
DEFINITION = re.compile(r"^(?:abbrev )?pub (?:record |data )?([^\W\d][\w']*)(?= )|^abbrev pub ([^\W\d][\w']*)", re.M)


@dataclass
class Function:
    crate: str
    path: str  # of its file, below the crate
    module: tuple
    owner: str  # the type or trait that it belongs to, or nothing
    trait: str  # the trait that an impl is of, or nothing
    name: str
    is_open: bool  # whether it is `pub`, or of a trait
    begin: int
    end: int
    clauses: list = field(default_factory=list)
    requires: list = field(default_factory=list)
    cited: dict = field(default_factory=dict)  # the definitions that its clauses cite, with their files
    edits: list = field(default_factory=list)
    line: int = 0  # of its file, at which its comment says what is proved
    proved: list = field(default_factory=list)  # what that says: a list of lines for each point
    names: list = field(default_factory=list)  # under which another crate calls it

    def call(self):
        return self.names[0] if self.names else "::".join([self.owner] * bool(self.owner) + [self.name])


@dataclass
class Crate:
    name: str
    functions: list = field(default_factory=list)
    types: dict = field(default_factory=dict)  # by module and name, the kind and the words inside
    uses: dict = field(default_factory=lambda: defaultdict(list))  # by module, what it makes public
    definitions: dict = field(default_factory=dict)  # by file of specs/, its subject and its words
    edits: dict = field(default_factory=dict)  # by name, the function in which it changes something, or none
    is_program: bool = False


def closing(text, at):
    """The place of the bracket that closes the one at this place."""
    depth = 0
    for bracket in re.compile(r"[{}]").finditer(text, at):
        depth += 1 if bracket.group() == "{" else -1
        if depth == 0:
            return bracket.start()
    raise ValueError("a bracket is not closed")


def behind_signature(text, at):
    """The place where the contract or the body of a function begins."""
    depth = 0
    for mark in re.compile(r"[(\[\])]|[{;]|\b(?:requires|ensures)\b").finditer(text, at):
        word = mark.group()
        if word in "([":
            depth += 1
        elif word in ")]":
            depth -= 1
        elif depth == 0:
            return mark.start()
    raise ValueError("a function has no body")


def bare(name):
    """A type's name without its path and its parameters."""
    return re.sub(r"<.*", "", name.strip(), flags=re.S).split("::")[-1].strip("&( ")


def owner_of(header):
    """The type and the trait of an impl's header."""
    header = header.split(" where ")[0].strip()
    if header.startswith("<"):
        depth = 0
        for i, c in enumerate(header):
            depth += (c == "<") - (c == ">")
            if depth == 0:
                header = header[i + 1 :]
                break
    trait, is_for, kind = header.partition(" for ")
    return (bare(kind), bare(trait)) if is_for else (bare(trait), "")


class Source:
    """One file of src/, read into its crate."""

    def __init__(self, crate, path, module):
        self.crate, self.path, self.module = crate, str(path.relative_to(TOP / "crates" / crate.name)), module
        self.text = path.read_text()
        self.blank = OPAQUE.sub(lambda m: re.sub(r"[^\n]", " ", m.group()), self.text)
        self.imports = imports(self.blank)
        for found in TYPE.finditer(self.blank):
            begin = re.compile(r"[{;=]").search(self.blank, found.end())
            end = closing(self.blank, begin.start()) if begin and begin.group() == "{" else found.end()
            crate.types[(module, found.group(2))] = (found.group(1), set(re.findall(r"\w+", self.blank[found.end() : end])))
        self.items(0, len(self.text), "", "")

    def items(self, at, end, owner, trait):
        while found := ITEM.search(self.blank, at, end):
            word, at = found.group(), found.end()
            if word == "{":
                at = closing(self.blank, found.start()) + 1
            elif word == "ghost":
                at = self.ghost(at)
            elif word.endswith("use"):
                at = self.blank.index(";", at)
                self.crate.uses[self.module].append(self.blank[found.end() : at].strip())
            elif word == "fn":
                at = self.function(found.start(), owner, trait)
            elif word == "mod":
                at = self.submodule(found, at)
            elif word in ("impl", "trait"):
                at = self.block(word, at)

    def ghost(self, at):
        while self.blank[at] != ";":
            at = closing(self.blank, at) + 1 if self.blank[at] == "{" else at + 1
        return at

    def submodule(self, found, at):
        name = re.match(r"\s*(\w+)\s*", self.blank[at:])
        at += name.end()
        if self.blank[: found.start()].endswith("pub "):
            self.crate.uses[self.module].append(name.group(1))
        if self.blank[at] == "{":
            inner = self.module + (name.group(1),)
            end = closing(self.blank, at)
            for used in re.findall(r"\bpub use ([^;]*);", self.blank[at:end]):
                self.crate.uses[inner].append(used)
            return end + 1
        return at

    def block(self, word, at):
        begin = self.blank.index("{", at)
        owner, trait = owner_of(self.blank[at:begin])
        if word == "trait":
            owner = re.match(r"\s*(\w+)", self.blank[at:]).group(1)
            trait = owner
        end = closing(self.blank, begin)
        self.items(begin + 1, end, owner, trait)
        return end + 1

    def function(self, begin, owner, trait):
        named = re.compile(r"fn\s+(\w+)").match(self.blank, begin)
        if not named:
            return begin + 2
        line = self.blank[self.blank.rfind("\n", 0, begin) + 1 : begin]
        is_open = bool(trait) or bool(re.search(r"\bpub\s", line))
        made = Function(self.crate.name, self.path, self.module, owner, trait, named.group(1), is_open, begin, 0)
        at = behind_signature(self.blank, begin)
        while clause := CLAUSE.match(self.blank, at):
            at = closing(self.blank, clause.end()) + 1
            (made.clauses if clause.group(1) == "ensures" else made.requires).append(clause.group(2))
            made.cited |= self.cited(self.blank[clause.end() : at])
        at += len(self.blank[at:]) - len(self.blank[at:].lstrip())
        made.end = (closing(self.blank, at) if self.blank[at] == "{" else at) + 1
        made.line, made.proved = self.proved(begin)
        self.crate.functions.append(made)
        return made.end

    def proved(self, begin):
        """The points under `# Proved` of the comment above a function, and the line of the first."""
        above = self.text[:begin].split("\n")[:-1]
        first = len(above)
        while first and re.match(r"\s*(//|#\[)", above[first - 1]):
            first -= 1
        lines = [re.sub(r"^\s*///? ?", "", line) for line in above[first:]]
        if PROVED not in lines:
            return 0, []
        begins = lines.index(PROVED) + 2
        points = re.split(r"\n(?=- )", "\n".join(line for line in lines[begins:] if not line.startswith("#[")))
        return first + begins + 1, [point.split("\n") for point in points]

    def cited(self, clause):
        found = {}
        for word in WORD.findall(clause):
            first, _, rest = word.partition(".")
            if first in self.imports:
                found.setdefault(*self.imports[first])
            elif first + "." in self.imports and rest:
                found.setdefault(rest, self.imports[first + "."])
        return found


def imports(text):
    """The definitions of this repository that a file brings in: each with its word and its file."""
    found = {}
    for crate, home, rest in re.findall(r"ghost use Rattle\.(ftp_\w+)\.specs\.(\w+)([^;]*);", text):
        if home == "declared":
            continue
        where = f"{crate}/{home}"
        if renamed := re.match(r" as (\w+)", rest):
            found[renamed.group(1) + "."] = where
        for name in re.findall(r"[^\s{},.]+(?: as [^\s{},]+)?", rest.partition("{")[2]):
            word, _, local = name.partition(" as ")
            found[local or word] = (word, where)
    return found


def targets(crate, module, use):
    """The places that a `pub use` in a module makes public, each with its name; through private modules too."""
    for parts, name in unfolded(use):
        base = module
        while parts and parts[0] in ("super", "self", "crate"):
            base = {"super": base[:-1], "self": base, "crate": ()}[parts[0]]
            parts = parts[1:]
        target = base + parts
        yield target, name
        for inner in crate.uses.get(target[:-1], []) if target[:-1] != module else []:
            yield from ((t, name) for t, n in targets(crate, target[:-1], inner) if n == target[-1])


def unfolded(use):
    """The paths that a `pub use` names, each with its own name."""
    head, opened, names = use.partition("{")
    for name in [head] if not opened else [head + name.strip() for name in names.rstrip("} ").split(",") if name.strip()]:
        path, _, alias = name.partition(" as ")
        parts = tuple(part.strip() for part in path.split("::"))
        yield parts, alias.strip() or parts[-1]


def name_public(crate):
    """Gives each function the names under which another crate calls it; of a program, each `pub` one its own."""
    modules, items = {(): ()}, defaultdict(set)
    homes = {f.module for f in crate.functions} | set(crate.uses) | {m for m, _ in crate.types}
    todo = [()]
    while todo:
        module = todo.pop()
        shown = modules[module]
        for use in crate.uses.get(module, []):
            for target, name in targets(crate, module, use):
                if target in homes and target not in modules:
                    modules[target] = shown + (name,)
                    todo.append(target)
                items[target].add("::".join(shown + (name,)))
    if crate.is_program:
        modules = {module: () for module in homes}
    for f in crate.functions:
        if not f.is_open:
            continue
        module = next((m for m, name in crate.types if name == f.owner), f.module)
        last = f.owner or f.name
        shown = set(items[module + (last,)])
        if module in modules:
            shown.add("::".join(modules[module] + (last,)))
        f.names = sorted(name + (f"::{f.name}" if f.owner else "") for name in shown)


def read_edits(crate):
    for path in sorted((TOP / "crates" / crate.name / "must-fail").glob("*.edit")):
        lines = path.read_text().splitlines()
        home = next(line[6:].strip() for line in lines if line.startswith("file: "))
        text = (TOP / "crates" / crate.name / home).read_text()
        places = [text.find(line[5:]) for line in lines if line.startswith("old: ")]
        around = [f for f in crate.functions if f.path == home and any(f.begin <= p < f.end for p in places)]
        crate.edits[path.stem] = around[0] if around else None
        for f in around:
            f.edits.append(path.stem)


def read_definitions(crate):
    for path in sorted((TOP / "crates" / crate.name / "specs").glob("*.antt")):
        text = path.read_text()
        words = [a or b for a, b in DEFINITION.findall(text) if (a or b) != "mod"]
        if words:
            subject = text.splitlines()[0]
            crate.definitions[path.stem] = (subject.removeprefix("-- ") if subject.startswith("-- ") else "", words)


def read_crate(name):
    crate, home = Crate(name), TOP / "crates" / name / "src"
    crate.is_program = (home / "main.rt").is_file()
    for path in sorted(home.rglob("*.rt")):
        parts = path.relative_to(home).with_suffix("").parts
        if "tests" not in parts:
            Source(crate, path, () if parts in (("lib",), ("main",)) else parts)
    name_public(crate)
    read_edits(crate)
    read_definitions(crate)
    return crate


def read_crates():
    """All crates, in the order of crates.txt."""
    lines = (line.split("#")[0].strip() for line in (TOP / "crates.txt").read_text().splitlines())
    return [read_crate(line.partition(":")[0].split()[0]) for line in lines if line]
