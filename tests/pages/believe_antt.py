"""Reads files of definitions (crates/*/specs/*.antt): what they define, and which names each definition uses.

A file is read as it is laid out: a definition begins at a line with `abbrev`, `unfoldable` or `pub`, with the comment
right above it, and ends before the next one. Names that a definition binds itself (parameters, patterns, fields) are told
from those that it uses."""

from __future__ import annotations

import re
from collections.abc import Callable, Collection, Iterable, Iterator
from dataclasses import dataclass, field

TOKEN = re.compile(r'--(?=\s|$).*|"(?:[^"\\]|\\.)*"|\[\]|[(){}\[\],;]|[^\s(){}\[\],;"]+')
BEGINS = re.compile(r"^ *(abbrev|unfoldable|pub record|pub data)(?: pub)? (\S+)")
USE = re.compile(r"^use (\S+?)(?:\.\{(.*)\}| as (\S+))?$")
BUILT_IN = set("Type record let in tt Unit absurd × λ → ← = : ⊥ ¬ . _ where |".split())
OPENS, CLOSES = ("(", "{", "["), (")", "}", "]")

# Each name of a scope with the module that it comes from, and its name there; no name there is a module under another.
Imports = dict[str, tuple[str, str | None]]
IsConstructor = Callable[[str], bool]
# The lines of the `module _` that a definition is in, with their numbers.
Around = list[tuple[int, str]]


@dataclass(eq=False)
class Definition:
    """`kind` is the word that begins it."""

    module: Module
    name: str
    kind: str
    line: int
    around: Around
    comment: list[str]
    body: list[str]
    constructors: list[str] = field(default_factory=list)

    def lines(self) -> list[str]:
        return self.comment + self.body


@dataclass
class Module:
    """A file: its first line, its definitions, also by each name that they define, what it imports, and the modules that
    it has under another name."""

    path: str
    name: str
    first: str = ""
    definitions: list[Definition] = field(default_factory=list)
    words: dict[str, Definition] = field(default_factory=dict)
    imports: Imports = field(default_factory=dict)
    aliases: dict[str, str] = field(default_factory=dict)
    operators: dict[str, str] = field(default_factory=dict)

    def is_for_proofs(self) -> bool:
        return bool(re.search(r"\b[Ff]or (the )?proofs (alone|and for private functions)", self.first))


# ---- the lines of a file


def indent(line: str) -> int:
    return len(line) - len(line.lstrip(" "))


def imported(text: str) -> Iterator[tuple[str, str]]:
    """The names of a list of imports, each with the name that it has in its own module."""
    for part in filter(None, (part.strip() for part in text.split(","))):
        whole, _, other = part.partition(" as ")
        yield other or whole, whole


def add_use(module: Module, line: str) -> None:
    found = USE.match(line)
    assert found, line
    path, names, alias = found.groups()
    if names is None:
        module.aliases[alias or path.split(".")[-1]] = path
    else:
        module.imports.update((word, (path, whole)) for word, whole in imported(names))


def read_module(path: str, name: str) -> Module:
    module = Module(path, name)
    with open(path, encoding="utf-8") as file:
        lines = file.read().split("\n")
    module.first = lines[0]
    add_lines(module, lines)
    for definition in module.definitions:
        module.words[definition.name] = definition
        definition.constructors = constructors_of(definition)
        module.words.update((word, definition) for word in definition.constructors)
    module.operators = operators_of([*module.imports, *module.words])
    return module


def operators_of(names: Iterable[str]) -> dict[str, str]:
    """The operators among some names: each of their words with the name, as `+` with `◌+◌`."""
    return {word: name for name in names if "◌" in name for word in name.split("◌") if word}


def add_lines(module: Module, lines: list[str]) -> None:
    """Gives each line to the definition that it is a part of."""
    around: Around = []
    comment: list[str] = []
    now: Definition | None = None
    for number, line in enumerate(lines, 1):
        begins = BEGINS.match(line)
        if line.strip():
            around = [head for head in around if indent(head[1]) < indent(line)]
        if line.startswith(("use ", "pub use ")):
            add_use(module, line.removeprefix("pub "))
        elif line.lstrip().startswith("module _"):
            around, now = [*around, (number, line)], None
        elif begins:
            now = Definition(module, begins[2], begins[1].split()[-1], number, list(around), comment, [line])
            module.definitions.append(now)
        elif now and line.strip() and not is_above(line):
            now.body += [*comment, line]
        comment = [*comment, line] if is_above(line) else []


def is_above(line: str) -> bool:
    """Whether a line stands above what it is about: a comment, or how an operator groups."""
    return line.lstrip().startswith(("--", "infix"))


# ---- the parts of a definition


def tokens_of(lines: Iterable[str]) -> list[str]:
    return [word for line in lines for word in TOKEN.findall(line) if not word.startswith("--")]


def parts_of(definition: Definition) -> list[list[str]]:
    """Lists of lines: the signature, and then each clause, field or constructor."""
    has_head = definition.kind in ("record", "data")
    base = indent(definition.body[0]) + (2 if has_head else 0)
    parts = [[definition.body[0]]]
    for line in definition.body[1:]:
        in_head = has_head and len(parts) == 1 and not any(text.endswith("where") for text in parts[0])
        begins = indent(line) == base and not in_head and not line.lstrip().startswith(("}", ")", "--"))
        parts += [[line]] if begins else []
        parts[-1] += [] if begins else [line]
    return parts


def constructors_of(definition: Definition) -> list[str]:
    return [tokens_of(part)[0] for part in parts_of(definition)[1:]] if definition.kind == "data" else []


# ---- the names that a definition uses


class Reader:
    """Goes over tokens, and keeps the names that are bound where it is: a list of sets, one for each open bracket."""

    def __init__(self, is_constructor: IsConstructor, bound: Collection[str]) -> None:
        self.is_constructor = is_constructor
        self.scopes: list[set[str]] = [set(bound)]
        self.used: set[str] = set()
        # What each open bracket binds once it is closed, and the names of the `let`s that are open.
        self.opened: list[list[str]] = []
        self.lets: list[str] = []

    def use(self, token: str) -> None:
        head = token.split(".")[0]
        is_name = head and token not in BUILT_IN and not head[0].isdigit() and head[0] != '"'
        if is_name and not any(head in scope for scope in self.scopes):
            self.used.add(token)

    def read(self, tokens: list[str]) -> None:
        """Reads a term, a type or a telescope."""
        at = 0
        while at < len(tokens):
            at = self.step(tokens, at)

    def step(self, tokens: list[str], at: int) -> int:
        """Reads what is at this place, and gives the next place."""
        token = tokens[at]
        if token in OPENS:
            return self.open(binder(tokens, at), at)
        if token in CLOSES:
            self.close()
        elif token in (",", ";"):
            self.forget()
        elif token == "λ":
            return self.lambda_names(tokens, at + 1)
        elif token == "let":
            self.lets.append(tokens[at + 1])
            return at + 2
        elif token == "in":
            self.scopes[-1].add(self.lets.pop())
        elif tokens[at + 1 : at + 2] == ["←"]:
            self.scopes[-1].add(token)
        elif not is_label(tokens, at):
            self.use(">>=" if token == "do" else token)
        return at + 1

    def open(self, names: list[str], at: int) -> int:
        """A bracket is opened, which binds these names for what comes after it."""
        self.opened.append(names)
        self.scopes.append(set())
        return at + (len(names) + 2 if names else 1)

    def close(self) -> None:
        self.scopes.pop()
        self.scopes[-1].update(self.opened.pop())

    def forget(self) -> None:
        """The next part inside of a bracket: what the part before bound is bound no more."""
        if len(self.scopes) > 1:
            self.scopes[-1] = set()

    def lambda_names(self, tokens: list[str], at: int) -> int:
        """The names between a λ and its point. With types they are in a bracket, which is read as others are."""
        while tokens[at] != "(":
            self.scopes[-1].add(tokens[at].rstrip("."))
            at += 1
            if tokens[at - 1].endswith("."):
                break
        return at

    def pattern(self, tokens: list[str], name: str) -> None:
        """The left side of a clause of this name: its constructors are used, and its other names are bound."""
        for at, token in enumerate(tokens):
            if self.is_constructor(token):
                self.use(token)
            elif token not in {*BUILT_IN, *"(){},;", name, *name.split("◌")} and tokens[at + 1 : at + 2] != ["="]:
                self.scopes[-1].add(token)

    def clause(self, tokens: list[str], name: str) -> None:
        """A clause of a definition of this name, or a line that is none."""
        end = clause_end(tokens)
        if end is not None:
            self.pattern(tokens[:end], name)
        self.read(tokens if end is None else tokens[end + 1 :])


def binder(tokens: list[str], at: int) -> list[str]:
    """The names that the bracket at this place binds, as in `(a b : T)`."""
    names: list[str] = []
    at += 1
    while at < len(tokens) and tokens[at] not in "(){}[],;:=" and "." not in tokens[at]:
        names.append(tokens[at])
        at += 1
    return names if names and tokens[at] == ":" else []


def is_label(tokens: list[str], at: int) -> bool:
    """Whether a word is the label of a field or of an argument, which is none of the names that are used."""
    return at > 0 and tokens[at - 1] in ("{", ";") and tokens[at + 1 : at + 2] == ["="]


def clause_end(tokens: list[str]) -> int | None:
    """Where the `=` of a clause is."""
    depth = 0
    for at, token in enumerate(tokens):
        depth += (token in OPENS) - (token in CLOSES)
        if token == "=" and not depth:
            return at
    return None


def names_used(definition: Definition, is_constructor: IsConstructor) -> set[str]:
    """All names that a definition uses and doesn't bind itself, as they are written there."""
    parts = [tokens_of(part) for part in parts_of(definition)]
    around = Reader(is_constructor, ())
    for _, line in definition.around:
        around.read(tokens_of([line])[2:])
    head = Reader(is_constructor, around.scopes[0])
    head.read(parts[0][parts[0].index(definition.name) + 1 :])
    if definition.kind in ("record", "data"):
        used = names_of_members(definition, parts[1:], is_constructor, head.scopes[0])
    else:
        used = names_of_clauses(definition, parts[1:], is_constructor, around.scopes[0])
    return (around.used | head.used | used) - {definition.name}


def names_of_members(definition: Definition, parts: list[list[str]], is_constructor: IsConstructor,
                     around: set[str]) -> set[str]:
    """What the fields or the constructors use. A field is bound in those after it."""
    used: set[str] = set()
    bound = set(around)
    for tokens in parts:
        tokens = tokens[1:] if tokens[0] == "pub" else tokens
        reader = Reader(is_constructor, bound)
        reader.read(tokens[1:])
        used |= reader.used
        bound |= {tokens[0]} if definition.kind == "record" else set()
    return used


def names_of_clauses(definition: Definition, parts: list[list[str]], is_constructor: IsConstructor,
                     bound: set[str]) -> set[str]:
    used: set[str] = set()
    for tokens in parts:
        reader = Reader(is_constructor, bound)
        reader.clause(tokens, definition.name)
        used |= reader.used
    return used
