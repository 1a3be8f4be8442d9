"""Reads the types that definitions speak of and that stand in the code (crates/*/src): their fields or variants, with the
comments there; or, of a type that contracts see as another value (`impl Model`), what it is seen as, since its private
fields say nothing to a contract. Functions are left out."""
import glob
import os
import re
from collections.abc import Collection, Iterable, Sequence
from dataclasses import dataclass, field

from tests.pages.believe_antt import Imports

DECLARED = re.compile(r"^(?:pub(?:\(\w+\))? )?(?:struct|enum|trait) (\w+)")
MODEL = re.compile(r"^impl(?:<.*?>)? Model for (\w+)")
USE = re.compile(r"^(?:pub )?use (.*?);", re.M | re.S)
OF_STD = set("Vec String Option Result Box".split())


@dataclass
class Type:
    """A type: where it is declared, its text, the types that this names, and what it is seen as, with the names that are
    brought in for that."""

    path: str
    name: str
    line: int
    text: list[str]
    types: list[str] = field(default_factory=list)
    value: str = ""
    imports: Imports = field(default_factory=dict)


def read_lines(path: str) -> list[str]:
    with open(path, encoding="utf-8") as file:
        return file.read().split("\n")


def path_of(crate: str, modules: Iterable[str]) -> str:
    return os.path.join("crates", crate, "src", *modules) + ".rt"


def modules_of(crate: str, path: str) -> list[str]:
    return os.path.relpath(path, f"crates/{crate}/src")[: -len(".rt")].split("/")


def declares(path: str, name: str) -> bool:
    return any(found and found[1] == name for found in map(DECLARED.match, read_lines(path)))


# ---- the text of a type


def block(lines: list[str], start: int) -> list[str]:
    """The lines from this one to where its brackets are closed, or to its semicolon."""
    depth = 0
    for at in range(start, len(lines)):
        plain = re.sub(r"//.*", "", lines[at])
        depth += sum(plain.count(x) for x in "({") - sum(plain.count(x) for x in ")}")
        if depth == 0 and re.search(r"[;}]\s*$", plain):
            return lines[start : at + 1]
    return lines[start:]


def docs_above(lines: list[str], at: int) -> list[str]:
    """The comment above a declaration, without its attributes."""
    begin = at
    while begin and re.match(r"\s*(///|#\[)", lines[begin - 1]):
        begin -= 1
    return [line for line in lines[begin:at] if line.lstrip().startswith("///")]


def read_type(crate: str, modules: Iterable[str], name: str) -> Type | None:
    """A type by its crate, its module and its name, or None where it isn't there."""
    path = path_of(crate, modules)
    lines = read_lines(path) if os.path.exists(path) else []
    for at, line in enumerate(lines):
        declared = DECLARED.match(line)
        if declared and declared[1] == name:
            found = Type(path, name, at + 1, [*docs_above(lines, at), *block(lines, at)])
            see_model(found, lines)
            found.types = [] if found.value else types_named(block(lines, at), name)
            return found
    return None


def see_model(found: Type, lines: list[str]) -> None:
    """Where a type has a model, that is what is read of it."""
    for at, line in enumerate(lines):
        model = MODEL.match(line)
        if model and model[1] == found.name:
            inside = block(lines, at)
            start = next(place for place, text in enumerate(inside) if "ghost Value" in text)
            value = block(inside, start)
            found.imports = ghost_uses([*(text for text in lines if text.startswith("ghost")), *inside])
            found.value = " ".join(value).partition("{")[2].rpartition("}")[0]
            found.text = [*docs_above(lines, found.line - 1), line, *value, "}"]
            found.line = at + 1


def types_named(lines: list[str], name: str) -> list[str]:
    """The types that the fields of a declaration have."""
    head, _, body = re.sub(r"//.*|\"[^\"]*\"", "", "\n".join(lines)).partition("{")
    if re.search(rf"\benum {name}\b", head):
        body = re.sub(r"^    [A-Z]\w*", "", body, flags=re.M)
    parameters = set(re.findall(r"[<,]\s*'?(\w+)", head))
    return [word for word in re.findall(r"\b[A-Z]\w*", body or head) if word not in parameters | {name}]


# ---- where names come from


def ghost_uses(lines: Iterable[str]) -> Imports:
    """What `ghost use` brings in: each name with its module and its name there, or a module under another name."""
    found: Imports = {}
    for line in lines:
        if names := re.match(r"\s*ghost use (\S+?)\.\{(.*)\};", line):
            for part in names[2].split(","):
                whole, _, other = part.strip().partition(" as ")
                found[other or whole] = (names[1], whole)
        if alias := re.match(r"\s*ghost use (\S+) as (\S+);", line):
            found[alias[2]] = (alias[1], None)
    return found


def uses_of(path: str) -> dict[str, tuple[str, str]]:
    """Where a file has its types from: each name with the words that bring it in, and its name there."""
    found: dict[str, tuple[str, str]] = {}
    for text in USE.findall("\n".join(read_lines(path))):
        head, _, names = text.partition("::{") if "::{" in text else text.rpartition("::")
        for part in names.rstrip("}").split(","):
            whole, _, other = part.strip().partition(" as ")
            found[other or whole] = (head, whole)
    return found


def find_type(path: str, name: str, crates: Collection[str]) -> tuple[str, Sequence[str] | None] | None:
    """Where the type is that a file names: its crate and its module; or the words of the kit that bring it in, and nothing;
    or None. A crate may export a type of another crate."""
    crate = path.split("/")[1]
    if declares(path, name):
        return crate, modules_of(crate, path)
    if name not in uses_of(path):
        return ("std", None) if name in OF_STD else None
    head, whole = uses_of(path)[name]
    where = head.split("::")[0].replace("crate", crate)
    if where not in crates:
        return head, None
    library = path_of(where, ["lib"])
    if os.path.exists(library) and uses_of(library).get(whole, ("", ""))[0] in crates:
        return find_type(library, whole, crates)
    return where, declaring(where, whole)


def declaring(crate: str, name: str) -> list[str] | None:
    """The module of a crate that declares a type for others, or None."""
    for path in sorted(glob.glob(f"crates/{crate}/src/**/*.rt", recursive=True)):
        if declares(path, name):
            return modules_of(crate, path)
    return None
