#!/usr/bin/env python3
"""Prints what a reader must believe of the headline, in one go: the clauses `headline` and `balances` of `run_all`
(crates/atl_commands/src/service.rt), and each definition of crates/*/specs that they rest on, once and with its place.
The definitions come in the order of the sections of docs/RULES.md, and then those that no section names, crate by
crate. The types of the code that they speak of follow.

tests/pages/believe.py            prints all of it, then the names of the kit that it uses, and last how much it is
tests/pages/believe.py --count    prints how much it is
tests/pages/believe.py --check    sees that each name has its definition, that nothing for proofs alone is reached, and
                                  that docs/PROVED.md gives the counts of --count and names definitions that are there

It follows names and not files, so a definition that nothing cites isn't printed. The definitions of the kit are listed by
name alone."""
import glob
import itertools
import os
import re
import signal
import sys
from collections.abc import Collection, Iterator, Sequence
from pathlib import Path

sys.dont_write_bytecode = True
TOP = Path(__file__).resolve().parents[2]
sys.path.insert(0, str(TOP))

from tests.pages import believe_antt as antt, believe_code as code  # noqa: E402
from tests.pages.rules_index import rows  # noqa: E402

SERVICE = "crates/atl_commands/src/service.rt"
CALL, CLAUSES = "run_all", ("headline", "balances")
# the page that gives the counts
PAGE = "docs/PROVED.md"
# What the kit has for patterns. Any other name of the kit that a pattern has is bound there.
KIT_CONSTRUCTORS = set("true false zero suc pos negsuc None Some Ok Err [] ∷ no_items item no_members member".split())


class Everything:
    """The modules of definitions, and what was reached so far: definitions with their places, types of the code, and names
    of the kit by their modules."""

    def __init__(self) -> None:
        self.crates = [line.split(":")[0].split()[0] for line in code.read_lines("crates.txt") if line and line[0] != "#"]
        self.modules: dict[str, antt.Module] = {}
        self.definitions: dict[antt.Definition, str] = {}
        self.types: dict[tuple[str, ...], code.Type] = {}
        self.kit: dict[str, set[str]] = {}
        self.missing: list[str] = []
        for path in sorted(glob.glob("crates/*/specs/*.antt")):
            name = f"Rattle.{path.split('/')[1]}.specs.{os.path.basename(path)[:-5]}"
            self.modules[name] = antt.read_module(path, name)

    # ---- names

    def find(self, scope: antt.Module, token: str) -> tuple[str, str] | None:
        """What a name of a module is: the path of a module and a name there, or None."""
        head, _, rest = token.partition(".")
        head = scope.operators.get(token, head)
        if head in scope.words:
            return scope.name, head
        if head in scope.imports:
            path, name = scope.imports[head]
            return (path, name) if name else (path, rest.split(".")[0])
        if head in scope.aliases:
            return scope.aliases[head], rest.split(".")[0]
        return ("Prim", token) if head == "Prim" else None

    def is_constructor(self, scope: antt.Module, token: str) -> bool:
        found = self.find(scope, token)
        if found is None:
            return False
        path, name = found
        if path in self.modules:
            word = self.modules[path].words.get(name)
            return bool(word and word.kind == "data" and name in word.constructors)
        return "TheVariants" in path or name in KIT_CONSTRUCTORS or token in KIT_CONSTRUCTORS

    def reach(self, scope: antt.Module, token: str, by: str) -> None:
        """Goes to what a name of a module is. `by` says who uses it."""
        found = self.find(scope, token)
        if found is None:
            self.missing.append(f"{by}: what is {token}?")
        else:
            self.reach_path(*found, by)

    def reach_path(self, path: str, name: str, by: str) -> None:
        crate, parts = path.split(".")[1:2], path.split(".")[3:]
        if not crate or crate[0] not in self.crates:
            self.kit.setdefault(path, set()).add(name)
        elif parts[0] in ("declared", "contracts"):
            *modules, kind = [part for part in parts[1:] if part != "TheVariants"]
            self.reach_type(crate[0], modules, kind, by)
            self.see_variant(self.types.get((crate[0], *modules, kind)), name, "TheVariants" in path, by)
        elif path in self.modules and name in self.modules[path].words:
            self.reach_definition(self.modules[path].words[name])
        elif path in self.modules and name in self.modules[path].imports:
            self.reach(self.modules[path], name, by)
        else:
            self.missing.append(f"{by}: {path} has no {name}")

    def reach_definition(self, definition: antt.Definition) -> None:
        if definition in self.definitions:
            return
        module, place = definition.module, f"{definition.module.path}:{definition.line} {definition.name}"
        self.definitions[definition] = place
        for token in sorted(antt.names_used(definition, lambda token: self.is_constructor(module, token))):
            self.reach(module, token, place)

    def reach_type(self, crate: str, modules: Sequence[str] | None, name: str, by: str) -> None:
        key = (crate, *(modules or ()), name)
        if key in self.types:
            return
        found = code.read_type(crate, modules, name) if modules else None
        if not found:
            self.missing.append(f"{by}: crate {crate} declares no {name}")
            return
        self.types[key] = found
        place = f"{found.path}:{found.line} {name}"
        for other in found.types:
            self.reach_named_type(found.path, other, place)
        self.reach_text(found.value, found.imports, {"S", "T", "V"}, place)

    def see_variant(self, found: code.Type | None, name: str, is_variant: bool, by: str) -> None:
        """Sees that a type that was found has a variant of this name."""
        if found and is_variant and not re.search(rf"^    {name}\b", "\n".join(found.text), re.M):
            self.missing.append(f"{by}: {found.path}:{found.line} {found.name} has no {name}")

    def reach_named_type(self, path: str, name: str, by: str) -> None:
        """The type that a field in a file of the code has."""
        where = code.find_type(path, name, self.crates)
        if where is None:
            self.missing.append(f"{by}: what is {name}?")
        elif where[0] in self.crates:
            self.reach_type(where[0], where[1], name, by)
        else:
            self.kit.setdefault(where[0], set()).add(name)

    def reach_text(self, text: str, imports: antt.Imports, bound: Collection[str], by: str) -> None:
        """The names of a clause, or of what a type is seen as."""
        scope = antt.Module(by, by, imports=imports, operators=antt.operators_of(imports))
        reader = antt.Reader(lambda token: False, bound)
        reader.read(antt.tokens_of([text]))
        for token in sorted(reader.used):
            self.reach(scope, token, by)


# ---- where it begins


class Contract:
    """The contract of the call: its text and place, what its clauses say, what they may name, and the types that it takes
    and gives."""

    def __init__(self) -> None:
        lines = code.read_lines(SERVICE)
        at = next(at for at, line in enumerate(lines) if re.match(rf"\s*pub fn {CALL}\b", line))
        end = next(end for end in range(at, len(lines)) if lines[end].strip() == "{")
        inside = max(begin for begin in range(at) if lines[begin].startswith("impl"))
        head = list(itertools.takewhile(lambda line: not re.match(r"\s*(requires|ensures)\b", line), lines[at:end]))
        self.place = f"{SERVICE}:{at + 1} {CALL}"
        self.imports = code.ghost_uses([line for line in lines if line.startswith("ghost")] + lines[inside:at])
        self.clauses = {clause: clause_of(lines[at:end], clause) for clause in CLAUSES}
        self.types = [*re.findall(r"^impl(?:<.*?>)? (\w+)", lines[inside]), *re.findall(r"\b[A-Z]\w+", " ".join(head))]
        clauses = (f"        ensures {clause} {{{text}}}" for clause, text in self.clauses.items())
        self.text = [*code.docs_above(lines, at), *head, *clauses]


def clause_of(lines: list[str], name: str) -> str:
    """What a clause says: the text between its brackets."""
    rest = "\n".join(lines).partition(f"ensures {name} {{")[2]
    depth = 1
    for at, letter in enumerate(rest):
        depth += (letter == "{") - (letter == "}")
        if not depth:
            return rest[:at]
    sys.exit(f"believe: {CALL} in {SERVICE} has no clause {name}")


def read_all() -> tuple[Everything, Contract]:
    """All that is reached from the contract."""
    all_of, contract = Everything(), Contract()
    for clause, text in contract.clauses.items():
        all_of.reach_text(text, contract.imports, {"self", "commands", "result", "S"}, f"{contract.place}, clause {clause}")
    for name in contract.types:
        all_of.reach_named_type(SERVICE, name, contract.place)
    return all_of, contract


# ---- in which order it is printed


def titles_by_path(all_of: Everything) -> tuple[dict[str, str], list[str]]:
    """The title under which each file of definitions is printed, and the titles in their order."""
    titles: dict[str, str] = {}
    order: list[str] = []
    for row in rows():
        order.append(row.title)
        for file in row.definitions:
            titles.setdefault(file.path, row.title)
    beside = {crate: f"Other definitions of {crate}" for crate in all_of.crates}
    for module in all_of.modules.values():
        titles.setdefault(module.path, beside[module.path.split("/")[1]])
    return titles, order + [*beside.values()]


def in_order(all_of: Everything) -> list[tuple[str, list[antt.Definition]]]:
    """Each title with its definitions."""
    titles, order = titles_by_path(all_of)
    files = {path: place for place, path in enumerate(titles)}
    under: dict[str, list[antt.Definition]] = {}
    for definition in sorted(all_of.definitions, key=lambda d: (files[d.module.path], d.line)):
        under.setdefault(titles[definition.module.path], []).append(definition)
    return [(title, under[title]) for title in order if title in under]


def printed_definition(definition: antt.Definition, before: antt.Definition | None) -> list[str]:
    """A definition with its place above it, and with the heads of the modules that it is in, where the one before it isn't
    in the same."""
    is_in_same = before and before.module is definition.module and before.around == definition.around
    heads = [] if is_in_same else [line for _, line in definition.around]
    return [f"{definition.module.path}:{definition.line}", *heads, *definition.lines()]


def print_all(all_of: Everything, contract: Contract) -> None:
    print(f"==== The contract\n\n{contract.place.split(' ')[0]}", *contract.text, sep="\n")
    for title, definitions in in_order(all_of):
        print(f"\n==== {title}")
        for before, definition in zip([None, *definitions], definitions):
            print("", *printed_definition(definition, before), sep="\n")
    print("\n==== Types of the code")
    by_crate = sorted(all_of.types.values(), key=lambda kind: (all_of.crates.index(kind.path.split("/")[1]), kind.path, kind.line))
    for kind in by_crate:
        print("", f"{kind.path}:{kind.line}", *kind.text, sep="\n")
    print("\n==== Trusted: names of the kit\n")
    for path, names in sorted(all_of.kit.items()):
        print(f"{path}: {', '.join(sorted(names))}")


# ---- how much it is


def counts_of(all_of: Everything) -> dict[str, int]:
    """Files, definitions and lines of definitions, types and their lines, and names of the kit."""
    definitions, types = [*all_of.definitions], [*all_of.types.values()]
    return {
        "files": len({definition.module.path for definition in definitions}),
        "definitions": len(definitions),
        "lines": sum(len(definition.lines()) for definition in definitions),
        "types": len(types),
        "type_lines": sum(len(kind.text) for kind in types),
        "kit": sum(map(len, all_of.kit.values())),
    }


def counted(all_of: Everything) -> str:
    form = ("{definitions:,} definitions of {files:,} files, {lines:,} lines; {types:,} types of the code, {type_lines:,} lines; "
            "{kit:,} names of the kit")
    return form.format(**counts_of(all_of))


# ---- the check


def faults_of(all_of: Everything) -> Iterator[str]:
    yield from all_of.missing
    for definition, place in all_of.definitions.items():
        if definition.module.is_for_proofs():
            yield f"{place} is reached, and its file is for proofs alone"
    text = "\n".join(code.read_lines(PAGE))
    if counted(all_of) not in " ".join(text.split()):
        yield f"{PAGE} doesn't say: {counted(all_of)}"
    for crate, name, words in re.findall(r"\| (\w+)/specs/(\w+)\.antt \| (.*?) \|", text):
        module = all_of.modules.get(f"Rattle.{crate}.specs.{name}")
        for word in re.findall(r"`(\w+)`", words):
            if not module or word not in module.words:
                yield f"{PAGE} names {word} of {crate}/specs/{name}.antt, which isn't there"


def main() -> None:
    os.chdir(TOP)
    if sys.argv[1:] not in ([], ["--count"], ["--check"]):
        sys.exit(__doc__)
    all_of, contract = read_all()
    if sys.argv[1:] == ["--check"]:
        faults = [*faults_of(all_of)]
        print(*faults, sep="\n", end="\n" if faults else "")
        print(f"believe: {len(faults)} faults" if faults else f"believe: as {PAGE} says")
        sys.exit(bool(faults))
    if not sys.argv[1:]:
        signal.signal(signal.SIGPIPE, signal.SIG_DFL)
        print_all(all_of, contract)
        print()
    print(counted(all_of))


if __name__ == "__main__":
    main()
