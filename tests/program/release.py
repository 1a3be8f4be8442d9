#!/usr/bin/env python3
"""Compares release/ with what it was made from, and prints what differs. Called as
  tests/program/release.py            for the checksums of the sources, the pack and the program, and release/README.md
  tests/program/release.py PROGRAM    also for the bytes of a program that was built from the sources as they are, and the kit
It ends with 'release: as recorded'."""
import importlib.machinery
import importlib.util
import lzma
import sys
from collections.abc import Iterator
from pathlib import Path
from types import ModuleType

sys.dont_write_bytecode = True

TOP = Path(__file__).resolve().parents[2]
REMEDY = "call tools/release once the program is built"


def load_tool() -> ModuleType:
    """tools/release as a module."""
    loader = importlib.machinery.SourceFileLoader("release_tool", str(TOP / "tools" / "release"))
    spec = importlib.util.spec_from_loader("release_tool", loader)
    assert spec
    module = importlib.util.module_from_spec(spec)
    sys.modules["release_tool"] = module
    loader.exec_module(module)
    return module


TOOL = load_tool()


def different_names(one: list[str], other: list[str]) -> list[str]:
    """The files whose lines are in one of two lists of checksums alone."""
    return sorted({line.partition("  ")[2] for line in {*one} ^ {*other}})


def faults_of_sources(recorded: list[str]) -> Iterator[str]:
    today = [str(source).rstrip("\n") for source in TOOL.sources(TOP)]
    if recorded != today:
        names = different_names(recorded, today) or ["the order of the lines"]
        yield f"the sources are not those of the release: {', '.join(names)}. If they are as you want them, {REMEDY}"


def unpacked(pack: bytes) -> bytes | None:
    try:
        return lzma.decompress(pack, format=lzma.FORMAT_XZ)
    except (lzma.LZMAError, EOFError):
        return None


def first_difference(one: bytes, other: bytes) -> str:
    at = next((at for at, (left, right) in enumerate(zip(one, other)) if left != right), min(len(one), len(other)))
    return f"they differ first at byte {at + 1}, and have {len(one)} and {len(other)} bytes"


def faults_of_program(pack: bytes, line: str, built: Path | None) -> Iterator[str]:
    program = unpacked(pack)
    if program is None:
        yield f"{TOOL.PACK} can't be unpacked: {REMEDY}"
        return
    if line != str(TOOL.Sum(TOOL.checksum(program), TOOL.PROGRAM)).rstrip("\n"):
        yield f"{TOOL.PACK} holds another program than {TOOL.SUMS} says: {REMEDY}"
    if built and not built.is_file():
        yield f"{built} isn't there"
    elif built and built.read_bytes() != program:
        how = first_difference(program, built.read_bytes())
        yield f"the release isn't the program that was built, {built}: {how}. {REMEDY.capitalize()}"


def faults_of_kit(line: str) -> Iterator[str]:
    today = f"# {TOOL.kit_version()}"
    if line != today:
        yield f"the release was built with another kit, {line[2:]}, and this is {today[2:]}: {REMEDY}"


def faults(built: Path | None) -> Iterator[str]:
    lines = (TOP / TOOL.SUMS).read_text(encoding="utf-8").splitlines()
    if len(lines) < 4:
        yield f"{TOOL.SUMS} isn't whole: {REMEDY}"
        return
    pack = (TOP / TOOL.PACK).read_bytes()
    if lines[1] != str(TOOL.Sum(TOOL.checksum(pack), TOOL.PACK)).rstrip("\n"):
        yield f"{TOOL.PACK} isn't the pack that {TOOL.SUMS} names: {REMEDY}"
    yield from faults_of_program(pack, lines[2], built)
    yield from faults_of_sources(lines[3:])
    if built:
        yield from faults_of_kit(lines[0])
    if (TOP / TOOL.README).read_text(encoding="utf-8") != TOOL.README_TEXT:
        yield f"{TOOL.README} isn't what tools/release writes: {REMEDY}"


def main() -> None:
    if len(sys.argv) > 2 or sys.argv[1:] and sys.argv[1].startswith("-"):
        sys.exit(__doc__)
    built = Path(sys.argv[1]) if sys.argv[1:] else None
    try:
        found = [*faults(built)]
    except (OSError, UnicodeDecodeError, TOOL.ReleaseError) as error:
        found = [f"{error}"]
    for fault in found:
        print(f"release: {fault}")
    if not built:
        print("release: no program was built here to compare with, so only checksums were compared")
    if not found:
        print("release: as recorded")
    sys.exit(bool(found))


if __name__ == "__main__":
    main()
