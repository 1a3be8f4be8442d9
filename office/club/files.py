"""Writes that are done whole or not at all, also if the machine stops in the middle.

Each effect on files lies between two points at which a test can stop the office: `KIWIRUDDER_KILL_AT=N` kills it at the
Nth point, and `KIWIRUDDER_FULL_AT=N` finds the disk full there."""

from __future__ import annotations

import errno
import json
import os
import shutil
import signal
from collections.abc import Iterator
from contextlib import contextmanager
from pathlib import Path
from typing import Any

PRIVATE_FILE = 0o600
PRIVATE_FOLDER = 0o700

_points = 0


def reach_point() -> None:
    """A point at which a test can kill the office, or find the disk full."""
    global _points
    _points += 1
    if os.environ.get("KIWIRUDDER_KILL_AT") == str(_points):
        os.kill(os.getpid(), signal.SIGKILL)
    if os.environ.get("KIWIRUDDER_FULL_AT") == str(_points):
        raise OSError(errno.ENOSPC, os.strerror(errno.ENOSPC))


@contextmanager
def effect() -> Iterator[None]:
    """Surrounds an effect by two points."""
    reach_point()
    yield
    reach_point()


def sync_folder(folder: Path) -> None:
    """Names in the folder are on the disk after this."""
    handle = os.open(folder, os.O_RDONLY | os.O_DIRECTORY)
    try:
        os.fsync(handle)
    finally:
        os.close(handle)


def sync_file(path: Path) -> None:
    """The bytes of the file are on the disk after this."""
    handle = os.open(path, os.O_RDONLY)
    try:
        os.fsync(handle)
    finally:
        os.close(handle)


def make_folder(folder: Path) -> None:
    """Makes the folder and those above it, for the moderator's eyes alone. It may be there."""
    folder.mkdir(mode=PRIVATE_FOLDER, parents=True, exist_ok=True)


def write_file(path: Path, data: bytes) -> None:
    """Puts `data` in the place of what the file had. After a failure or a kill the file is as before, or whole."""
    make_folder(path.parent)
    part = path.with_name(f".{path.name}.{os.getpid()}.part")
    with effect():
        try:
            handle = os.open(part, os.O_WRONLY | os.O_CREAT | os.O_TRUNC, PRIVATE_FILE)
            with os.fdopen(handle, "wb") as file:
                file.write(data)
                file.flush()
                os.fsync(file.fileno())
            reach_point()
            os.replace(part, path)
        except BaseException:
            part.unlink(missing_ok=True)
            raise
        sync_folder(path.parent)


def write_json(path: Path, value: Any) -> None:
    write_file(path, (json.dumps(value, indent=1, sort_keys=True, ensure_ascii=True) + "\n").encode())


def read_json(path: Path, default: Any) -> Any:
    """The value of the file, or `default` where there is none."""
    try:
        return json.loads(path.read_bytes())
    except FileNotFoundError:
        return default


def move_file(source: Path, target: Path) -> None:
    """Renames within one file system. A `target` that is there is replaced."""
    make_folder(target.parent)
    with effect():
        os.replace(source, target)
        sync_folder(target.parent)
        if source.parent != target.parent:
            sync_folder(source.parent)


def remove_file(path: Path) -> None:
    """The file may be gone already."""
    with effect():
        path.unlink(missing_ok=True)


def remove_folder(folder: Path) -> None:
    """Removes the folder with all in it. It may be gone already."""
    with effect():
        if folder.exists():
            shutil.rmtree(folder)


def copy_file(source: Path, target: Path) -> None:
    """A whole copy, on the disk, or none."""
    make_folder(target.parent)
    part = target.with_name(f".{target.name}.{os.getpid()}.part")
    with effect():
        try:
            shutil.copyfile(source, part)
            os.chmod(part, PRIVATE_FILE)
            sync_file(part)
            os.replace(part, target)
        except BaseException:
            part.unlink(missing_ok=True)
            raise
        sync_folder(target.parent)


def append_line(path: Path, line: str) -> None:
    """Adds a line, in which control signs are shown as `?`, so that it stays one line."""
    make_folder(path.parent)
    clean = "".join(letter if letter.isprintable() else "?" for letter in line)
    handle = os.open(path, os.O_WRONLY | os.O_CREAT | os.O_APPEND, PRIVATE_FILE)
    with os.fdopen(handle, "wb") as file:
        file.write(clean.encode("utf-8", "replace") + b"\n")


def _is_running(process: str) -> bool:
    return process.isdigit() and Path("/proc", process).exists()


def clear_parts(folder: Path) -> None:
    """Removes what writes that were killed left in the folder. Those of a process that still runs stay."""
    for part in folder.glob(".*.part"):
        if not _is_running(part.name.split(".")[-2]):
            part.unlink(missing_ok=True)


def clear_records(folder: Path) -> None:
    """Removes each record NAME.json beside which there is no message, since a command was killed between the two."""
    for record in folder.glob("*.json"):
        if not any(record.with_suffix(suffix).exists() for suffix in (".eml", ".txt")):
            record.unlink(missing_ok=True)
