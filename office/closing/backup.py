"""A whole copy of a club's folder, which is read again and compared before it gets its name.

A copy is the folder CLUB-DATE-TIME in the target. Until it is whole its name begins with a dot and ends with `.part`,
so a half copy never looks like a whole one."""

from __future__ import annotations

import errno
import os
import re
import shutil
import stat
from collections.abc import Callable
from pathlib import Path

from office.club.campaign import read_campaign
from office.club.club import Club
from office.club.files import effect, make_folder, remove_folder, sync_file, sync_folder
from office.closing.folder import explain
from office.errors import OfficeError

Say = Callable[[str], None]

# room that is left free on the target's disk beside the copy
SPARE_BYTES = 1_000_000
# how often a file that is written meanwhile, as mail that comes in, is copied again
MOST_TRIES = 3
_DATE = r"\d{4}-\d\d-\d\d-\d{6}(-\d+)?"


def backup(club: Club, target: Path, say: Say, keep: int | None = None) -> Path:
    """The whole copy below `target`, which is made where it isn't there. With `keep` the oldest copies of this club are
    removed there, so that as many stay. OfficeError where the copy isn't whole; then there is none."""
    root = club.places.root.resolve()
    if keep is not None and keep < 1:
        raise OfficeError("keep at least 1 copy")
    if target.resolve() == root or root in target.resolve().parents:
        raise OfficeError("a copy inside the club's folder is lost together with it: name a folder elsewhere, best on "
                          "another disk")
    with club.with_campaign():
        try:
            make_folder(target)
            _remove_parts(root.name, target)
            files = _files_of(root)
            _check_room(files, root, target)
            copy = _copy(club, files, target)
        except OSError as error:
            raise OfficeError(f"there is no copy in {target}: {explain(error)}") from None
    say(f"{len(files)} files are copied to {copy}, and read again")
    if keep is not None:
        _remove_oldest(root.name, target, keep, say)
    return copy


def _files_of(root: Path) -> list[Path]:
    """Files, links and folders, folders first. Locks, unfinished writes, pipes and sockets are left out."""
    found = []
    for path in sorted(root.rglob("*")):
        name, mode = path.name, path.lstat().st_mode
        if name.endswith(".lock") or name.startswith(".") and name.endswith(".part"):
            continue
        if stat.S_ISREG(mode) or stat.S_ISDIR(mode) or stat.S_ISLNK(mode):
            found.append(path)
    return found


def _check_room(files: list[Path], root: Path, target: Path) -> None:
    needed = sum(path.lstat().st_size for path in files) + SPARE_BYTES
    free = shutil.disk_usage(target).free
    if free < needed:
        raise OfficeError(f"the disk of {target} has {free:,} bytes free, and {root.name} needs {needed:,}: make room "
                          "there")


def _copy(club: Club, files: list[Path], target: Path) -> Path:
    root = club.places.root.resolve()
    name = _free_name(f"{root.name}-{club.now():%Y-%m-%d-%H%M%S}", target)
    part = target / f".{name}.{os.getpid()}.part"
    try:
        make_folder(part)
        for path in files:
            _copy_one(path, part / path.relative_to(root))
        _check_campaign(club, part)
        _copy_times(files, root, part)
        with effect():
            os.rename(part, target / name)
            sync_folder(target)
    except BaseException:
        shutil.rmtree(part, ignore_errors=True)
        raise
    return target / name


def _free_name(first: str, target: Path) -> str:
    name, number = first, 1
    while (target / name).exists():
        number += 1
        name = f"{first}-{number}"
    return name


def _copy_one(source: Path, target: Path) -> None:
    """A file that is gone meanwhile, as mail that another command of the system moved, is left out."""
    if source.is_symlink():
        with effect():
            os.symlink(os.readlink(source), target)
    elif source.is_dir():
        make_folder(target)
    else:
        for _ in range(MOST_TRIES):
            if _is_copied(source, target):
                return
        raise OSError(errno.EBUSY, "it changes while it is copied", str(source))


def _is_copied(source: Path, target: Path) -> bool:
    """Copies a file, and reads both again."""
    with effect():
        try:
            shutil.copyfile(source, target)
        except FileNotFoundError:
            if source.exists():
                raise
            return True
        os.chmod(target, source.stat().st_mode & 0o700)
        sync_file(target)
    return source.read_bytes() == target.read_bytes()


def _copy_times(files: list[Path], root: Path, part: Path) -> None:
    """The time of a file says when its month was closed. Folders come last, since theirs change with what is put into
    them."""
    for path in reversed(files):
        copy = part / path.relative_to(root)
        if copy.exists() and not copy.is_symlink():
            times = path.stat()
            os.utime(copy, ns=(times.st_atime_ns, times.st_mtime_ns))
    for folder in {copy.parent for copy in part.rglob("*")}:
        sync_folder(folder)


def _check_campaign(club: Club, part: Path) -> None:
    """The copy is the same campaign by all that is in it."""
    copy = part / club.places.campaign.name
    # The program opens the copy, and may leave a log beside it.
    before = copy.read_bytes()
    is_same = read_campaign(copy) == read_campaign(club.places.campaign)
    if not is_same or club.program.on(str(copy)).books() != club.program.books():
        raise OfficeError(f"the copy of {copy.name} is another campaign: is the disk of {part.parent} sound?")
    if copy.read_bytes() != before:
        raise OfficeError(f"the copy of {copy.name} changed as it was read")


def _copies(name: str, target: Path) -> list[Path]:
    """The whole copies of a club, the oldest first."""
    pattern = re.compile(re.escape(name) + "-" + _DATE)
    found = [path for path in target.iterdir() if pattern.fullmatch(path.name) and (path / "club.toml").is_file()]
    return sorted(found, key=lambda path: _order(path.name, name))


def _order(name: str, club: str) -> tuple[str, int]:
    """The date and time, and then the number of a second copy in one second."""
    parts = name.removeprefix(club + "-").split("-")
    return "-".join(parts[:4]), int(parts[4]) if len(parts) > 4 else 1


def _remove_parts(name: str, target: Path) -> None:
    """What copies that were killed left. Those of a process that runs stay."""
    pattern = re.compile(r"\." + re.escape(name) + "-" + _DATE + r"\.(\d+)\.part")
    for path in target.iterdir():
        found = pattern.fullmatch(path.name)
        if found and not Path("/proc", found[2]).exists():
            remove_folder(path)


def _remove_oldest(name: str, target: Path, keep: int, say: Say) -> None:
    for path in _copies(name, target)[:-keep]:
        part = target / f".{path.name}.{os.getpid()}.part"
        with effect():
            os.rename(path, part)
        remove_folder(part)
        say(f"{path.name} is removed")
