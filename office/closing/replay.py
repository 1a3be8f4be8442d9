"""Plays a campaign again from the folders of its months, and compares each report and the books of each month with
those that were kept, byte for byte. It needs no club: whoever has the program and the folders can do it.

The campaign is founded, joined, mailed to and closed again in a temporary folder. Pass texts are made up, since no
report shows one. A campaign whose first months were not kept, or that was upgraded, is replayed from the private copy
before-M.db: then the months from M on are compared."""

from __future__ import annotations

import difflib
import re
import shutil
import sqlite3
import time
from collections.abc import Callable, Iterator
from contextlib import closing, contextmanager
from itertools import islice, zip_longest
from pathlib import Path
from tempfile import TemporaryDirectory

from office.closing.folder import Listed, MonthFolder, Sent, explain, list_faction, months_in, read_bytes
from office.club.campaign import read_campaign
from office.club.club import parse_seed, seed_checksum
from office.club.program import Fault, Program, Refusal
from office.errors import OfficeError

Say = Callable[[str], None]

PASS_TEXT = "again"
MOST_DIFFERENCES = 20
# lines of both texts, from the first difference on, in which further differences are looked for
MOST_COMPARED = 200
MOST_LINE = 200
SECONDS_OF_SILENCE = 5.0
_LINE = re.compile(rb"[^\n]*\n|[^\n]+")


def replay(months: Path, copy: Path | None, checksum: str | None, say: Say) -> str:
    """What came out again, as a sentence. OfficeError with the first difference, or where a month was closed with
    another seed than the one whose SHA-256 is `checksum` (in hex, of the digits). `say` gets a line where the seed
    changes."""
    with TemporaryDirectory(prefix="replay-") as folder:
        return _Replay(months, Program(Path(folder), "again.db"), checksum, say).run(copy)


class _Replay:
    """A campaign that is played again. `names` are those of the factions that have joined, and `seeds` those of the
    months."""

    def __init__(self, months: Path, program: Program, checksum: str | None, say: Say) -> None:
        self.months = months
        self.program = program
        self.checksum = checksum
        self.say = say
        self.names: list[str] = []
        self.seeds: dict[int, str] = {}
        self.said_at = time.monotonic()

    def run(self, copy: Path | None) -> str:
        known = months_in(self.months)
        if not known:
            raise OfficeError(f"there is no month in the folder '{self.months}'")
        last = known[-1]
        first = self._begin_from(copy) if copy else self._found()
        if first > last:
            raise OfficeError(f"{self.months / str(first)} is missing")
        for month in range(first, last + 1):
            self._play(month, MonthFolder(self.months / str(first)))
            self._show_progress(month, last)
        self._check_seeds()
        return f"months {first} to {last}: every report and the books come out again, byte for byte"

    def _found(self) -> int:
        first = MonthFolder(self.months / "1")
        if not first.root.is_dir():
            raise OfficeError(f"{first.root} is missing: a replay begins with month 1, or with a copy before-M.db")
        read_bytes(first.world)
        with _answering(first.world):
            self.program.found(first.world.absolute(), PASS_TEXT)
        return 1

    def _begin_from(self, copy: Path) -> int:
        if not copy.is_file():
            raise OfficeError(f"{copy} is missing")
        file = self.program.folder / self.program.file
        try:
            shutil.copyfile(copy, file)
            with closing(sqlite3.connect(file)) as database:
                database.execute("UPDATE campaign SET pass = ?", (PASS_TEXT,))
                database.execute("UPDATE faction SET pass = ?", (PASS_TEXT,))
                database.execute("DELETE FROM mail")
                database.commit()
        except (OSError, sqlite3.Error) as error:
            raise OfficeError(f"{copy} is no campaign that can be read: {error}") from None
        campaign = read_campaign(file)
        self.names = [faction.joined_as for faction in campaign.factions]
        return campaign.month + 1

    def _play(self, month: int, first: MonthFolder) -> None:
        folder = MonthFolder(self.months / str(month))
        if not folder.root.is_dir():
            raise OfficeError(f"{folder.root} is missing")
        for path in (folder.world, folder.seed, folder.factions):
            read_bytes(path)
        if read_bytes(folder.world) != read_bytes(first.world):
            raise OfficeError(f"{folder.world} is another world than {first.world}")
        listed = folder.read_factions()
        seed = self._read_seed(month, folder)
        self._join(folder, listed, seed)
        _check_files(folder, listed)
        self._hand_in(folder, listed)
        self._check_list(folder, listed)
        with _answering(folder.seed):
            self.program.close(month, PASS_TEXT, seed)
        self._compare(folder)

    def _read_seed(self, month: int, folder: MonthFolder) -> str:
        seed = parse_seed(read_bytes(folder.seed).decode("latin-1"), str(folder.seed))
        if self.seeds.get(month - 1, seed) != seed:
            self.say(f"month {month} was closed with another seed than month {month - 1}")
        self.seeds[month] = seed
        return seed

    def _join(self, folder: MonthFolder, listed: list[Listed], seed: str) -> None:
        """Joins the factions of the list that have not joined yet. The others have to be in it as before."""
        for faction, name in zip_longest(listed, list(self.names)):
            if faction is None:
                raise OfficeError(f"{folder.factions}: faction {len(listed) + 1} is missing")
            if name is None:
                with _answering(f"{folder.factions}, faction {faction.number}"):
                    self.program.join(faction.name, PASS_TEXT, seed)
                self.names.append(faction.name)
            elif name != faction.name:
                raise OfficeError(f"{folder.factions}: faction {faction.number} is '{faction.name}', and was '{name}'")

    def _hand_in(self, folder: MonthFolder, listed: list[Listed]) -> None:
        for faction in listed:
            if faction.sent is Sent.MAIL:
                path = folder.mail(faction.number)
                with _answering(path):
                    self.program.run("mail", "--db", self.program.file, "--faction", str(faction.number),
                                     f"--pass={PASS_TEXT}", "--file", str(path.absolute()))

    def _check_list(self, folder: MonthFolder, listed: list[Listed]) -> None:
        """Who sent mail, was silent or was gone is as the list says."""
        for faction in read_campaign(self.program.folder / self.program.file).factions:
            said, played = listed[faction.number - 1].sent.value, list_faction(faction).sent.value
            if said != played:
                raise OfficeError(f"{folder.factions}: faction {faction.number} is '{said}' there, and '{played}' in "
                                  "the replay")

    def _compare(self, folder: MonthFolder) -> None:
        with _answering(folder.root):
            books = self.program.books()
            campaign = read_campaign(self.program.folder / self.program.file)
        for faction in campaign.factions:
            _compare_file(folder.report(faction.number), faction.report.encode())
        _compare_file(folder.books, books.encode())

    def _check_seeds(self) -> None:
        if self.checksum is None:
            return
        others = [str(month) for month, seed in self.seeds.items() if seed_checksum(seed) != self.checksum]
        if others:
            raise OfficeError("every report and the books come out again, but not every seed is the one whose checksum "
                              f"was published. Closed with another seed: month {', '.join(others)}")
        self.say("each month was closed with the seed whose checksum was published")

    def _show_progress(self, month: int, last: int) -> None:
        """A line now and then, where a replay takes long."""
        if month < last and time.monotonic() - self.said_at > SECONDS_OF_SILENCE:
            self.said_at = time.monotonic()
            self.say(f"month {month} of {last} comes out again")


@contextmanager
def _answering(where: Path | str) -> Iterator[None]:
    """What the program refuses in here is said of `where`."""
    try:
        yield
    except Refusal as error:
        raise OfficeError(f"{where}: the program answers: refused: {error.number} {error.name}") from None
    except Fault as error:
        raise OfficeError(f"{where}: the program answers: {error.line}") from None
    except OSError as error:
        raise OfficeError(f"{where}: {explain(error)}") from None


def _check_files(folder: MonthFolder, listed: list[Listed]) -> None:
    """The folder has the reports and the mailings that its list names, and no others."""
    named = set()
    for faction in listed:
        named.add(folder.report(faction.number))
        if faction.sent is Sent.MAIL:
            named.add(folder.mail(faction.number))
    for path in sorted(named):
        if not path.is_file():
            raise OfficeError(f"{path} is missing")
    for path in folder.mails_and_reports():
        if path not in named:
            raise OfficeError(f"{path} should not be there, by factions.txt")
    read_bytes(folder.books)


def _compare_file(path: Path, played: bytes) -> None:
    kept = read_bytes(path)
    if kept != played:
        lines = "\n".join(show_differences(kept, played))
        raise OfficeError(f"{path} is not what the replay gives. Lines with < were kept, lines with > are from the "
                          f"replay:\n{lines}")


def show_differences(kept: bytes, played: bytes) -> list[str]:
    """The first differences of two texts, at most 20 lines. Those of the first begin with `<`, those of the second with
    `>`."""
    old, new = _LINE.findall(kept), _LINE.findall(played)
    same = 0
    while same < min(len(old), len(new)) and old[same] == new[same]:
        same += 1
    parts = slice(same, same + MOST_COMPARED)
    return list(islice(_differences(old[parts], new[parts], same + 1), MOST_DIFFERENCES))


def _differences(old: list[bytes], new: list[bytes], first: int) -> Iterator[str]:
    matcher = difflib.SequenceMatcher(None, old, new, autojunk=False)
    for what, old_begin, old_end, new_begin, new_end in matcher.get_opcodes():
        if what != "equal":
            yield f"line {first + old_begin}:"
            yield from (f"< {_shown(line)}" for line in old[old_begin:old_end])
            yield from (f"> {_shown(line)}" for line in new[new_begin:new_end])


def _shown(line: bytes) -> str:
    """The line with `?` for each sign that is none of ASCII, since a forged file may have any."""
    text = "".join(sign if " " <= sign <= "~" else "?" for sign in line.removesuffix(b"\n").decode("latin-1"))
    return text[:MOST_LINE] + ("" if line.endswith(b"\n") else " (no line end)")
