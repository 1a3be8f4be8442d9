"""A stand-in for the program, which answers at once: so a function of the office can be stopped at each of its steps,
and a stop can be tried where no program is built. It keeps a campaign in the same tables, but plays no game: a report
has the mailing and the dice as checksums, so other mail or another seed makes another report."""

from __future__ import annotations

import hashlib
import os
import re
import sqlite3
from collections.abc import Iterator
from contextlib import closing, contextmanager
from pathlib import Path
from unittest.mock import patch

from office.club.program import Program, _raise

TABLES = """CREATE TABLE campaign (id INTEGER PRIMARY KEY, month INTEGER, pass TEXT, world TEXT);
CREATE TABLE faction (number INTEGER PRIMARY KEY, joined_as TEXT UNIQUE, name TEXT, pass TEXT, gone INTEGER);
CREATE TABLE mail (faction INTEGER PRIMARY KEY, text BLOB);
CREATE TABLE report (faction INTEGER PRIMARY KEY, text TEXT);
CREATE TABLE books (entry INTEGER PRIMARY KEY, amount INTEGER);
INSERT INTO books VALUES (1, 0), (2, 0);"""
_HEADER = re.compile(rb"^[ \t]*#ATLANTIS[ \t]+(\d+)", re.IGNORECASE | re.MULTILINE)


class Refused(Exception):
    """What the program prints, with status 1."""


def run(self: Program, *words: str) -> str:
    """In the place of Program.run."""
    options = _options(list(words[1:]))
    file = self.folder / options["db"]
    try:
        if words[0] == "found":
            return _found(file, (self.folder / options["world"]).read_text(), options["pass"])
        if not file.is_file():
            raise Refused("fault: NotACampaign")
        with closing(sqlite3.connect(file)) as database:
            printed = COMMANDS[words[0]](database, self.folder, options)
            database.commit()
            return printed
    except Refused as refused:
        _raise(str(refused))


def _options(words: list[str]) -> dict[str, str]:
    options = {}
    while words:
        word = words.pop(0)
        name, equals, value = word.partition("=")
        options[name.removeprefix("--")] = value if equals else words.pop(0)
    return options


def _found(file: Path, world: str, pass_text: str) -> str:
    with closing(sqlite3.connect(file)) as database:
        database.executescript(TABLES)
        database.execute("INSERT INTO campaign VALUES (1, 0, ?, ?)", (pass_text, world))
        database.commit()
    return "founded, 1 regions\n"


def _join(database: sqlite3.Connection, _folder: Path, options: dict[str, str]) -> str:
    number = int(database.execute("SELECT count(*) FROM faction").fetchone()[0]) + 1
    try:
        database.execute("INSERT INTO faction VALUES (?, ?, ?, ?, 0)",
                         (number, options["name"], options["name"], options["pass"]))
    except sqlite3.IntegrityError:
        raise Refused("refused: 3 NameTaken") from None
    database.execute("INSERT INTO report VALUES (?, ?)", (number, f"begins by {_sum(options['seed'])}\n"))
    database.execute("UPDATE books SET amount = amount + 1 WHERE entry = 1")
    return f"faction {number}, unit {number}\n"


def _mail(database: sqlite3.Connection, folder: Path, options: dict[str, str]) -> str:
    number, text = int(options["faction"]), (folder / options["file"]).read_bytes()
    row = database.execute("SELECT pass, gone FROM faction WHERE number = ?", (number,)).fetchone()
    if row is None:
        raise Refused("refused: 5 NoFaction")
    found = _HEADER.search(text)
    for is_so, refusal in ((row[0] != options["pass"], "6 WrongPass"), (row[1], "7 Gone"), (not found, "9 NoHeader"),
                           (found and int(found[1]) != number, "11 WrongFaction")):
        if is_so:
            raise Refused(f"refused: {refusal}")
    database.execute("REPLACE INTO mail VALUES (?, ?)", (number, text))
    return "1 orders, 0 faults\n"


def _close(database: sqlite3.Connection, _folder: Path, options: dict[str, str]) -> str:
    month, secret = database.execute("SELECT month + 1, pass FROM campaign").fetchone()
    if options["pass"] != secret:
        raise Refused("refused: 6 WrongPass")
    if options["month"] != str(month):
        raise Refused("refused: 12 WrongMonth")
    mailed = dict(database.execute("SELECT faction, text FROM mail"))
    for number, gone in database.execute("SELECT number, gone FROM faction").fetchall():
        orders = _block(mailed.get(number, b""))
        if not gone:
            report = f"month {month}, faction {number}\n{_sum(orders)}\n{_sum(options['seed'])}\n"
            database.execute("REPLACE INTO report VALUES (?, ?)", (number, report))
        if b"\nQUIT" in orders:
            database.execute("UPDATE faction SET gone = 1 WHERE number = ?", (number,))
    database.execute("DELETE FROM mail")
    database.execute("UPDATE books SET amount = amount + 1 WHERE entry = 2")
    database.execute("UPDATE campaign SET month = month + 1")
    return f"month {month} closed\n"


def _block(text: bytes) -> bytes:
    """The lines from below the header to #END, without comments, each with its number: what counts of a mailing."""
    lines = [line.partition(b";")[0].rstrip() for line in text.splitlines()]
    header = next((at for at, line in enumerate(lines) if _HEADER.match(line)), len(lines))
    end = next((at for at in range(header, len(lines)) if lines[at].startswith(b"#END")), len(lines))
    return b"".join(b"\n%s %d" % (line, at) for at, line in enumerate(lines) if header < at < end)


def _books(database: sqlite3.Connection, _folder: Path, _options: dict[str, str]) -> str:
    return "".join(f"{entry} {amount}\n" for entry, amount in database.execute("SELECT * FROM books ORDER BY entry"))


def _report(database: sqlite3.Connection, _folder: Path, options: dict[str, str]) -> str:
    return str(database.execute("SELECT text FROM report WHERE faction = ?", (options["faction"],)).fetchone()[0])


COMMANDS = {"join": _join, "mail": _mail, "close": _close, "books": _books, "report": _report}


def _sum(text: str | bytes) -> str:
    return hashlib.sha256(text.encode() if isinstance(text, str) else text).hexdigest()


@contextmanager
def in_place_of_the_program() -> Iterator[None]:
    """The office calls the stand-in in here."""
    with patch.object(Program, "run", run), patch.dict(os.environ, GM="/bin/true"):
        yield
