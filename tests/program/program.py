#!/usr/bin/env python3
"""Runs the program on worlds, mailings, databases and command lines, many of which it refuses, and compares its status, its
standard output and its standard error with what docs/FORMATS.md says.

The steps stand in one table, and are taken in its order: each call of the program is a line with its name, its words, and
what it has to answer. Called without arguments, it takes some 20 seconds, and ends with 'program: all as expected'. Without
strace one step is passed over."""
import os
import resource
import shlex
import shutil
import signal
import socket
import sqlite3
import subprocess
import sys
import tempfile
import time
from collections.abc import Callable, Iterator, Sequence
from contextlib import closing
from dataclasses import dataclass
from pathlib import Path

sys.path.insert(0, str(Path(__file__).resolve().parents[2]))

from tests.program.calls import PROGRAM, SMALL_FILE, TOP  # noqa: E402
from tests.tools.ports import HOST, free_port  # noqa: E402

SMALL = SMALL_FILE.read_text(encoding="utf-8")
KB = 1024
# In place of a text: some text, but not none.
SOME = "\0"


class Bench:
    """A folder in which the program is called, and what was wrong so far."""

    def __init__(self, folder: Path) -> None:
        self.folder = folder
        self.faults = 0
        self.step = ""

    def fail(self, reason: str) -> None:
        print(f"{self.step}: {reason}")
        self.faults += 1

    def path(self, name: str) -> Path:
        return self.folder / name

    def expect(self, is_so: bool, reason: str) -> None:
        if not is_so:
            self.fail(reason)

    def rows(self, name: str) -> list[str]:
        """All that a database holds, read from a copy of the file alone."""
        copy = shutil.copy(self.path(name), self.path("rows"))
        with closing(sqlite3.connect(copy)) as connection:
            return list(connection.iterdump())

    def expect_whole(self, name: str) -> None:
        """No log with content is beside the file. One of 41 bytes or less holds nothing."""
        for log in (self.path(f"{name}-wal"), self.path(f"{name}-journal")):
            self.expect(not log.exists() or log.stat().st_size <= 41, f"there is content in {log.name}")

    def call(self, words: Sequence[str | bytes], stdin: bytes = b"", limits: Sequence[tuple[int, int]] = ()) -> tuple[int, str, str]:
        """Status, output and errors of the program. The signals stay as they are, so that a limit on files is an error."""
        def set_limits() -> None:
            for kind, size in limits:
                resource.setrlimit(kind, (size, size))

        ended = subprocess.run([PROGRAM, *words], cwd=self.folder, input=stdin, capture_output=True, restore_signals=False,
                               preexec_fn=set_limits)
        return ended.returncode, ended.stdout.decode(), ended.stderr.decode()


@dataclass(frozen=True)
class Run:
    """A call of the program, with its words as one text, and what it has to answer. The rows of the file `stays` stay."""

    name: str
    words: str | tuple[str | bytes, ...]
    status: int
    output: str = ""
    error: str = ""
    stdin: str | bytes = b""
    stays: str = ""
    limits: tuple[tuple[int, int], ...] = ()
    # Whether the file alone holds everything after the call. A journal that `sqlite3` keeps has content that counts for nothing.
    is_whole: bool = True

    def take(self, bench: Bench) -> None:
        before = bench.rows(self.stays) if self.stays else []
        words = shlex.split(self.words) if isinstance(self.words, str) else self.words
        stdin = self.stdin.encode() if isinstance(self.stdin, str) else self.stdin
        status, output, error = bench.call(words, stdin, self.limits)
        is_told = error != "" if self.error == SOME else error.startswith(self.error) if self.status == 2 else error == self.error
        bench.expect((status, output) == (self.status, self.output) and is_told,
                     f"status {status}, output and error:\n{output}{error}")
        if self.stays:
            bench.expect(bench.rows(self.stays) == before, "the rows changed")
        database = self.stays or (option(words, "--db") if status == 0 else "")
        if database and self.is_whole:
            bench.expect_whole(database)


@dataclass(frozen=True)
class Do:
    """Any other step: it makes what the calls after it need, or looks at what those before it left."""

    name: str
    act: Callable[[Bench], None]

    def take(self, bench: Bench) -> None:
        self.act(bench)


Step = Run | Do


def option(words: Sequence[str | bytes], name: str) -> str:
    """The value of an option; the empty text where it isn't among the words."""
    found = [after for word, after in zip(words, words[1:]) if word == name]
    return str(found[0]) if found else ""


def done(name: str, words: str, output: str, stdin: str | bytes = b"") -> Run:
    return Run(name, words, 0, output, stdin=stdin)


def fails(name: str, words: str, error: str, stdin: str | bytes = b"") -> Run:
    """The call has status 1. Nothing is looked for in its files."""
    return Run(name, words, 1, "", f"{error}\n", stdin)


def refused(name: str, words: str, error: str, *limits: tuple[int, int]) -> Run:
    """The call has status 1, and the rows of its file stay."""
    return Run(name, words, 1, "", f"{error}\n", stays=option(shlex.split(words), "--db"), limits=limits)


def misused(name: str, words: str | tuple[str | bytes, ...], error: str = SOME) -> Run:
    """The call has status 2, and its errors begin so."""
    return Run(name, words, 2, "", error)


def put(name: str, text: str | bytes) -> Do:
    return Do(f"making {name}", lambda bench: void(bench.path(name).write_bytes(text.encode() if isinstance(text, str) else text)))


def copy(source: str, target: str) -> Do:
    return Do(f"copying {source}", lambda bench: void(shutil.copy(bench.path(source), bench.path(target))))


def void(_: object) -> None:
    pass


def run_sql(file: Path, statements: str) -> list[tuple[object, ...]]:
    """What the last statement gives. Each is a transaction of its own."""
    found: list[tuple[object, ...]] = []
    with closing(sqlite3.connect(file, isolation_level=None)) as connection:
        for statement in statements_of(statements):
            found = connection.execute(statement).fetchall()
    return found


def statements_of(text: str) -> Iterator[str]:
    statement = ""
    for part in text.split(";"):
        statement += f"{part};"
        if sqlite3.complete_statement(statement):
            yield statement
            statement = ""


def sql(name: str, statements: str) -> Do:
    return Do(f"{statements} in {name}", lambda bench: void(run_sql(bench.path(name), statements)))


def holds(name: str, query: str, wanted: object) -> Do:
    """The query gives this one value."""
    return Do(f"{query} of {name}", lambda bench: bench.expect(run_sql(bench.path(name), query) == [(wanted,)], "another value"))


def world(*changes: tuple[str, str], more: str = "") -> str:
    """The small world with some lines changed, and some behind it."""
    text = SMALL
    for old, new in changes:
        assert old in text
        text = text.replace(old, new)
    return text + more


def first_report(exits: str = "none", faction: str = '1 "Avalon"') -> str:
    return f"""Atlantis report, month 0, faction {faction}.
Orders:
None.
Region 1 "Vale", plain: 1000 peasants, 500 money.
Exits: {exits}.
* Unit 1 "Unit 1": 1 men, 1000 money.
"""


FOUNDED = "founded, 1 regions\n"
JOINED = "faction 1, unit 1\n"
REPORT = first_report()
# The words of a call on small.db, by faction 1.
FIRST = "--db small.db --faction 1 --pass pw"
HILL = 'east = 2\n[[region]]\nnumber = 2\nname = "Hill"\nterrain = "plain"\npeasants = 300\nmoney = 200\nwest = 1\n'
CONTROLS = 'output = { "a\\nb\\u001B[2J\\u0085 \\\\\\"é" = 1 }\n'
GROWTH = "growth = 0\n"

IN_MEMORY: list[Step] = [
    done("a first report", "trial", REPORT, SMALL),
    Do("the stored run", lambda bench: bench.expect(SMALL == (TOP / "crates/atl_gm/stdin").read_text(), "its world is another")),
    done("a first report beside a region", "trial", first_report("east 2"), world(more=HILL)),
    fails("no TOML", "trial", "world: 1 NotToml", "a = = b\n"),
    fails("a text for a number", "trial", "world: 3 WrongType rules.growth", world((GROWTH, 'growth = "0"\n'))),
    fails("a key that lacks", "trial", "world: 2 Missing rules.growth", world((GROWTH, ""))),
    fails("a number past its range", "trial", "world: 4 OutOfRange rules.growth", world((GROWTH, "growth = 101\n"))),
    fails("a key with control characters", "trial", r"""world: 6 UnknownName terrain[0].output.a\nb\u{1b}[2J\u{85} \"é""",
          world(("[[region]]", f"{CONTROLS}[[region]]"))),
    fails("bytes that are no text", "trial", "file: cannot read", b"\xff"),
]

IN_A_FILE: list[Step] = [
    done("a founding", "found --world small.toml --db small.db --pass gm", FOUNDED),
    done("a joining", "join --db small.db --name Avalon --pass pw --seed 0", JOINED),
    done("a first report of a file", f"report {FIRST}", REPORT),
    put("mailing", "#ATLANTIS 1\nUNIT 1\nATTACK 2\nwork\n"),
    done("one faulty line", f"mail {FIRST} --file mailing", "1 orders, 1 faults\nline 3: 2 UnknownOrder\n"),
    put("mailing", b"#ATLANTIS 1\nUNIT 1\nwork \310\nWORK\nENTER\n"),
    done("a byte that is no text", f"mail {FIRST} --file mailing", "1 orders, 2 faults\nline 3: 6 BadByte\nline 5: 5 MissingWord\n"),
    put("mailing", "#ATLANTIS 1\n"),
    done("no order", f"mail {FIRST} --file mailing", "0 orders, 0 faults\n"),
    put("mailing", "#ATLANTIS 1\r\nUNIT 1\r\nWORK\r\n"),
    done("lines of another system", f"mail {FIRST} --file mailing", "1 orders, 0 faults\n"),
    put("mailing", "#ATLANTIS 1\n" + '"' * 65_524),
    done("the longest mailing", f"mail {FIRST} --file mailing", "0 orders, 1 faults\nline 2: 2 UnknownOrder\n"),
    done("the report after mail", f"report {FIRST}", REPORT),
]

OWN = "--db own.db --faction 1 --pass pw"

COPIES: list[Step] = [
    copy("small.db", "copy.db"),
    done("a plain copy", "report --db copy.db --faction 1 --pass pw", REPORT),
    copy("small.db", "own.db"),
    holds("own.db", "PRAGMA integrity_check", "ok"),
    holds("own.db", "SELECT joined_as FROM faction", "Avalon"),
    sql("own.db", "VACUUM; REINDEX; ANALYZE; CREATE TABLE note (words TEXT)"),
    done("a file that sqlite3 changed", f"report {OWN}", REPORT),
    done("a joining there", "join --db own.db --name Bree --pass pb --seed 0", "faction 2, unit 2\n"),
    holds("own.db", "SELECT count(*) FROM unit", 2),
    sql("own.db", "VACUUM INTO 'packed.db'"),
    done("a file that sqlite3 made", "report --db packed.db --faction 1 --pass pw", REPORT),
]

CLOSED = "--db closed.db --faction 1 --pass pw"

MONTHS: list[Step] = [
    done("a founding to be closed", "found --world small.toml --db closed.db --pass gm", FOUNDED),
    done("a joining to be closed", "join --db closed.db --name Avalon --pass pw --seed 0", JOINED),
    put("mailing", "#ATLANTIS 1\nUNIT 1\nATTACK 2\nwork\n"),
    done("orders to be closed", f"mail {CLOSED} --file mailing", "1 orders, 1 faults\nline 3: 2 UnknownOrder\n"),
    refused("a closing by a player", "close --db closed.db --month 1 --pass pw --seed 0", "refused: 6 WrongPass"),
    refused("a month too early", "close --db closed.db --month 2 --pass gm --seed 0", "refused: 12 WrongMonth"),
    done("a closing", "close --db closed.db --month 1 --pass gm --seed 0", "month 1 closed\n"),
    refused("a closing once more", "close --db closed.db --month 1 --pass gm --seed 0", "refused: 12 WrongMonth"),
    done("a report of a month", f"report {CLOSED}", """Atlantis report, month 1, faction 1 "Avalon".
Orders:
Line 3: 2 UnknownOrder.
Unit 1, line 4, WORK: done 12.
Region 1 "Vale", plain: 1000 peasants, 1500 money.
Exits: none.
* Unit 1 "Unit 1": 1 men, 1002 money.
"""),
    done("the books of a month", "books --db closed.db", """money founding 500
money joining 1000
money income 1000
money wages 12
money upkeep -10
money total 2502
people founding 1000
people joining 1
people total 1001
"""),
    misused("a month that is no number", "close --db closed.db --month x --pass gm --seed 0"),
]

MART = "--db mart.db --faction 1 --pass pw"
MARKET = """[[region.market]]
item = "wood"
price = 7
pays = 5
limit = 30
restock = 20
[[item]]
name = "wood"
weight = 5
carry = 0
"""


def market_report(month: int, events: str, money: int, market: str, unit: str) -> str:
    return f"""Atlantis report, month {month}, faction 1 "Avalon".
Orders:
{events}
Region 1 "Vale", plain: 1000 peasants, {money} money.
Exits: none.
Market wood: {market}.
* Unit 1 "Unit 1": 1 men, {unit}.
"""


# Over three months a unit buys of the stock, and then finds none wanted.
MARKETS: list[Step] = [
    put("mart.toml", SMALL + MARKET),
    done("a market founded", "found --world mart.toml --db mart.db --pass gm", FOUNDED),
    done("a market joined", "join --db mart.db --name Avalon --pass pw --seed 0", JOINED),
    done("a market without a stock", f"report {MART}",
         market_report(0, "None.", 500, "0 in stock at 7, 30 wanted at 5", "1000 money")),
    done("a market stocked", "close --db mart.db --month 1 --pass gm --seed 0", "month 1 closed\n"),
    done("a market with a stock", f"report {MART}",
         market_report(1, "Unit 1, line 0, WORK: done 12.", 1500, "20 in stock at 7, 10 wanted at 5", "1002 money")),
    put("mailing", "#ATLANTIS 1\nUNIT 1\nBUY 3 wood\n"),
    done("an order to buy", f"mail {MART} --file mailing", "1 orders, 0 faults\n"),
    done("a market bought from", "close --db mart.db --month 2 --pass gm --seed 0", "month 2 closed\n"),
    done("what was bought", f"report {MART}",
         market_report(2, "Unit 1, line 3, BUY: done 3.\nUnit 1, line 0, WORK: done 12.", 2500, "30 in stock at 7, 0 wanted at 5",
                       "983 money, 3 wood")),
    done("the books of a market", "books --db mart.db", """money founding 500
money joining 1000
money income 2000
money wages 24
money upkeep -20
money bought -21
money total 3483
people founding 1000
people joining 1
people total 1001
item "wood" stocked 33
item "wood" total 33
"""),
    put("mailing", "#ATLANTIS 1\nUNIT 1\nSELL 2 wood\n"),
    done("an order to sell", f"mail {MART} --file mailing", "1 orders, 0 faults\n"),
    done("a full market", "close --db mart.db --month 3 --pass gm --seed 0", "month 3 closed\n"),
    done("what was not sold", f"report {MART}",
         market_report(3, "Unit 1, line 3, SELL: done 0.\nUnit 1, line 0, WORK: done 12.", 3500, "30 in stock at 7, 0 wanted at 5",
                       "985 money, 3 wood")),
]

ISLAND = """Atlantis report, month 0, faction 1 "Avalon".
Orders:
None.
Region 3 "Far", forest: 200 peasants, 100 money.
Exits: north 4, west 2.
* Unit 1 "Unit 1": 1 men, 1000 money.
"""
SECOND = """Atlantis report, month 0, faction 2 "Bree".
Orders:
None.
Region 3 "Far", forest: 200 peasants, 100 money.
Exits: north 4, west 2.
- Unit 1 "Unit 1" of faction 1 "Avalon": 1 men.
* Unit 2 "Unit 2": 1 men, 1000 money.
"""
ANY_BYTES = b'a club\r\n#ATLANTIS 1\t"x\nUNIT 1 ; \310\0\nWORK'

# Where the dice lay a faction on an island: the words of seed 3 are 1686128983 and 2024058790, and three regions have land.
ISLANDS: list[Step] = [
    done("an island founded", "found --world isle.toml --db isle.db --pass gm", "founded, 4 regions\n"),
    done("an island joined", "join --db isle.db --name Avalon --pass pw --seed 3", JOINED),
    done("an island start", "report --db isle.db --faction 1 --pass pw", ISLAND),
    done("the books of an island", "books --db isle.db", """money founding 650
money joining 1000
money total 1650
people founding 1300
people joining 1
people total 1301
item "wood" total 0
item "cart" total 0
"""),
    done("a second faction", "join --db isle.db --name Bree --pass pb --seed 3", "faction 2, unit 2\n"),
    done("the greatest seed", "join --db isle.db --name Cair --pass pc --seed 18446744073709551615", "faction 3, unit 3\n"),
    done("a second report", "report --db isle.db --faction 2 --pass pb", SECOND),
    put("mailing", ANY_BYTES),
    done("any bytes", "mail --db isle.db --faction 1 --pass pw --file mailing", "0 orders, 2 faults\nline 3: 6 BadByte\nline 4: 1 NoUnit\n"),
    copy("isle.db", "own.db"),
    holds("own.db", "SELECT text FROM mail", ANY_BYTES),
]


def make_huge(bench: Bench) -> None:
    with bench.path("huge").open("wb") as file:
        file.truncate(1 << 30)


REFUSED: list[Step] = [
    refused("a bad name", "join --db small.db --name ' x' --pass pw --seed 0", "refused: 1 BadName"),
    refused("a bad pass text", "join --db small.db --name Bree --pass 'a b' --seed 0", "refused: 2 BadPassText"),
    refused("an empty pass text", "join --db small.db --name Bree --pass '' --seed 0", "refused: 2 BadPassText"),
    refused("a name that is taken", "join --db small.db --name Avalon --pass pw --seed 0", "refused: 3 NameTaken"),
    refused("a report for nobody", "report --db small.db --faction 9 --pass pw", "refused: 5 NoFaction"),
    refused("a report with another pass text", "report --db small.db --faction 1 --pass no", "refused: 6 WrongPass"),
    put("mailing", "#ATLANTIS 9\n"),
    refused("mail of nobody", "mail --db small.db --faction 9 --pass pw --file mailing", "refused: 5 NoFaction"),
    refused("mail with another pass text", "mail --db small.db --faction 1 --pass no --file mailing", "refused: 6 WrongPass"),
    put("mailing", "#ATLANTIS 1\n" + '"' * 65_525),
    refused("a mailing that is too long", f"mail {FIRST} --file mailing", "refused: 8 TooLong"),
    Do("a file of 1 GB", make_huge),
    refused("a huge mailing", f"mail {FIRST} --file huge", "refused: 8 TooLong", (resource.RLIMIT_AS, 500_000 * KB)),
    refused("huge mail of nobody", "mail --db small.db --faction 9 --pass pw --file huge", "refused: 5 NoFaction"),
    refused("huge mail, another pass", "mail --db small.db --faction 1 --pass no --file huge", "refused: 6 WrongPass"),
    refused("endless mail", f"mail {FIRST} --file /dev/zero", "refused: 8 TooLong"),
    fails("a folder for a mailing", f"mail {FIRST} --file .", "file: cannot read"),
    Do("the file goes", lambda bench: bench.path("huge").unlink()),
    put("mailing", "hello\n"),
    refused("a mailing without a header", f"mail {FIRST} --file mailing", "refused: 9 NoHeader"),
    put("mailing", "#ATLANTIS x\n"),
    refused("a header without a number", f"mail {FIRST} --file mailing", "refused: 10 BadHeader"),
    put("mailing", "#ATLANTIS 2\n"),
    refused("a header of another faction", f"mail {FIRST} --file mailing", "refused: 11 WrongFaction"),
    refused("a file that is founded twice", "found --world small.toml --db small.db --pass gm", "fault: NotEmpty"),
    refused("an upgrade of a file that is not old", "upgrade --db small.db --world small.toml", "fault: NotOld"),
]

# Foundings that are refused leave no campaign, and the next one takes their file.
FOUNDINGS: list[Step] = [
    put("bad.toml", world((GROWTH, 'growth = "0"\n'))),
    fails("a bad world", "found --world bad.toml --db new.db --pass gm", "world: 3 WrongType rules.growth"),
    fails("a bad pass text of a founding", "found --world small.toml --db new.db --pass 'a b'", "refused: 2 BadPassText"),
    fails("no campaign after them", "report --db new.db --faction 1 --pass pw", "fault: NotACampaign"),
    done("a founding after them", "found --world small.toml --db new.db --pass gm", FOUNDED),
    put("empty.db", ""),
    fails("an empty file", "report --db empty.db --faction 1 --pass pw", "fault: NotACampaign"),
    done("a founding in an empty file", "found --world small.toml --db empty.db --pass gm", FOUNDED),
]

# Each subcommand that opens a file, but `found`.
OPENING = (
    "join --name Bree --pass pb --seed 0",
    "mail --faction 1 --pass pw --file mailing",
    "close --month 1 --pass gm --seed 0",
    "report --faction 1 --pass pw",
    "books",
    "serve --port 0 --count 0 --seed 0",
    "upgrade --world small.toml",
)


def contents(bench: Bench, name: str) -> dict[str, bytes]:
    return {path.name: path.read_bytes() for path in bench.folder.glob(f"{name}*")}


def call_on_short_file(bench: Bench, length: int, words: str, error: str) -> None:
    """A subcommand refuses a file of this length, and leaves it and its log as they are."""
    bench.path("short.db").write_bytes(bench.path("small.db").read_bytes()[:length])
    bench.path("short.db-wal").write_bytes(b"a log\n")
    before = contents(bench, "short.db")
    fails("", f"{words} --db short.db", error).take(bench)
    bench.expect(contents(bench, "short.db") == before, "a file changed")


def short_file(length: int, words: str, error: str) -> Do:
    return Do(f"{words} in a file of {length} bytes", lambda bench: call_on_short_file(bench, length, words, error))


SHORT: list[Step] = [
    short_file(length, words, error)
    for length, error in ((0, "fault: NotACampaign"), (1, "fault: Store"), (99, "fault: Store"))
    for words in OPENING
]

# Files that can't be read are told before the database is opened.
UNREAD: list[Step] = [
    put("bytes.toml", b"\xff"),
    fails("a world that is no text", "found --world bytes.toml --db none --pass gm", "file: cannot read"),
    fails("a world that is not there", "found --world no.toml --db none --pass gm", "file: cannot read"),
    fails("a new world that is not there", "upgrade --world no.toml --db none", "file: cannot read"),
    fails("a world that is a folder", "found --world . --db none --pass gm", "file: cannot read"),
    fails("a mailing that is not there", "mail --db none --faction 1 --pass pw --file no.txt", "file: cannot read"),
]

NO_FILE: list[Step] = [
    *(fails(f"{words} where no file is", f"{words} --db none", "fault: NotACampaign") for words in OPENING),
    *(fails(f"{words} in no folder", f"{words} --db none/x.db", "fault: Store") for words in OPENING),
    fails("a founding in memory", "found --world small.toml --db :memory: --pass gm", "fault: Store"),
    fails("a founding at an address", "found --world small.toml --db file:none --pass gm", "fault: Store"),
    fails("a report of an empty path", "report --db '' --faction 1 --pass pw", "fault: NotACampaign"),
    fails("a report below a file", "report --db small.db/none --faction 1 --pass pw", "fault: Store"),
    fails("a report of a folder that is not there", "report --db none/ --faction 1 --pass pw", "fault: Store"),
    fails("a founding in no folder", "found --world small.toml --db none/x.db --pass gm", "fault: Store"),
    fails("a report in no folder of no folder", "report --db none/x/y.db --faction 1 --pass pw", "fault: Store"),
    fails("a report where no file is, in this folder", "report --db none --faction 1 --pass pw", "fault: NotACampaign"),
    fails("a report where no file is, in the root", "report --db /none.db --faction 1 --pass pw", "fault: NotACampaign"),
    Do("paths without a file", lambda bench: bench.expect(not list(bench.folder.rglob("none*")), "a file was made")),
    fails("a folder for a database", "report --db . --faction 1 --pass pw", "fault: Store"),
]

WORDS = "these words are no database, and no program may touch them\n"

NO_DATABASE: list[Step] = [
    put("words", WORDS),
    fails("a report of no database", "report --db words --faction 1 --pass pw", "fault: Store"),
    fails("a founding in no database", "found --world small.toml --db words --pass gm", "fault: Store"),
    Do("no database", lambda bench: bench.expect(bench.path("words").read_text() == WORDS, "its bytes changed")),
    Do("the log of no database", lambda bench: bench.expect_whole("words")),
    Do("cutting", lambda bench: void(bench.path("cut.db").write_bytes(bench.path("small.db").read_bytes()[:8_000]))),
    fails("a file that is cut short", "report --db cut.db --faction 1 --pass pw", "fault: Store"),
    sql("other.db", "CREATE TABLE note (words TEXT); INSERT INTO note VALUES ('milk')"),
    refused("a report of another database", "report --db other.db --faction 1 --pass pw", "fault: NotACampaign"),
    refused("a joining of another database", "join --db other.db --name A --pass pw --seed 0", "fault: NotACampaign"),
    refused("an upgrade of another database", "upgrade --world small.toml --db other.db", "fault: NotACampaign"),
    refused("a founding in another database", "found --world small.toml --db other.db --pass gm", "fault: Store"),
]

DAMAGED: list[Step] = [
    copy("small.db", "damaged.db"),
    sql("damaged.db", "UPDATE unit SET money = money + 1"),
    refused("a report of damage", "report --db damaged.db --faction 1 --pass pw", "fault: Damaged 11"),
    refused("a joining of damage", "join --db damaged.db --name Bree --pass pb --seed 0", "fault: Damaged 11"),
    put("mailing", "#ATLANTIS 1\n"),
    refused("mail of damage", "mail --db damaged.db --faction 1 --pass pw --file mailing", "fault: Damaged 11"),
    refused("a founding in damage", "found --world small.toml --db damaged.db --pass gm", "fault: NotEmpty"),
]


def after(statements: str, *runs: Run) -> list[Step]:
    """Calls on a copy of the campaign in which somebody ran statements."""
    return [copy("small.db", "changed.db"), sql("changed.db", statements), *runs]


def report_after(statements: str, error: str = "") -> list[Step]:
    words, name = "report --db changed.db --faction 1 --pass pw", f"a report after {statements}"
    return after(statements, refused(name, words, error) if error else Run(name, words, 0, REPORT, is_whole=False))


def hidden_after(statements: str) -> list[Step]:
    """The table `campaign` isn't seen, by an opening or by a founding."""
    founding = refused(f"a founding after {statements}", "found --world small.toml --db changed.db --pass gm", "fault: Store")
    return [*report_after(statements, "fault: NotACampaign"), founding]


CHANGED: list[Step] = [
    *report_after("CREATE VIEW shown AS SELECT number FROM unit", "fault: Store"),
    *report_after("CREATE TRIGGER joined AFTER INSERT ON unit BEGIN SELECT 1; END", "fault: Store"),
    *report_after("CREATE UNIQUE INDEX numbers ON unit (number)", "fault: Store"),
    *report_after("CREATE TABLE note (unit REFERENCES unit (number))", "fault: Store"),
    *report_after("PRAGMA auto_vacuum = 1; VACUUM", "fault: Store"),
    *report_after("PRAGMA auto_vacuum = 2; VACUUM", "fault: Store"),
    *report_after("CREATE INDEX rich ON unit (money) WHERE money > 9", "fault: Store"),
    *report_after("CREATE TABLE note (number INTEGER); CREATE INDEX next ON note (number + 1)", "fault: Store"),
    *hidden_after("CREATE TRIGGER closed AFTER UPDATE ON campaign BEGIN SELECT 1; END"),
    *hidden_after("CREATE INDEX later ON campaign (month) WHERE month > 0"),
    *hidden_after("CREATE INDEX next ON campaign (month + 1)"),
    *report_after("PRAGMA journal_mode = DELETE"),
    *report_after("PRAGMA journal_mode = TRUNCATE; PRAGMA user_version = 7"),
    *report_after("PRAGMA journal_mode = PERSIST; PRAGMA application_id = 99"),
    *report_after("PRAGMA journal_mode = DELETE; PRAGMA page_size = 8192; VACUUM"),
    *report_after("PRAGMA secure_delete = 1; PRAGMA schema_version = 100"),
    *report_after("CREATE INDEX of_faction ON unit (faction)"),
]


def write_in(encoding: str, bench: Bench, source: str, target: str) -> None:
    """A database of another encoding, with the tables of this one in their order."""
    with closing(sqlite3.connect(bench.path(source))) as old, closing(sqlite3.connect(bench.path(target))) as new, new:
        new.execute(f"PRAGMA encoding = '{encoding}'")
        for name, text in old.execute("SELECT name, sql FROM sqlite_master WHERE type = 'table' ORDER BY rowid").fetchall():
            new.execute(text)
            for row in old.execute(f"SELECT * FROM {name}"):
                new.execute(f"INSERT INTO {name} VALUES ({', '.join('?' * len(row))})", row)


LEAVE_A_JOURNAL = """import os, signal, sqlite3, sys
file = sqlite3.connect(sys.argv[1], isolation_level=None)
for text in ("PRAGMA journal_mode = DELETE", "PRAGMA cache_size = 1", "BEGIN", "CREATE TABLE note (words)",
             "WITH RECURSIVE n (i) AS (SELECT 1 UNION ALL SELECT i + 1 FROM n WHERE i < 999) "
             "INSERT INTO note SELECT printf('%999d', i) FROM n"):
    file.execute(text)
os.kill(os.getpid(), signal.SIGKILL)
"""


def leave_journal(bench: Bench) -> None:
    subprocess.run([sys.executable, "-c", LEAVE_A_JOURNAL, bench.path("left.db")])
    bench.expect(bench.path("left.db-journal").stat().st_size > 0, "sqlite3 left none")


# A sqlite3 that is killed in a transaction leaves a journal, which the next one brings back into the file.
ENCODINGS_AND_JOURNALS: list[Step] = [
    Do("another encoding", lambda bench: write_in("UTF-16", bench, "small.db", "wide.db")),
    refused("a report of another encoding", "report --db wide.db --faction 1 --pass pw", "fault: Store"),
    Do("the encoding back", lambda bench: write_in("UTF-8", bench, "wide.db", "narrow.db")),
    done("a report of the encoding back", "report --db narrow.db --faction 1 --pass pw", REPORT),
    copy("small.db", "left.db"),
    Do("a journal", leave_journal),
    fails("a report beside a journal", "report --db left.db --faction 1 --pass pw", "fault: Store"),
    fails("books beside a journal", "books --db left.db", "fault: Store"),
    holds("left.db", "SELECT count(*) FROM unit", 1),
    done("a report after a journal", "report --db left.db --faction 1 --pass pw", REPORT),
]


def join_without_output(bench: Bench) -> None:
    words = shlex.split("join --db full.db --name Bree --pass pb --seed 0")
    with open("/dev/full", "wb") as full:
        ended = subprocess.run([PROGRAM, *words], cwd=bench.folder, stdout=full, stderr=subprocess.PIPE)
    bench.expect((ended.returncode, ended.stderr) == (1, b""), f"status {ended.returncode}, {ended.stderr!r}")


def link_file(bench: Bench) -> None:
    os.link(bench.path("small.db"), bench.path("second.db"))


LONGEST = "x" * 247
WORKING = b"#ATLANTIS 1\nUNIT 1\nWORK\n"

# docs/FORMATS.md, "The program": the causes of Store that aren't in the file. Where the answer can't be written, or the file can't be shut, the command
# stands.
AROUND_THE_FILE: list[Step] = [
    copy("small.db", "full.db"),
    Do("an answer that is not written", join_without_output),
    fails("a joining without an answer", "join --db full.db --name Bree --pass pb --seed 0", "refused: 3 NameTaken"),
    refused("a joining past a limit", "join --db small.db --name Bree --pass pb --seed 0", "fault: Store",
            (resource.RLIMIT_FSIZE, 10 * KB)),
    copy("new.db", "late.db"),
    done("a joining before it", "join --db late.db --name Avalon --pass pw --seed 0", JOINED),
    put("mailing", WORKING),
    Run("a file that can't be shut", "mail --db late.db --faction 1 --pass pw --file mailing", 1, "", "fault: Store\n",
        limits=((resource.RLIMIT_FSIZE, 24 * KB),)),
    Do("its log", lambda bench: bench.expect(bench.path("late.db-wal").stat().st_size > 41, "it holds nothing")),
    done("a report of the file that wasn't shut", "report --db late.db --faction 1 --pass pw", REPORT),
    holds("late.db", "SELECT text FROM mail", WORKING),
    Do("a hard link", link_file),
    fails("a report of a file with two names", f"report {FIRST}", "fault: Store"),
    fails("a report of its second name", "report --db second.db --faction 1 --pass pw", "fault: Store"),
    Do("the link goes", lambda bench: bench.path("second.db").unlink()),
    done("a report of a file with one name again", f"report {FIRST}", REPORT),
    done("the longest name", f"found --world small.toml --db {LONGEST} --pass gm", FOUNDED),
    fails("a longer name", f"found --world small.toml --db {LONGEST}x --pass gm", "fault: Store"),
]


def connect(port: int) -> bool:
    with socket.socket() as client:
        return client.connect_ex((HOST, port)) == 0


def hold_port(bench: Bench) -> None:
    """One program holds a port until two connections were served; the first shows that it does."""
    port = free_port()
    words = shlex.split(f"serve --db isle.db --port {port} --count 2 --seed 0")
    holder = subprocess.Popen([PROGRAM, *words], cwd=bench.folder, stdout=subprocess.PIPE, stderr=subprocess.STDOUT)
    while not connect(port) and holder.poll() is None:
        time.sleep(0.1)
    refused("", f"serve --db small.db --port {port} --count 1 --seed 0", "fault: Net").take(bench)
    fails("", "books --db isle.db", "fault: Store").take(bench)
    connect(port)
    output = holder.communicate(timeout=60)[0]
    bench.expect((holder.returncode, output) == (0, b""), f"status {holder.returncode}, {output!r}")


def bind_without_memory(bench: Bench) -> None:
    if not shutil.which("strace"):
        print("program: without strace a port without memory was passed over")
        return
    words = shlex.split("strace -f -o trace -e inject=bind:error=ENOMEM")
    call = shlex.split("serve --db small.db --port 0 --count 0 --seed 0")
    ended = subprocess.run([*words, PROGRAM, *call], cwd=bench.folder, capture_output=True)
    told = (ended.returncode, ended.stdout, ended.stderr)
    bench.expect(told == (1, b"", b"fault: Memory\n"), f"{told}")


PORTS: list[Step] = [
    Do("a port that is held, and a file that is", hold_port),
    Do("a port without memory", bind_without_memory),
    done("no connections", "serve --db small.db --port 0 --count 0 --seed 0", ""),
]

NUMBER = "' for '--faction <N>': invalid digit found in string\n"

BAD_LINES: list[Step] = [
    misused("no subcommand", ""),
    misused("an unknown subcommand", "sail"),
    misused("an unknown option", "trial --seed 1"),
    misused("an unknown option of a file", f"report {FIRST} --month 1"),
    misused("an upgrade without a world", "upgrade --db small.db"),
    misused("an option that lacks", "report --db small.db --faction 1"),
    misused("another option that lacks", "found --world small.toml --pass gm"),
    misused("an option without a value", "report --db small.db --faction 1 --pass"),
    misused("an option in the place of a value", "report --db small.db --faction --pass pw"),
    misused("an option twice", "report --db small.db --faction 1 --faction 1 --pass pw"),
    misused("a word without an option", f"report {FIRST} more"),
    misused("a number that is no number", "report --db small.db --faction one --pass pw"),
    misused("a number below 0", "report --db small.db --faction=-1 --pass pw"),
    misused("a number past its range on the line", "report --db small.db --faction 4294967296 --pass pw"),
    fails("the greatest number", "report --db small.db --faction 4294967295 --pass pw", "refused: 5 NoFaction"),
    misused("a port past its range", "serve --db small.db --port 65536 --count 0 --seed 0"),
    misused("a seed past its range", "join --db small.db --name Bree --pass pb --seed 18446744073709551616"),
    misused("a word that is no text", ("report", "--db", "small.db", "--faction", "1", "--pass", b"\xff"),
            "error: word 7 is not UTF-8\n"),
    misused("a first word that is no text", (b"re\x80port", "--pass", b"\xff"), "error: word 1 is not UTF-8\n"),
    misused("ESC in a subcommand", ("sa\x1b[2Jil",), "error: unrecognized subcommand 'sa\\u{1b}[2Jil'\n"),
    misused("BEL in an option", ("report", "--mo\are", "1"), "error: unexpected argument '--mo\\u{7}re' found\n"),
    misused("U+009B in a word", ("report", "mo\x9bre"), "error: unexpected argument 'mo\\u{9b}re' found\n"),
    misused("DEL in a number", ("report", "--faction", "1\x7f"), f"error: invalid value '1\\u{{7f}}{NUMBER}"),
    misused("CR and LF in a number", ("report", "--faction", "1\r\nfault: Store"), f"error: invalid value '1\\r\\nfault: Store{NUMBER}"),
    *(misused(words, words) for words in ("help", "-h", "--help", "--version")),
]


def compare_helps(bench: Bench, name: str) -> None:
    """The help of a subcommand is the same in both places, and tells each option in words."""
    status, output, told = bench.call([name, "--help"])
    bench.expect((status, output) == (2, "") and told != "", f"status {status}")
    bench.expect(not any(line.rstrip().endswith(">") and line != line.rstrip() for line in told.splitlines()), "an option is not told in words")
    bench.expect(bench.call(["help", name]) == (status, output, told), "`help` tells another text")


NAMES = ("trial", "found", "join", "mail", "close", "report", "books", "serve", "upgrade")


def help_of(name: str) -> Do:
    return Do(f"help of {name}", lambda bench: compare_helps(bench, name))


STEPS: list[Step] = [
    *IN_MEMORY, *IN_A_FILE, *COPIES, *MONTHS, *MARKETS, *ISLANDS, *REFUSED, *FOUNDINGS, *SHORT, *UNREAD, *NO_FILE, *NO_DATABASE, *DAMAGED,
    *CHANGED, *ENCODINGS_AND_JOURNALS, *AROUND_THE_FILE, *PORTS, *BAD_LINES, *map(help_of, NAMES),
    Do("the file after all", lambda bench: bench.expect_whole("small.db")),
]


def main() -> int:
    signal.signal(signal.SIGXFSZ, signal.SIG_IGN)
    with tempfile.TemporaryDirectory() as folder:
        bench = Bench(Path(folder))
        os.chdir(folder)
        for name in ("small.toml", "isle.toml"):
            shutil.copy(TOP / "worlds" / name, bench.folder)
        for step in STEPS:
            bench.step = step.name
            step.take(bench)
    if bench.faults:
        return 1
    print("program: all as expected")
    return 0


if __name__ == "__main__":
    sys.dont_write_bytecode = True
    sys.exit(main())
