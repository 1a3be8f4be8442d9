#!/usr/bin/env python3
"""Compares the office's reading of mailings with the program's, on a scratch campaign. Called as

    tests/office/beside_program.py [COUNT] [SEED]

For COUNT random texts it compares the faulty lines, the number of orders, which line is the header, where the block
ends, and, once the month is closed, which orders a later one has replaced. The program is $GM, or the one that `gm`
runs; without it the script says so, and ends with status 0."""

from __future__ import annotations

import http.client
import json
import random
import re
import subprocess
import sys
import tempfile
import time
from dataclasses import dataclass
from pathlib import Path

ROOT = Path(__file__).resolve().parents[2]
sys.dont_write_bytecode = True
sys.path.insert(0, str(ROOT))

from office.club.program import find_program  # noqa: E402
from office.errors import OfficeError  # noqa: E402
from office.mail.blocks import Block, Ended, find_blocks  # noqa: E402
from office.orders.faults import LineFault  # noqa: E402
from office.orders.reading import VERBS, read_orders  # noqa: E402
from office.orders.warnings import warn  # noqa: E402
from tests.tools.ports import free_port  # noqa: E402

WORLD = ROOT / "worlds" / "coast.toml"
PASS = "scratch"
# the first unit never starves: it has money for all months, and less than the largest number of an order
ENOUGH_MONEY = 999_999_990
DEFAULT_COUNT = 200
SECONDS = 60
# in the world, but for the last three
THINGS = ("wood", "IRON", "tool", "lumberjack", "sailing", "boat", "lodge", "magic", "long_bow", '"wood')
UNITS = ("1", "2", "500", "501", "0500", "NEW 1", "NEW 2")
NUMBERS = ("0", "1", "2", "5", "9999", "10000", "999999999", "1000000000", "x", "-1", "1,000", "+1", '"3"')
# nobody is sent over, so that the first unit stays
PEOPLE = ("0", "999999999", "1000000000", "x")
NAMES = ("UNIT a", "unit Guards_of_Far", 'SHIP "Sea Lion"', "FACTION _x", 'BUILDING ""', "HORSE a", "UNIT")
NOISE = ("", "; and more", "now", '"', ";", "\t", "\u00e9", "\x7f", "WORK", "_", "#END", "1 2 3", '""')
# a unit of the faction, and two that aren't there
OWN_AND_OTHER = ("1", "1", "500", "501")
GOOD = ("TAX", "RECRUIT 1", "RECRUIT 2", "SELL 4 wood", "SELL 1 iron", "BUY 2 wood", "BUY 1 iron", "WORK",
        "STUDY sailing",
        "PRODUCE wood", "BUILD boat", "BUILD", "TEACH 1 NEW 1", "MOVE north", "SAIL west", "GIVE 1 1 wood",
        "PAY NEW 1 5",
        "GUARD 1", "GUARD 0", "NAME UNIT a", "ENTER 1", "LEAVE", "PROMOTE 1", "tax ; twice")
LETTERS = ("Dear moderator,", "", "Best wishes", "#ATLANTI 1", "#ATLANTIS1", "x #ATLANTIS 1", "\u00e9\u00e8",
           "# ATLANTIS 1", ";#ATLANTIS 2", "WORK", "\"#ATLANTIS\u00e9\" 1")
HEADERS = ("#ATLANTIS 1", "#atlantis 0001 x", '"#ATLANTIS"1', "\t #Atlantis\t1;", '#ATLANTIS "1" "y z"',
           "#ATLANTIS 1 \u00e9", "#ATLANTIS +1", "#ATLANTIS", "#ATLANTIS 10000", "#ATLANTIS 0")
# a month is closed for one of so many texts, since that takes the most time
TEXTS_OF_A_MONTH = 4
ENDS = ("#END", " #end of all", '"#END"', "#END;", "#END \u00e9", '#end"')


@dataclass(frozen=True)
class Answer:
    """What the program answers: a refusal by its name, or the number of orders and the faulty lines."""

    refusal: str
    orders: int
    faults: dict[int, int]


class Served:
    """A served campaign with one faction, which `with` ends."""

    def __init__(self, program: str, folder: str) -> None:
        self.db = str(Path(folder) / "scratch.db")
        world = Path(folder) / "rich.toml"
        world.write_text(re.sub(r"start_money = \d+", f"start_money = {ENOUGH_MONEY}", WORLD.read_text()))
        found = [program, "found", "--world", str(world), "--db", self.db, "--pass", PASS]
        subprocess.run(found, check=True, stdout=subprocess.DEVNULL)
        self.port = free_port()
        serve = [program, "serve", "--db", self.db, "--port", str(self.port), "--count", "1000000", "--seed", "1"]
        self.process = subprocess.Popen(serve)

    def __enter__(self) -> Served:
        end = time.monotonic() + SECONDS
        while True:
            try:
                self.ask("POST", "/join", json.dumps({"name": "A", "pass": PASS}).encode())
                return self
            except OSError:
                if time.monotonic() > end or self.process.poll() is not None:
                    raise
                time.sleep(0.1)

    def __exit__(self, *_: object) -> None:
        self.process.terminate()
        self.process.wait()

    def ask(self, method: str, path: str, body: bytes = b"") -> str:
        connection = http.client.HTTPConnection("127.0.0.1", self.port, timeout=SECONDS)
        try:
            connection.request(method, path, body, {"Atlantis-Pass": PASS})
            return connection.getresponse().read().decode()
        finally:
            connection.close()

    def month(self) -> int:
        """The month last closed."""
        return int(re.findall(r"month (\d+)", self.ask("GET", "/report/1"))[0])

    def mail(self, text: bytes) -> Answer:
        answer = json.loads(self.ask("POST", "/orders/1", text))
        return Answer(answer.get("error", ""), answer.get("orders", 0), dict(answer.get("faults", ())))


def random_line(dice: random.Random) -> str:
    """A line that is mostly an order."""
    verb = dice.choice([*VERBS, *VERBS, "UNIT", "UNIT", "UNIT", "END", "END", "FORM", "PROD", ""])
    if verb == "QUIT":
        return "QUIT 2"
    pools = {
        "NAME": (NAMES,),
        "MOVE": (("north", "up", "West"),),
        "SAIL": (("south", "EAST"),),
        "GUARD": (NUMBERS[:3],),
        "UNIT": (UNITS[:5] + NUMBERS[-5:],),
        "FORM": (("1", "2", "3", "4", *NUMBERS),),
        "TRANSFER": (UNITS, PEOPLE),
    }.get(verb, (UNITS, NUMBERS, THINGS))
    words = [verb, *(dice.choice(pool) for pool in pools)]
    if verb in ("STUDY", "PRODUCE", "BUILD", "SELL", "BUY", "RECRUIT", "ENTER", "BOARD"):
        del words[1:1 + (1 if verb in ("SELL", "BUY", "RECRUIT", "ENTER", "BOARD") else 2)]
    if dice.random() < 0.15:
        del words[dice.randrange(len(words)):]
    if dice.random() < 0.2:
        words.append(dice.choice(NOISE))
    line = dice.choice((" ", " ", "  ", "\t")).join(words)
    return dice.choice(("", "", "", " ", "\t")) + (line.lower() if dice.random() < 0.2 else line)


def random_text(dice: random.Random) -> str:
    """A text with a header, mostly for faction 1, and a line #END."""
    letter = [dice.choice(LETTERS) for _ in range(dice.randrange(4))]
    header = HEADERS[0] if dice.random() < 0.5 else dice.choice(HEADERS)
    first = ["UNIT 1"] if dice.random() < 0.8 else []
    orders = [random_line(dice) for _ in range(dice.randrange(25))]
    below = [random_line(dice) for _ in range(dice.randrange(3))]
    return "\n".join([*letter, header, *first, *orders, dice.choice(ENDS), *below])


def random_month(dice: random.Random) -> str:
    """A mailing of good lines, in which orders replace others."""
    lines = ["#ATLANTIS 1"]
    for alias in range(1, dice.randrange(2, 5)):
        lines += [f"UNIT {dice.choice(OWN_AND_OTHER)}", *dice.choices(GOOD, k=dice.randrange(6))]
        lines += ["UNIT 1", f"FORM {alias}", *dice.choices(GOOD, k=dice.randrange(6)),
                  dice.choice(("END", "END", "; open"))]
        lines += dice.choices(GOOD, k=dice.randrange(6))
    return "\n".join([*lines, "#END"])


def compare_reading(block: Block, answer: Answer) -> list[str]:
    """How the office's reading of a block's lines differs from the program's answer."""
    own = read_orders(block.orders, block.first_line + 1)
    # the office knows no world: an item that isn't there, and what follows from it, is for the program to say
    worldly = {line for line, fault in answer.faults.items() if fault == LineFault.UNKNOWN_THING}
    found = {reading.line: int(reading.fault) for reading in own if reading.fault and reading.line not in worldly}
    expected = {line: fault for line, fault in answer.faults.items() if line not in worldly or line in found}
    differences = [] if found == expected else [f"faults {found} and not {expected}"]
    known = {line: LineFault(fault) for line, fault in answer.faults.items()}
    orders = sum(reading.is_order for reading in read_orders(block.orders, block.first_line + 1, known))
    return differences + ([] if orders == answer.orders else [f"{orders} orders and not {answer.orders}"])


def compare_replaced(block: Block, answer: Answer, report: str) -> list[str]:
    """How the orders that the office says are replaced differ from those that the report leaves out."""
    known = {line: LineFault(fault) for line, fault in answer.faults.items()}
    carried_out = {int(line) for line in re.findall(r"^Unit \d+, line (\d+), ", report, re.MULTILINE)}
    orders = {reading.line for reading in read_orders(block.orders, block.first_line + 1, known) if reading.is_order}
    warned = {int(line) for warning in warn(block, known, None)
              for line in re.findall(r"replaces line (\d+) ", warning.text)}
    replaced = orders - carried_out
    return [] if replaced == warned else [f"replaced {sorted(warned)} and not {sorted(replaced)}"]


def compare(campaign: Served, text: str, month: int) -> list[str]:
    """What differs for one text. If the program takes it, and `month` isn't 0, this month is closed."""
    raw = campaign.mail(text.encode())
    (block, *_) = find_blocks(text.split("\n"))
    answer = campaign.mail(block.mailing())
    if raw != answer:
        return [f"the text gives {raw}, and the block {answer}"]
    if (raw.refusal == "BadHeader") != (block.faction is None) or not raw.refusal and block.faction != 1:
        return [f"faction {block.faction}, and the program answers {raw}"]
    if block.ended is not Ended.END:
        return [f"the block ended by {block.ended}"]
    if raw.refusal:
        return []
    differences = compare_reading(block, answer)
    if not month:
        return differences
    campaign.ask("POST", f"/close/{month}")
    return differences + compare_replaced(block, answer, campaign.ask("GET", "/report/1"))


def main(words: list[str]) -> int:
    try:
        program = str(find_program())
    except OfficeError as error:
        print(f"beside_program: skipped, since there is no program: {error.text}")
        return 0
    count, seed = (int(word) for word in (words + [str(DEFAULT_COUNT), "1"][len(words):])[:2])
    different = 0
    with tempfile.TemporaryDirectory() as folder, Served(program, folder) as campaign:
        for case in range(count):
            dice = random.Random(seed * 1_000_000 + case)
            is_month = case % TEXTS_OF_A_MONTH == 0
            text = random_month(dice) if is_month else random_text(dice)
            differences = compare(campaign, text, campaign.month() + 1 if is_month else 0)
            if differences:
                different += 1
                print(f"case {case}: {'; '.join(differences)}\n{text!r}")
        print(f"beside_program: {count} texts, {campaign.month()} months, {different} differ")
    return 1 if different else 0


if __name__ == "__main__":
    sys.exit(main(sys.argv[1:]))
