"""Mailings that a player tries before sending them."""

from __future__ import annotations

import io
import sys
import unittest
from pathlib import Path
from unittest.mock import patch

from office import texts
from office.closing.check import MOST_BYTES, check, with_first_faction
from office.errors import OfficeError
from office.orders.faults import LineFault, Refusal
from tests.office.closing_tools import ISLE, TemporaryFolder, needs_program, say_nothing


def sentence(fault: LineFault) -> str:
    text = texts.FAULTS[fault]
    return "    " + text[0].upper() + text[1:]


# an answer of one line: the line's number, the fault, and the line as it is shown
Shown = tuple[int, LineFault, str]


@needs_program
class Tried(TemporaryFolder):
    """What is said of a mailing."""

    def try_text(self, text: bytes, world: Path = ISLE) -> tuple[bool, list[str]]:
        mailing = self.work / "mailing"
        mailing.write_bytes(text)
        said: list[str] = []
        return check(world, mailing, said.append), said

    def expect(self, text: bytes, orders: int, *faults: Shown) -> None:
        lines = [f"{orders} orders, {len(faults)} faults"]
        for line, fault, shown in faults:
            name = fault.name.title().replace("_", "")
            lines += [f"line {line}: {fault.value} {name}", f"    {shown}", sentence(fault)]
        self.assertEqual(self.try_text(text), (not faults, lines))

    def test_no_fault(self) -> None:
        self.expect(b"Hello!\n#ATLANTIS 5\nUNIT 9\nWORK\n#END\nGAURD 1\n", 1)

    def test_faults(self) -> None:
        self.expect(b' #atlantis\t0012 my secret\r\nUNIT 12\r\nGIVE 5\r\nSTUDY "long  bow"\r\n'
                    b"\tWORK ; caf\303\251\r\nWORK", 1,
                    (3, LineFault.MISSING_WORD, "GIVE 5"), (4, LineFault.UNKNOWN_THING, 'STUDY "long  bow"'),
                    (5, LineFault.BAD_BYTE, "WORK ; caf??"))

    def test_each_other_fault(self) -> None:
        lines = ["#ATLANTIS 1", "WORK", "UNIT 1", "ATTACK 2", "GUARD 2", "FORM 0", "END", "FORM 7", "FORM 8", "END",
                 "END", "MOVE up", 'NAME UNIT ""']
        self.expect("\n".join(lines).encode(), 1,
                    (2, LineFault.NO_UNIT, "WORK"), (4, LineFault.UNKNOWN_ORDER, "ATTACK 2"),
                    (5, LineFault.BAD_NUMBER, "GUARD 2"), (6, LineFault.BAD_ALIAS, "FORM 0"),
                    (9, LineFault.NESTED_FORM, "FORM 8"), (11, LineFault.END_ALONE, "END"),
                    (12, LineFault.BAD_DIRECTION, "MOVE up"), (13, LineFault.BAD_NAME, 'NAME UNIT ""'))

    def test_refusals(self) -> None:
        for text, refusal, name in ((b"> #ATLANTIS 1\n> UNIT 1\n", Refusal.NO_HEADER, "NoHeader"),
                                    (b"#ATLANTIS 10000\nUNIT 1\n", Refusal.BAD_HEADER, "BadHeader"),
                                    (b"#ATLANTIS\n", Refusal.BAD_HEADER, "BadHeader"),
                                    (b"#ATLANTIS 1\n".ljust(65_537, b";"), Refusal.TOO_LONG, "TooLong"),
                                    (b"#ATLANTIS 9999\n".ljust(65_537, b";"), Refusal.TOO_LONG, "TooLong")):
            with self.subTest(name):
                self.assertEqual(self.try_text(text),
                                 (False, [f"refused: {refusal.value} {name}", texts.REFUSALS[refusal]]))

    def test_longest(self) -> None:
        self.assertEqual(self.try_text(b"#ATLANTIS 9999\n".ljust(65_536, b";")), (True, ["0 orders, 0 faults"]))

    def test_pipe(self) -> None:
        """Standard input is read once."""
        said: list[str] = []
        with patch.object(sys, "stdin", io.TextIOWrapper(io.BytesIO(b"#ATLANTIS 400\nUNIT 1\nWORK\n"))):
            self.assertTrue(check(ISLE, Path("-"), said.append))
        self.assertEqual(said, ["1 orders, 0 faults"])

    def test_files(self) -> None:
        world = self.work / "world"
        world.write_text("a = = b\n")
        for path, mailing, text in ((world, b"#ATLANTIS 1\n", "world: 1 NotToml"),
                                    (self.work / "nowhere", b"", "file: cannot read")):
            with self.assertRaises(OfficeError) as caught:
                self.try_text(mailing, path)
            self.assertEqual(caught.exception.text, text)
        with self.assertRaises(OfficeError) as caught:
            check(ISLE, self.work / "nowhere", say_nothing)
        self.assertEqual(caught.exception.text, f"{self.work / 'nowhere'} can't be read: No such file or directory")


class Header(unittest.TestCase):
    """The number on the header becomes 1, and no line or length changes."""

    def test_header(self) -> None:
        for text, expected in ((b"Hello\n#ATLANTIS 400 x\nUNIT 1\n", b"Hello\n#ATLANTIS 001 x\nUNIT 1\n"),
                               (b'  "#atlantis"\t"0012";\r\n', b'  "#atlantis"\t"0001";\r\n'),
                               (b"#ATLANTIS 1\n#ATLANTIS 2\n", b"#ATLANTIS 1\n#ATLANTIS 2\n"),
                               (b"#ATLANTIS 0\n", b"#ATLANTIS 0\n"), (b"#ATLANTIS x\n", b"#ATLANTIS x\n"),
                               (b"#ATLANTIS\n", b"#ATLANTIS\n"), (b"> #ATLANTIS 4\n", b"> #ATLANTIS 4\n"),
                               (b"\xef\xbb\xbf#ATLANTIS 4\n", b"\xef\xbb\xbf#ATLANTIS 4\n"), (b"", b"")):
            self.assertEqual(with_first_faction(text), expected)
            self.assertEqual(len(with_first_faction(text)), len(text))

    def test_bound(self) -> None:
        """By docs/RULES.md, "Mail"."""
        self.assertEqual(MOST_BYTES, 65_536)


if __name__ == "__main__":
    unittest.main()
