"""What the reply warns of."""

import re
import unittest
from collections.abc import Collection, Mapping
from pathlib import Path

from office.mail.blocks import find_blocks
from office.orders.faults import LineFault
from office.orders.warnings import MOST_WARNINGS, Warning, warn

PAGES = Path(__file__).resolve().parents[2] / "docs"
MAILING = re.compile(r"^```mailing \d+\n(.*?)^```", re.DOTALL | re.MULTILINE)


def warnings_of(text: str, own_units: Collection[int] | None = None,
                faults: Mapping[int, LineFault] | None = None) -> list[Warning]:
    """The warnings for orders below a header on line 1."""
    (block,) = find_blocks(["#ATLANTIS 1", *text.split("\n")])
    return warn(block, faults, own_units)


def texts_of(text: str, own_units: Collection[int] | None = None,
             faults: Mapping[int, LineFault] | None = None) -> list[str]:
    """The texts of the warnings for orders that end with #END."""
    return [warning.text for warning in warnings_of(text + "\n#END", own_units, faults)]


class Replaced(unittest.TestCase):
    def test_month_long(self) -> None:
        self.assertEqual(texts_of("UNIT 1\nSTUDY sailing\nTAX\nWORK\nMOVE north"), [
            "line 5 WORK replaces line 3 STUDY: unit 1 carries out one order that takes the month, the last.",
            "line 6 MOVE replaces line 5 WORK: unit 1 carries out one order that takes the month, the last."])

    def test_other_slots(self) -> None:
        for verb, rest in (("TAX", ""), ("RECRUIT", " 5"), ("SELL", " 4 wood"), ("BUY", " 2 iron")):
            self.assertEqual(texts_of(f"UNIT 1\n{verb}{rest}\nUNIT 01\n{verb}{rest}"),
                             [f"line 5 {verb} replaces line 3 {verb}: unit 1 carries out one {verb}, the last."])

    def test_new_units_by_their_numbers(self) -> None:
        self.assertEqual(texts_of("UNIT 1\nFORM 7\nWORK\nSTUDY sailing\nEND\nWORK"),
                         ["line 5 STUDY replaces line 4 WORK: the new unit of FORM 7 carries out one order that takes "
                          "the month, the last."])

    def test_orders_that_replace_nothing(self) -> None:
        for text in ("UNIT 1\nWORK\nUNIT 2\nWORK", "UNIT 1\nSELL 1 wood\nBUY 1 wood\nTAX\nRECRUIT 1\nWORK",
                     "UNIT 1\nGIVE 2 5 wood\nGIVE 2 5 wood", "UNIT 1\nWORK\nFORM 1\nWORK\nEND",
                     "WORK\nWORK", "UNIT 1\nMOVE up\nWORK", "UNIT 1\nFORM 1\nEND\nFORM 1\nTAX\nTAX\nEND"):
            self.assertEqual(texts_of(text), [], text)

    def test_a_line_with_a_fault_of_the_program_is_no_order(self) -> None:
        self.assertEqual(texts_of("UNIT 1\nSTUDY magic\nWORK", faults={3: LineFault.UNKNOWN_THING}), [])
        self.assertEqual(len(texts_of("UNIT 1\nSTUDY magic\nWORK", faults={})), 1)


class ExtraWords(unittest.TestCase):
    def test_words_after_the_orders_own(self) -> None:
        self.assertEqual(texts_of("UNIT 1 Smiths\nWork 020 \"7946 0958\" ; x\nTEACH 1 2 3\nBUILD boat now\nFORM 2 x\n"
                                  "END of it"), [
            "line 2 UNIT: the program passes over `Smiths`.", 'line 3 WORK: the program passes over `020 "7946 0958"`.',
            "line 4 TEACH replaces line 3 WORK: unit 1 carries out one order that takes the month, the last.",
            "line 5 BUILD replaces line 4 TEACH: unit 1 carries out one order that takes the month, the last.",
            "line 5 BUILD: the program passes over `now`.",
            "line 6 FORM: the program passes over `x`.", "line 7 END: the program passes over `of it`."])

    def test_long_words_are_cut(self) -> None:
        (text,) = texts_of("UNIT 1\nWORK " + "x" * 500)
        self.assertEqual(text, f"line 3 WORK: the program passes over `{'x' * 60} ..`.")


class WrappedComments(unittest.TestCase):
    def test_rest_of_a_comment(self) -> None:
        self.assertIn("line 4 WORK may be the rest of the comment in line 3, which your mail program broke in two. It "
                      "counts as an order.",
                      texts_of("UNIT 1\nSTUDY sailing ; and then we\nWORK or build"))
        self.assertIn("line 4 WORK may be the rest of the comment in line 3, which your mail program broke in two. It "
                      "counts as an order.",
                      texts_of("UNIT 1\nPAY 5 100 ; " + "x" * 56 + "\nWORK"))

    def test_comments_that_are_whole(self) -> None:
        for text in ("UNIT 1\nPAY 5 100 ; for boots\nWORK", "UNIT 1\nPAY 5 100 ; " + "x" * 57 + "\n  WORK",
                     "UNIT 1\nPAY 5 100 ;\nWORK", "UNIT 1\nPAY 5 100 ; " + "x" * 55 + "\nWORK",
                     "UNIT 1\nNAME UNIT \"a;" + "x" * 50 + "\nWORK"):
            self.assertEqual([line for line in texts_of(text) if "rest of the comment" in line], [], text)


class Forms(unittest.TestCase):
    def test_without_end(self) -> None:
        self.assertEqual(texts_of("UNIT 1\nFORM 7\nRECRUIT 5\n\nPAY 5 100\n\n\nUNIT 2\nWORK"),
                         ["line 3 FORM has no END: lines 4 to 6 are for the new unit."])
        self.assertEqual(texts_of("UNIT 1\nFORM 7\nRECRUIT 5"), ["line 3 FORM has no END: line 4 is for the new unit."])
        self.assertEqual(texts_of("UNIT 1\nFORM 7"), ["line 3 FORM has no END."])

    def test_with_end(self) -> None:
        self.assertEqual(texts_of("UNIT 1\nFORM 7\nRECRUIT 5\nEND\nFORM 8\nEND"), [])

    def test_new_without_form(self) -> None:
        self.assertEqual(texts_of("UNIT 1\nPAY NEW 7 5\nTEACH 3 NEW 8 NEW 8\nFORM 7\nEND\nNAME UNIT NEW"),
                         ["line 4 names NEW 8, but this mailing has no FORM 8."])


class Units(unittest.TestCase):
    def test_not_in_the_report(self) -> None:
        self.assertEqual(texts_of("UNIT 57\nWORK\nUNIT 57\nTAX\nUNIT 1\nWORK", [1]),
                         ["line 2 UNIT 57: your last report has no unit 57 of yours."])
        self.assertEqual(texts_of("UNIT 57\nWORK"), [])

    def test_without_orders(self) -> None:
        self.assertEqual(texts_of("UNIT 1\nWORK\nUNIT 3", [1, 2, 3]),
                         ["units 2 and 3 have no order. Their people work for wages."])
        self.assertEqual(texts_of("UNIT 1\nWORK", [1, 2]), ["unit 2 has no order. Its people work for wages."])
        self.assertEqual(texts_of("UNIT 1\nWORK", range(1, 14)),
                         ["units 2, 3, 4, 5, 6, 7, 8, 9, 10, 11 and 2 more have no order. "
                          "Their people work for wages."])
        self.assertEqual(texts_of("UNIT 1\nWORK", []), ["line 2 UNIT 1: your last report has no unit 1 of yours."])


class Whole(unittest.TestCase):
    def test_quit(self) -> None:
        self.assertEqual(texts_of("UNIT 1\nQUIT 1"),
                         ["line 3 QUIT takes your whole faction out of the game when the month is closed."])
        self.assertEqual(texts_of("QUIT 1"), [])

    def test_orders_below_end(self) -> None:
        found = [warning.text for warning in warnings_of("UNIT 1\nWORK\n#END\n\nTAX\nWORK")]
        self.assertEqual(found, ["line 6 reads as an order, but it is below #END, so it was not read."])

    def test_no_end(self) -> None:
        for text, words in (("UNIT 1\nWORK", "there is no line #END. Write it"),
                            ("UNIT 1\nWORK\n\nBest wishes", "a signature or a letter"),
                            ("UNIT 1\nWORK\n> x", "text of another message")):
            (warning,) = warnings_of(text)
            self.assertEqual((warning.line, words in warning.text), (0, True), text)

    def test_no_warning_for_the_mailings_that_beginners_copy(self) -> None:
        for page, end in (("QUICKSTART.md", "## All orders on one card"), ("TUTORIAL.md", "## Every order in one mailing")):
            shown, found, _ = (PAGES / page).read_text().partition(f"\n{end}\n")
            mailings = MAILING.findall(shown)
            self.assertTrue(found and mailings, page)
            for mailing in mailings:
                (block,) = find_blocks(mailing.split("\n"))
                self.assertEqual(warn(block, None, None), [], f"{page}: {mailing}")

    def test_they_are_bounded(self) -> None:
        found = warnings_of("UNIT 1\n" + "WORK\n" * 5000 + "#END")
        self.assertEqual(len(found), MOST_WARNINGS + 1)
        self.assertEqual(found[-1].text, f"and {5000 - 1 - MOST_WARNINGS} more like these.")


if __name__ == "__main__":
    unittest.main()
