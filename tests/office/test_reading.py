"""The words of a line, and what a line does, by docs/RULES.md, "Reading a mailing"."""

import re
import unittest
from pathlib import Path

from office.orders.faults import LineFault
from office.orders.reading import VERBS, Role, Slot, Target, is_clean_order, read_line, read_orders
from office.orders.units import own_units, units_of_report
from office.orders.words import comment_of, number_of, words_of

PAGES = Path(__file__).resolve().parents[2] / "docs"


def texts_of(line: str) -> list[str]:
    return [word.text for word in words_of(line)]


def faults_of(text: str) -> dict[int, int]:
    return {reading.line: int(reading.fault) for reading in read_orders(text.split("\n"), 1) if reading.fault}


class Words(unittest.TestCase):
    def test_the_pages_example(self) -> None:
        words = words_of('2"long bow"4')
        self.assertEqual([(word.text, word.quoted) for word in words], [("2", False), ("long bow", True), ("4", False)])
        self.assertEqual([(word.start, word.end) for word in words], [(0, 1), (1, 11), (11, 12)])

    def test_splits(self) -> None:
        for line, words in (("", []), (" \t ", []), ("; x", []), ("a;b c", ["a"]), ('"a;b" c ; d', ["a;b", "c"]),
                            ('"a', ["a"]), ('""', [""]), ('a""b', ["a", "", "b"]),
                            ("a\tb", ["a", "b"]), ("a\u00a0b", ["a\u00a0b"]), ('"a"b"c', ["a", "b", "c"]),
                            ('a "b c', ["a", "b c"])):
            self.assertEqual(texts_of(line), words, line)

    def test_underscores(self) -> None:
        self.assertEqual([word.name for word in words_of('LONG_BOW "LONG_BOW"')], ["LONG BOW", "LONG_BOW"])

    def test_numbers(self) -> None:
        for text, number in (("0", 0), ("007", 7), ("999999999", 999_999_999), ("1000000000", None), ("", None),
                             ("-1", None), ("+1", None), ("1,000", None),
                             ("\u0661", None), ("\u00b2", None), ("0" * 9000 + "1", 1), ("9" * 9000, None),
                             ("1_0", None)):
            self.assertEqual(number_of(text), number, text[:20])

    def test_comments(self) -> None:
        for line, comment in (("WORK ; a", " a"), ("WORK", None), ('NAME UNIT "a;b"', None), ('"a;b";c;d', "c;d"),
                              (";", ""), ('"a ; b', None)):
            self.assertEqual(comment_of(line), comment, line)


class Verbs(unittest.TestCase):
    def test_keywords_are_those_of_the_page(self) -> None:
        page = (PAGES / "RULES.md").read_text()
        table = page[page.index("| order | form | example |"):page.index("`u` is a unit's number")]
        keywords = {word for row in table.strip().splitlines()[2:]
                    for word in re.findall(r"[A-Z]{3,}", row.split("|")[1])}
        self.assertEqual(keywords, set(VERBS))

    def test_card_has_each_form_of_a_line(self) -> None:
        """The card of the quick start has each keyword once, and says what it does in ten words or fewer."""
        page = (PAGES / "QUICKSTART.md").read_text()
        rows = re.findall(r"^\| ([^|]*) \|[^|]*\| ([^|]*) \|$", page[page.index("| order | then |"):], re.MULTILINE)[1:]
        keywords = [word for first, _ in rows for word in re.findall(r"[A-Z]{3,}", first)]
        self.assertEqual(sorted(keywords), sorted([*VERBS, "UNIT", "END"]))
        self.assertEqual([words for _, words in rows if len(words.split()) > 10], [])

    def test_slots_are_those_of_the_page(self) -> None:
        page = (PAGES / "RULES.md").read_text()
        months = re.search(r"\*\*Which orders count\.\*\*(.*?)are month-long", page, re.DOTALL)
        assert months
        month_long = set(re.findall(r"[A-Z]{3,}", months[1]))
        self.assertEqual({verb.keyword for verb in VERBS.values() if verb.slot is Slot.MONTH_LONG}, month_long)
        others = {keyword for keyword in re.findall(r"^\| ([A-Z]+) \| the last one", page, re.MULTILINE)}
        self.assertEqual({verb.keyword for verb in VERBS.values() if verb.slot and verb.slot is not Slot.MONTH_LONG},
                         others)


class Faults(unittest.TestCase):
    def test_the_pages_mailing_with_each_fault(self) -> None:
        page = (PAGES / "TUTORIAL.md").read_text()
        mailing, answer = re.findall(r"```(?:mailing|answer) 1\n(.*?)```",
                                     page[page.index("## Each fault of a line"):], re.DOTALL)[:2]
        expected = {int(line): int(fault) for line, fault in re.findall(r"line (\d+): (\d+)", answer)}
        readings = read_orders(mailing.splitlines()[1:-1], 2)
        # the world isn't known here, so `STUDY magic` is no fault
        del expected[6]
        self.assertEqual({reading.line: int(reading.fault) for reading in readings if reading.fault}, expected)

    def test_operands(self) -> None:
        for line, fault in (
            ("GUARD 0", 0), ("GUARD 1", 0), ("GUARD", 5), ("GUARD 2", 3), ("ENTER 4", 0), ("BOARD 0", 3), ("BOARD", 5),
            ("PROMOTE NEW 1", 0), ("PROMOTE NEW", 5),
            ("PROMOTE NEW x", 7), ("PROMOTE 10000", 0), ("PROMOTE NEW 10000", 7), ("GIVE 1 2 wood", 0), ("GIVE 1 2", 5),
            ("GIVE 1 wood 2", 3), ("PAY NEW 1 5", 0),
            ("PAY 5", 5), ("TRANSFER 5 0", 3), ("SELL 4 wood", 0), ("BUY wood 4", 3), ("SELL", 5),
            ("TEACH 4 5 NEW 1", 0), ("TEACH", 5), ("TEACH 4 NEW", 5), ("TEACH 4 x", 3),
            ("BUILD", 0), ("BUILD boat", 0), ("MOVE north", 0), ("MOVE n", 10), ("SAIL", 5), ("NAME UNIT a", 0),
            ("NAME ship _a", 11), ("NAME UNIT", 5), ("NAME HORSE a", 4),
            ('NAME FACTION ""', 11), ("NAME UNIT " + "a" * 40, 0), ("NAME UNIT " + "a" * 41, 11),
            ('NAME UNIT "a "', 11), ("RECRUIT 999999999", 0), ("RECRUIT 1000000000", 3),
            ("QUIT 1", 0), ("QUIT", 5), ("WORK ; \x7f", 6), ("W\u00d6RK", 6), ('"WORK"', 0), ("PROD wood", 2),
            ("#ATLANTIS 1", 2), ('"" WORK', 2), ("LEAVE now", 0), ("TAX", 0),
        ):
            self.assertEqual(faults_of("UNIT 1\n" + line), {2: fault} if fault else {}, line)

    def test_blocks_of_form(self) -> None:
        for text, faults in (
            ("UNIT 1\nFORM 1\nWORK\nEND\nEND", {5: 9}), ("FORM 1\nWORK\nEND\nWORK", {1: 1, 2: 1, 4: 1}),
            ("UNIT 1\nFORM 1\nFORM 2\nEND\nEND", {3: 8, 5: 9}),
            ("UNIT 1\nFORM 1\nEND\nFORM 1\nWORK\nEND\nWORK", {4: 7, 5: 1}),
            ("UNIT 1\nFORM\nWORK\nUNIT 2\nWORK\nEND", {2: 5, 3: 1, 6: 9}),
            ("UNIT\nWORK\nUNIT x\nWORK", {1: 5, 2: 1, 3: 3, 4: 1}),
            ("UNIT 1\nFORM 1 \u00e9\nWORK\nEND", {2: 6, 4: 9}),
        ):
            self.assertEqual(faults_of(text), faults, text)


class Targets(unittest.TestCase):
    def test_for_whom_a_line_is(self) -> None:
        text = "WORK\nUNIT 5\nWORK\nFORM 7\nTAX\nEND\nTAX\nFORM 8\nUNIT 6\nTAX"
        targets = {reading.line: reading.target for reading in read_orders(text.split("\n"), 1) if reading.target}
        self.assertEqual(targets, {3: Target(5), 4: Target(5), 5: Target(7, True), 7: Target(5), 8: Target(5),
                                   10: Target(6)})

    def test_the_programs_faults_decide(self) -> None:
        readings = read_orders(["UNIT 1", "FORM 1", "STUDY magic", "END", "STUDY magic"], 2,
                               {3: LineFault.BAD_ALIAS, 4: LineFault.NO_UNIT, 6: LineFault.UNKNOWN_THING})
        self.assertEqual([(reading.line, reading.is_order, reading.target) for reading in readings],
                         [(2, False, None), (3, False, Target(1)), (4, False, None), (5, False, None),
                          (6, False, Target(1))])


class CleanOrders(unittest.TestCase):
    def test_clean(self) -> None:
        for line in ("UNIT 5", "end", "WORK ; and more", "FORM 1", "GIVE NEW 1 5 long_bow", "TEACH 1 2 3", "BUILD",
                     "STUDY sailing"):
            self.assertTrue(is_clean_order(line), line)

    def test_not_clean(self) -> None:
        for line in ("", "; WORK", "Work 020 7946 0958", "Tax included.", "UNIT", "Best wishes", "UNIT 5 Guards",
                     "STUDY", "END of it", "WORK \u00e9"):
            self.assertFalse(is_clean_order(line), line)


class Reports(unittest.TestCase):
    def test_units_of_the_pages_report(self) -> None:
        page = (PAGES / "TUTORIAL.md").read_text()
        report = re.findall(r"```report 1\n(.*?)```", page, re.DOTALL)[1]
        units = units_of_report(report)
        assert units
        self.assertEqual((units.month, units.faction, units.own, units.others),
                         (1, 1, {1: "Guards of Far", 3: "Woodcutters"}, frozenset({2})))
        self.assertEqual(own_units(report), {1, 3})

    def test_no_report(self) -> None:
        self.assertIsNone(own_units("x\n* Unit 1 \"a\": 1 men.\n"))

    def test_operands_and_extra_words(self) -> None:
        for line, operands, extra in (("WORK now", "", "now"), ("UNIT 5 Guards of", "5", "Guards of"),
                                      ("END it", "", "it"),
                                      ("GIVE NEW 1 2 wood x", "NEW 1 2 wood", "x"), ("TEACH 1 NEW 2", "1 NEW 2", ""),
                                      ("BUILD", "", ""), ("BUILD boat y", "boat", "y"),
                                      ("NAME UNIT a b", "UNIT a", "b")):
            reading = read_line(line)
            self.assertEqual((" ".join(word.text for word in reading.operands),
                              " ".join(word.text for word in reading.extra)), (operands, extra), line)

    def test_read_line_alone(self) -> None:
        reading = read_line("PAY NEW 7 200 ; x", 4)
        self.assertEqual((reading.line, reading.role, [word.text for word in reading.operands], reading.extra),
                         (4, Role.ORDER, ["NEW", "7", "200"], ()))


if __name__ == "__main__":
    unittest.main()
