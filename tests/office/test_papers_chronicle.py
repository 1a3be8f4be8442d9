"""The chronicle: what it shows, what it keeps to itself, and what players can't do to it."""

import re
import shutil
import tempfile
import unittest
from contextlib import redirect_stderr
from io import StringIO
from pathlib import Path

from office.papers.chronicle import Secrecy, chronicle
from office.papers.command import main
from office.papers.history import Happened, gather, places
from office.papers.months import read_months
from office.papers.press import press_of
from tests.office.papers_club import Faction, make_months
from tests.office.test_papers_html import HOSTILE, seen


class Press(unittest.TestCase):
    def pieces(self, *lines: str) -> list[tuple[str, ...]]:
        return [piece.paragraphs for piece in press_of("\n".join(lines).encode("latin-1"))]

    def test_lines_one_after_another_are_one_piece(self) -> None:
        orders = ("#ATLANTIS 1", "; PRESS We sail", ";press: on Monday.", "WORK", "  ; Press Another.", "#END")
        self.assertEqual(self.pieces(*orders), [("We sail on Monday.",), ("Another.",)])

    def test_empty_line_of_press_begins_a_paragraph(self) -> None:
        self.assertEqual(self.pieces("#ATLANTIS 1", "; PRESS a", "; PRESS", "; PRESS b", "; PRESS"), [("a", "b")])
        self.assertEqual(self.pieces("#ATLANTIS 1", "; PRESS", ";PRESS  "), [])

    def test_only_inside_the_orders(self) -> None:
        mailing = ("; PRESS above", "x #ATLANTIS 1", ' "#atlantis" 1', "; PRESS in", "", "#END x", "; PRESS below")
        self.assertEqual(self.pieces(*mailing), [("in",)])

    def test_what_is_no_press(self) -> None:
        lines = ("; PRESSING", "WORK ; PRESS x", "PRESS x", ";; PRESS x", '"; PRESS x"')
        self.assertEqual(self.pieces("#ATLANTIS 1", *lines), [])

    def test_carriage_returns_and_other_bytes(self) -> None:
        mailing = b"#ATLANTIS 1\r\n; PRESS caf\xc3\xa9\r\n; PRESS au\x07 lait\r\n#END\r\n"
        self.assertEqual([it.paragraphs for it in press_of(mailing)], [("caf?? au? lait",)])


class Chronicle(unittest.TestCase):
    def setUp(self) -> None:
        self.months = Path(tempfile.mkdtemp())
        self.addCleanup(shutil.rmtree, self.months)

    def page(self, *factions: Faction, secrecy: Secrecy = Secrecy.PUBLIC) -> str:
        make_months(self.months, factions)
        return chronicle(gather(read_months(self.months, len(factions[0].people))), secrecy, "")

    def test_places(self) -> None:
        self.assertEqual(places({1: 5, 2: 9, 3: 5, 4: 1}), {2: 1, 1: 2, 3: 2, 4: 4})

    def test_who_came_and_fell(self) -> None:
        avalon = Faction("Avalon", 6, [5, 6, 7], [1, 1, 1], shown={3: "Avalon the Green"})
        bree, rohan = Faction("Bree", 9, [4, 0, 0], [0, 0, 0]), Faction("Rohan", 9, [0, 2, 2], [9, 9, 9], joins=2)
        make_months(self.months, [avalon, bree, rohan])
        history = gather(read_months(self.months, 3))
        listed = [it for chapter in history.chapters for it in chapter.changes]
        changes = [(it.month, it.name, it.happened, it.before) for it in listed]
        self.assertEqual(changes, [
            (1, "Avalon", Happened.JOINED, ""), (1, "Bree", Happened.JOINED, ""), (2, "Bree", Happened.STARVED, ""),
            (2, "Rohan", Happened.JOINED, ""), (3, "Avalon the Green", Happened.RENAMED, "Avalon"),
        ])

    def test_months_before_were_not_kept(self) -> None:
        make_months(self.months, [Faction("Avalon", 6, [5, 6], [1, 1]), Faction("Bree", 9, [4, 0], [0, 0])])
        shutil.rmtree(self.months / "1")
        history = gather(read_months(self.months, 2))
        self.assertEqual([it.happened for it in history.last.changes], [Happened.STARVED])

    def test_public_page_keeps_what_is_secret(self) -> None:
        factions = (Faction("Avalon", 6, [71, 73], [53211, 53217]), Faction("Bree", 9, [67, 79], [41957, 41959]))
        public = seen(self.page(*factions)).text
        secret = ("53,217", "41,959", "53,211", "Unit 1", "73", "79")
        for words in secret:
            self.assertNotIn(words, public)
        self.assertIn("Avalon", public)
        shown = seen(chronicle(gather(read_months(self.months, 2)), Secrecy.OPEN, "")).text
        for words in ("53,217", "41,959", "Unit 1", "73", "79"):
            self.assertIn(words, shown)

    def test_books_month_by_month(self) -> None:
        text = seen(self.page(Faction("Avalon", 6, [5, 6, 7], [1000, 1100, 1300]))).text
        self.assertIn("1,300", text)
        page = self.page_rows("wood")
        self.assertEqual(page, ["10", "", "", "", "30"])

    def page_rows(self, heading: str) -> list[str]:
        """The cells of the first row with this heading: four flows of the last month, and the total."""
        page = chronicle(gather(read_months(self.months, 3)), Secrecy.PUBLIC, "").replace("\n", "")
        rows = re.findall(rf'<tr><th scope="row" class="t">{heading}</th>(.*?)</tr>', page)
        return re.findall(r'<td class="n">(.*?)</td>', rows[0])

    def test_stock_is_that_of_the_reports(self) -> None:
        page = self.page(Faction("Avalon", 6, [5, 6, 7], [1, 1, 1]), secrecy=Secrecy.OPEN)
        self.assertIn("<title>wood: 3</title>", page)
        form = r'<tr><th scope="row" class="t">6 Port</th><td class="t">wood</td>(.*?)</tr>'
        row = re.search(form, page.replace("\n", ""))
        assert row
        self.assertEqual(re.findall(r'>([^<]+)</td>', row[1]), ["20", "8", "60", "20", "3", "3"])

    def test_hostile_names_and_press(self) -> None:
        lines = [text.encode("ascii", "replace").replace(b"\n", b" ") for text in HOSTILE]
        mail = b"#ATLANTIS 1\n" + b"".join(b"; PRESS " + line + b"\n" for line in lines)
        names = [text.replace('"', "'")[:40] for text in HOSTILE if text.isprintable()]
        factions = [Faction(name, 6, [9 + place], [8], {1: mail}) for place, name in enumerate(names)]
        for secrecy in Secrecy:
            shutil.rmtree(self.months)
            page = seen(self.page(*factions, secrecy=secrecy))
            self.assertNotIn("script", page.elements)
            self.assertFalse([key for key, _ in page.attributes if key.startswith("on")])
            self.assertNotIn("src", dict(page.attributes))
            for name in names:
                self.assertIn(name, page.text)
            self.assertIn("alert(1)", page.text)

    def test_one_month_of_two_factions(self) -> None:
        page = seen(self.page(Faction("Avalon", 6, [1], [2000]), Faction("Bree", 9, [1], [2000])))
        self.assertIn("2 factions are in the game.", page.text)
        self.assertIn("Most people: Avalon and Bree.", page.text)

    def test_nobody_is_left(self) -> None:
        text = seen(self.page(Faction("Avalon", 6, [1, 0], [2000, 0]))).text
        self.assertIn("No faction is in the game.", text)

    def test_many_factions(self) -> None:
        factions = [Faction(f"Faction {number}", 9, [number] * 2, [number] * 2) for number in range(1, 41)]
        page = self.page(*factions)
        self.assertIn("the first 8 of 40", page)

    def test_command(self) -> None:
        make_months(self.months, [Faction("Avalon", 6, [1, 2], [3, 4])])
        out = self.months / "chronicle.html"
        self.assertEqual(main(["chronicle", "--months", str(self.months), "--out", str(out)]), 0)
        self.assertIn("Chronicle of month 2", out.read_text())
        with redirect_stderr(StringIO()) as errors:
            self.assertEqual(main(["chronicle", "--months", str(self.months), "--month", "3", "--out", str(out)]), 1)
        self.assertIn("has no month 3: it has the months 1 to 2", errors.getvalue())


if __name__ == "__main__":
    unittest.main()
