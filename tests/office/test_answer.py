"""The reply to a mailing, and the words that it uses."""

import re
import unittest
from pathlib import Path

from office import texts
from office.mail.blocks import Block, find_blocks
from office.mail.notes import Change, Note
from office.orders.answer import WIDTH, Previous, Taken, reply
from office.orders.faults import LineFault, Refusal, program_name
from office.orders.shown import shown

WHOLE = """\
Your mailing for month 5 was taken. Faction 1: 2 orders, 1 line with a
fault, 1 warning.
This replaces your mailing of Mon 2026-11-02 19:12: 12 orders, now 2.
Nothing of that one counts.
The program could not read the lines with ^^ below them.
Correct them and send the whole mailing again until Fri 2026-11-06 20:00. It
replaces this one completely.

These lines were taken, with the numbers that they have in your mail:

    1  #ATLANTIS 1 (your pass text is not shown)
    2  UNIT 1
    3  GAURD 1
       ^^ 2 UnknownOrder: the first word is no order, or isn't written
          whole.
    4  TAX
    5  WORK

These lines were left out:

    Bye
    Tax included.

Look at these. They may be what you mean:

- There is no line #END, so your orders end at what looks like a signature
  or a letter. Write #END below your last order: all lines above it are
  read, and none below it.

What was changed or left out on the way:

- Curly quotes became " and ' (line 4).
- Your mail has its orders in HTML alone. They were taken from there. Better
  send plain text.
"""
PAGES = Path(__file__).resolve().parents[2] / "docs"


def block_of(text: str) -> Block:
    return find_blocks(text.split("\n"))[0]


def reply_to(text: str, faults: tuple[tuple[int, int], ...] = (), **more: object) -> str:
    return reply(Taken(month=5, faction=1, block=block_of(text), orders=2, faults=faults,
                       **more)).text  # type: ignore[arg-type]


class Pages(unittest.TestCase):
    """Numbers and names are those of docs/."""

    def rows(self, page: str, begin: str) -> dict[int, str]:
        text = (PAGES / page).read_text()
        text = text[text.index(begin):]
        table = text[text.index("\n|"):]
        return {int(number): name for number, name in re.findall(r"^\| (\d+) \| (\w+) \|", table[:table.index("\n\n")],
            re.MULTILINE)}

    def test_faults(self) -> None:
        self.assertEqual(self.rows("PLAYER.md", "\n## The answer\n"),
                         {int(fault): program_name(fault) for fault in LineFault})

    def test_refusals(self) -> None:
        own = {int(refusal): program_name(refusal) for refusal in Refusal}
        self.assertEqual(self.rows("MODERATOR.md", "### Refusals"), own)
        self.assertEqual(self.rows("PLAYER.md", "These are the refusals:"),
                         {number: own[number] for number in range(5, 12)})

    def test_each_has_its_words(self) -> None:
        self.assertEqual(set(texts.FAULTS), set(LineFault))
        self.assertEqual(set(texts.REFUSALS), set(Refusal))
        self.assertEqual(set(texts.CHANGES), set(Change))


class Replies(unittest.TestCase):
    def test_a_mailing_without_fault(self) -> None:
        self.assertEqual(reply_to("Hello\n\n#ATLANTIS 1\nUNIT 1\n\n  TAX\nWORK\n#END\nBye"), """\
Your mailing for month 5 was taken. Faction 1: 2 orders.
You may send another mailing until the month is closed. It replaces this one
completely.

These lines were taken, with the numbers that they have in your mail:

    3  #ATLANTIS 1
    4  UNIT 1
    5
    6    TAX
    7  WORK
    8  #END
""")

    def test_faults_and_all_the_rest(self) -> None:
        text = reply_to("#ATLANTIS 1 s3cret\nUNIT 1\nGAURD 1\nTAX\nWORK\n\nBye\nTax included.", ((3, 2),),
                        notes=(Note(Change.QUOTES, (4, 7)), Note(Change.DASHES, (7,)), Note(Change.HTML)),
                        own_units=frozenset({1}), previous=Previous("Mon 2026-11-02 19:12", 12),
                        deadline="Fri 2026-11-06 20:00")
        self.assertEqual(text, WHOLE)

    def test_no_line(self) -> None:
        self.assertIn("nothing was ordered", reply_to("#ATLANTIS 1"))

    def test_a_fault_that_the_office_does_not_know(self) -> None:
        self.assertIn("^^ 99", reply_to("#ATLANTIS 1\nWORK\n#END", ((2, 99),)))

    def test_count_of_warnings(self) -> None:
        taken = Taken(month=5, faction=1, block=block_of("#ATLANTIS 1\nUNIT 1\nWORK\nTAX x\nWORK"), orders=3, faults=())
        self.assertEqual(reply(taken).warnings, 3)
        self.assertIn("3 orders, 3 warnings.", reply(taken).text)


class HostileText(unittest.TestCase):
    def test_signs_that_turn_a_line_are_shown_by_their_codes(self) -> None:
        for sign, code in (("\u202e", "\\u202e"), ("\x1b", "\\u001b"), ("\x00", "\\u0000"), ("\u05d0", "\\u05d0"),
                           ("\u0301", "\\u0301"), ("\U0001f600", "\\U0001f600"), ("\n", "\\u000a"),
                           ("\x9b", "\\u009b"), ("\u00ad", "\\u00ad"), ("\ud800", "\\ud800")):
            self.assertEqual(shown(f"a{sign}b", 9), f"a{code}b")
            text = reply_to(f"#ATLANTIS 1\nWORK {sign if sign != chr(10) else ''}\nTAX\n\n{sign.strip()}x")
            self.assertTrue(all(letter == "\n" or letter.isprintable() for letter in text), repr(sign))

    def test_latin_letters_stay(self) -> None:
        self.assertEqual(shown("Bäume, ßçøł", 99), "Bäume, ßçøł")

    def test_a_long_line_is_cut_and_says_so(self) -> None:
        self.assertIn("    2  " + "x" * 200 + "\n", reply_to("#ATLANTIS 1\n" + "x" * 200))
        self.assertIn("    2  " + "x" * 200 + " ..\n", reply_to("#ATLANTIS 1\n" + "x" * 201))

    def test_a_long_mailing_is_cut_and_says_so(self) -> None:
        text = reply_to("#ATLANTIS 1\n" + "a\n" * 9000 + "#END", tuple((line, 2) for line in range(2, 9002)))
        self.assertLess(len(text), 200_000)
        last = re.search(r"Lines (\d+) to 9001 are not shown here\. (\d+) lines of these have a fault\.", text)
        assert last
        self.assertEqual(int(last[1]) + int(last[2]), 9002)

    def test_own_words_are_narrow(self) -> None:
        text = reply_to("#ATLANTIS 1\nUNIT 1\nWORK 1\nWORK\nFORM 1\nQUIT 1\nTAX",
                        tuple((3, number) for number in range(1, 12)), previous=Previous("Mon 2026-11-02 19:12", 99),
                        notes=[Note(change, tuple(range(30))) for change in Change],
                        own_units=frozenset(range(10 ** 8, 10 ** 8 + 30)))
        self.assertEqual([line for line in text.split("\n") if len(line) > WIDTH], [])


if __name__ == "__main__":
    unittest.main()
