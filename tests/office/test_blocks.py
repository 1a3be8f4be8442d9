"""Where the orders of a message begin and end."""

import unittest

from office.mail.blocks import MOST_CUT, Block, Ended, find_blocks, read_header
from office.mail.marks import is_signature, mark_quoted, quote_head


def blocks_of(text: str) -> list[Block]:
    return find_blocks(text.split("\n"))


def ending_of(text: str) -> tuple[tuple[str, ...], Ended]:
    (block,) = blocks_of("#ATLANTIS 1\n" + text)
    return block.orders, block.ended


class Headers(unittest.TestCase):
    def test_which_line_is_a_header(self) -> None:
        for line in ("#ATLANTIS 1", " \t#atlantis 1", '"#Atlantis"1', "#ATLANTIS", "#ATLANTIS;", '#ATLANTIS"1"'):
            self.assertEqual(len(blocks_of(line)), 1, line)
        for line in ("#ATLANTIS1", "x #ATLANTIS 1", "> #ATLANTIS 1", "#ATLANT\u0130S 1", "# ATLANTIS 1",
                     "; #ATLANTIS 1", ">#ATLANTIS 1", ""):
            self.assertEqual(blocks_of(line), [], line)

    def test_faction_and_pass_text(self) -> None:
        for line, faction, pass_text in (
            ("#ATLANTIS 1", 1, None), ("#atlantis 0012 apple", 12, "apple"), ('#ATLANTIS "7" "a pple"x', 7, "a pple"),
            ("#ATLANTIS 9999 a;b c", 9999, "a;b"),
            ('#ATLANTIS 1 a"b', 1, 'a"b'), ("#ATLANTIS 1 ; apple", 1, None), ("#ATLANTIS 1;apple", 1, None),
            ("#ATLANTIS 10000 x", None, "x"), ("#ATLANTIS 0", None, None),
            ("#ATLANTIS one", None, None), ("#ATLANTIS", None, None), ("#ATLANTIS +1", None, None),
            ("#ATLANTIS \u0661", None, None), ("#ATLANTIS 1 \u00e9", 1, "\u00e9"),
            ("#ATLANTIS " + "9" * 5000, None, None), ("#ATLANTIS " + "0" * 5000 + "3", 3, None),
            ('#ATLANTIS 1 "', 1, ""), ("#ATLANTIS 1\tab\tc", 1, "ab"), ("#ATLANTIS 1 \x0b", 1, "\x0b"),
        ):
            self.assertEqual(read_header(line), (faction, pass_text), line[:40])


class Endings(unittest.TestCase):
    def test_end(self) -> None:
        for end in ("#END", " #end of it", '"#END"', "#END;"):
            self.assertEqual(ending_of(f"UNIT 1\n\nWORK\n-- \nTAX\n{end}\nQUIT 1"),
                             (("UNIT 1", "", "WORK", "-- ", "TAX"), Ended.END), end)

    def test_orders_below_end(self) -> None:
        for text, unread in (("#END\nBye\nTAX\nWORK", 5), ("#END\nTax included.\n> WORK", 0),
                             ("#END\n#ATLANTIS 2\nWORK", 0), ("WORK", 0)):
            self.assertEqual(blocks_of("#ATLANTIS 1\nUNIT 1\n" + text)[0].unread, unread, text)

    def test_end_that_is_quoted_is_none(self) -> None:
        self.assertEqual(ending_of("UNIT 1\nWORK\n> #END\nTAX"), (("UNIT 1", "WORK"), Ended.QUOTE))
        self.assertEqual(ending_of("UNIT 1\n#ENDE"), (("UNIT 1", "#ENDE"), Ended.TEXT_END))

    def test_quoted_lines_between_orders(self) -> None:
        (block,) = blocks_of("#ATLANTIS 1\nUNIT 1\n> UNIT 2\nWORK\n#END\n> TAX")
        self.assertEqual((block.orders, block.ended, block.cut), (("UNIT 1", "", "WORK"), Ended.END, ("> UNIT 2",)))

    def test_next_header(self) -> None:
        first, second = blocks_of("#ATLANTIS 1\nUNIT 1\nWORK\n#ATLANTIS 2\nTAX\n#END")
        self.assertEqual((first.orders, first.ended, second.orders), (("UNIT 1", "WORK"), Ended.NEXT_HEADER, ("TAX",)))

    def test_end_of_the_next_block_is_not_this_ones(self) -> None:
        first, second = blocks_of("#ATLANTIS 1\nUNIT 1\nWORK\n\nand my brother's:\n#ATLANTIS 2\nUNIT 2\n#END")
        self.assertEqual((first.orders, first.ended, first.cut),
                         (("UNIT 1", "WORK"), Ended.SIGNATURE, ("and my brother's:",)))
        self.assertEqual((second.first_line, second.ended), (6, Ended.END))

    def test_text_end(self) -> None:
        self.assertEqual(ending_of("UNIT 1\nWORK\n\n"), (("UNIT 1", "WORK"), Ended.TEXT_END))
        self.assertEqual(ending_of(""), ((), Ended.TEXT_END))

    def test_signature(self) -> None:
        for line in ("-- ", "--", " -- ", "_____", "Sent from my iPhone", "Get Outlook for iOS<https://aka.ms/x>",
                     "Envoyé de mon iPhone", "Sent from Mail for Windows"):
            self.assertEqual(ending_of(f"UNIT 1\nWORK\n{line}\nTAX"), (("UNIT 1", "WORK"), Ended.SIGNATURE), line)

    def test_lines_that_are_no_signature(self) -> None:
        for line in ("", "-", "---", "____", "x --", "Sent 5 men", "; -- ", "-----", "GIVE 5 3 wood"):
            self.assertFalse(is_signature(line), line)

    def test_cut_lines_are_bounded(self) -> None:
        (block,) = blocks_of("#ATLANTIS 1\nUNIT 1\n-- \n" + "\n".join(map(str, range(100))))
        self.assertEqual(block.cut, ("-- ", *map(str, range(MOST_CUT - 1))))


class Tails(unittest.TestCase):
    """Without #END the orders end at the last line that surely is one, or at an empty line below it."""

    def test_greeting_below_an_empty_line(self) -> None:
        self.assertEqual(ending_of("UNIT 1\nWORK\n\nBest wishes\nWork 020 7946 0958"),
                         (("UNIT 1", "WORK"), Ended.SIGNATURE))
        self.assertEqual(ending_of("UNIT 1\nWORK\n\nTax included."), (("UNIT 1", "WORK"), Ended.SIGNATURE))
        self.assertEqual(ending_of("UNIT 1\nWORK\n\nMove on, friends!\nStudy hard and well"),
                         (("UNIT 1", "WORK"), Ended.SIGNATURE))

    def test_orders_below_an_empty_line_count(self) -> None:
        self.assertEqual(ending_of("UNIT 1\nWORK\n\nUNIT 2\nTAX"),
                         (("UNIT 1", "WORK", "", "UNIT 2", "TAX"), Ended.TEXT_END))

    def test_a_faulty_order_in_between_stays(self) -> None:
        self.assertEqual(ending_of("UNIT 1\nWORK\n\nGAURD 1\nTax now\n\nTAX"),
                         (("UNIT 1", "WORK", "", "GAURD 1", "Tax now", "", "TAX"), Ended.TEXT_END))

    def test_lines_right_below_the_last_order_stay(self) -> None:
        self.assertEqual(ending_of("UNIT 1\nWORK\nGAURD 1\n\nBye"), (("UNIT 1", "WORK", "GAURD 1"), Ended.SIGNATURE))

    def test_comments_are_no_tail(self) -> None:
        self.assertEqual(ending_of("UNIT 1\nWORK\n\n; the end"), (("UNIT 1", "WORK", "", "; the end"), Ended.TEXT_END))

    def test_nothing_is_cut_where_no_line_is_an_order(self) -> None:
        self.assertEqual(ending_of("GAURD\n\nTax now"), (("GAURD", "", "Tax now"), Ended.TEXT_END))

    def test_end_protects_all(self) -> None:
        self.assertEqual(ending_of("UNIT 1\n\nTax included.\n#END"), (("UNIT 1", "", "Tax included."), Ended.END))


class Quotes(unittest.TestCase):
    def test_heads_of_other_messages(self) -> None:
        for text, count in (
            ("On Mon, 2 Nov 2026 at 19:12, Ann <ann@example.org> wrote:", 1),
            ("On Mon, 2 Nov 2026 Ann Smith <\nann@example.org> wrote:", 2),
            ("On Mon, 2 Nov 2026\nAnn Smith <\nann@example.org> wrote:", 3), ("On 2 Nov\na\nb\nAnn wrote:", 0),
            ("Am 02.11.26 um 19:12 schrieb Ann:", 1),
            ("Le lun. 2 nov. 2026 à 19:12, Ann <ann@example.org> a écrit :", 1),
            ("El 2/11/2026 a las 19:12, Ann escribió:", 1),
            ("2026-11-02 19:12 GMT+01:00 Ann <ann@example.org>:\n> x", 0), ("-----Original Message-----", 1),
            ("--- Forwarded message ---", 1), ("-------- Original message --------From: Club Date: 2/11/2026", 1),
            ("----- Forwarded by Ann/Club on 02.11.2026 -----", 1), ("Original message", 0), ("--Original message", 0),
            ("On Monday Ann wrote:", 0), ("On the 3rd I wrote a letter", 0), ("On 3 May:\nwrote:", 0), ("-----", 0),
            ("----- Unit 3 -----", 0),
            ("WORK ; On 3 May I wrote:", 0), ("On 2 May\n\nAnn wrote:", 0),
        ):
            self.assertEqual(quote_head(text.split("\n"), 0), count, text)

    def test_head_of_a_copied_message(self) -> None:
        head = ["From: Ann", "Sent: Monday", "To: Club", "Subject: x"]
        self.assertEqual(quote_head(["x", *head], 1), 4)
        self.assertEqual(quote_head(["x", "From: a club", "WORK"], 1), 0)

    def test_head_at_the_top_is_the_texts_own(self) -> None:
        (block,) = blocks_of("From: Ann\nDate: Monday\nSubject: orders\n\n#ATLANTIS 1\nUNIT 1\n#END")
        self.assertEqual(block.first_line, 5)

    def test_lines_with_signs_end_the_quote(self) -> None:
        lines = ["On 2 May Ann wrote:", "", "> a", "b"]
        self.assertEqual(mark_quoted(lines), [True, True, True, False])
        self.assertEqual(mark_quoted([*lines[:2], "a", "b"]), [True] * 4)
        self.assertEqual(mark_quoted(["  > a", ">", "a > b"]), [True, True, False])


class Mailings(unittest.TestCase):
    def test_bytes(self) -> None:
        (block,) = blocks_of("Hi\n\n  #atlantis 007 apple ; x\nUNIT 1\n\tNAME UNIT café\n#end\nbye")
        self.assertEqual(block.mailing(), b"\n\n#ATLANTIS 7\nUNIT 1\n\tNAME UNIT caf\xc3\xa9\n#END\n")

    def test_bad_number(self) -> None:
        self.assertEqual(blocks_of("#ATLANTIS one\nWORK")[0].mailing(), b"#ATLANTIS\nWORK\n#END\n")


if __name__ == "__main__":
    unittest.main()
