"""Twelve sorts of mail as players send them: what the office makes of each."""

import base64
import unittest
from datetime import UTC, datetime

from office.mail.blocks import Block, Ended, find_blocks
from office.mail.message import Automatic, Message, read_body, read_message
from office.mail.notes import Change
from office.orders.answer import Previous, Taken, reply

HEAD = (
    b"Return-Path: <ann@example.org>\r\n"
    b"Received: from mail.example.org (mail.example.org [192.0.2.7])\r\n"
    b"\tby mx.club.example (Postfix) with ESMTPS id 4ABC12\r\n"
    b"\tfor <atlantis@club.example>; Mon, 2 Nov 2026 19:12:08 +0100 (CET)\r\n"
    b"From: Ann Smith <Ann@Example.org>\r\n"
    b"To: atlantis@club.example\r\n"
    b"Date: Mon, 2 Nov 2026 19:12:04 +0100\r\n"
    b"Message-ID: <5F1A.2@example.org>\r\n"
    b"MIME-Version: 1.0\r\n"
)
ORDERS = ("UNIT 1", 'NAME UNIT "Guards of Far"', "STUDY sailing")


def mail(content_type: str, body: bytes, encoding: str = "7bit") -> Message:
    head = f"Subject: orders\r\nContent-Type: {content_type}\r\nContent-Transfer-Encoding: {encoding}\r\n\r\n"
    return read_message(HEAD + head.encode() + body.replace(b"\r\n", b"\n").replace(b"\n", b"\r\n"))


def plain(body: str) -> Message:
    return mail("text/plain; charset=UTF-8", body.encode(), "8bit")


def only_block(message: Message) -> Block:
    (block,) = find_blocks(message.lines)
    return block


def answer(block: Block, orders: int, previous: Previous | None = None) -> str:
    return reply(Taken(month=5, faction=1, block=block, orders=orders, faults=(), previous=previous)).text


class EncodedMail(unittest.TestCase):
    """What mail programs do to letters is undone: the orders are those that the player wrote."""

    def check(self, message: Message, first_line: int) -> None:
        block = only_block(message)
        self.assertEqual((block.faction, block.first_line, block.orders), (1, first_line, ORDERS))

    def test_quoted_printable(self) -> None:
        body = (b"Dear moderator =E2=80=93 my orders:\n\n#ATLANTIS 1\nUNIT 1\nNAME UNIT =E2=80=9CGuards=\n"
                b" of=C2=A0Far=E2=80=9D\n"
                b"STUDY sailing=20\n#END\n")
        message = mail("text/plain; charset=utf-8", body, "quoted-printable")
        block = only_block(message)
        self.assertEqual(block.orders, ("UNIT 1", 'NAME UNIT "Guards of Far"', "STUDY sailing "))
        self.assertEqual({note.change: note.lines for note in message.notes},
                         {Change.QUOTES: (5,), Change.DASHES: (1,), Change.SPACES: (5,)})

    def test_base64(self) -> None:
        text = "\r\n".join(["#ATLANTIS 1", *ORDERS, "#END", ""])
        self.check(mail("text/plain; charset=utf-8", base64.encodebytes(text.encode()), "base64"), 1)

    def test_utf16_attachment(self) -> None:
        text = "\r\n".join(["Hello", "", "#ATLANTIS 1", *ORDERS, "#END", ""])
        for codec in ("utf-16-le", "utf-16-be"):
            for mark in ("\ufeff", ""):
                data = base64.encodebytes((mark + text).encode(codec))
                body = (b"--=_b1\nContent-Type: text/plain; charset=us-ascii\n\nMy orders are attached.\n--=_b1\n"
                        b'Content-Type: application/octet-stream; name="orders.txt"\n'
                        b'Content-Transfer-Encoding: base64\n'
                        b'Content-Disposition: attachment; filename="orders.txt"\n\n' + data + b"--=_b1--\n")
                with self.subTest(codec=codec, mark=mark):
                    message = mail('multipart/mixed; boundary="=_b1"', body)
                    self.check(message, 3)
                    self.assertIn(Change.ATTACHMENT, [note.change for note in message.notes])

    def test_byte_order_mark(self) -> None:
        text = "\r\n".join(["#ATLANTIS 1", *ORDERS, "#END", ""])
        self.check(plain("\ufeff" + text), 1)
        for data in (b"\xef\xbb\xbf" + text.encode(), text.encode("utf-16"), b"\xfe\xff" + text.encode("utf-16-be")):
            self.check(read_body(data), 1)

    def test_html_alone(self) -> None:
        body = (
            b'<html><head><meta http-equiv="Content-Type" content="text/html; charset=utf-8"><style>p > b { x: y '
            b'}</style></head>'
            b'<body dir="auto"><div style="display:none">#ATLANTIS 2</div>#ATLANTIS 1<div>UNIT 1</div>'
            b"<div>NAME UNIT&nbsp;&ldquo;Guards of Far&rdquo;<br></div><div>STUDY\n"
            b"   sailing</div><div>#END</div><div><br></div>"
            b'<div dir="ltr">Sent from my iPhone</div><blockquote type="cite">#ATLANTIS 1<br>UNIT 1<br>QUIT '
            b'1</blockquote></body></html>'
        )
        message = mail("text/html; charset=utf-8", body)
        self.check(message, 1)
        self.assertIn(Change.HTML, [note.change for note in message.notes])


class WrappedComment(unittest.TestCase):
    def test_reply_names_both_lines(self) -> None:
        message = plain(
            "Hello,\n\nhere are my orders.\n\n\n#ATLANTIS 1\nUNIT 1\n"
            "STUDY sailing  ; all of the unit 1 learns to sail this month and then we\n"
            "WORK or build a boat, as you like\n#END\n")
        block = only_block(message)
        self.assertEqual(block.orders[1:], ("STUDY sailing  ; all of the unit 1 learns to sail this month and then we",
                                            "WORK or build a boat, as you like"))
        text = answer(block, 2)
        self.assertIn("Line 9 WORK replaces line 8 STUDY", text)
        self.assertIn("Line 9 WORK may be the rest of the comment in line 8", text)


class QuotedOrders(unittest.TestCase):
    def test_reply_with_old_orders_quoted(self) -> None:
        message = plain(
            "#ATLANTIS 1\nUNIT 1\nWORK\n#END\n\n"
            "On Fri, Oct 30, 2026 at 8:01 PM Club <atlantis@club.example> wrote:\n\n"
            "> #ATLANTIS 1\n> UNIT 1\n> STUDY sailing\n> #END\n")
        self.assertEqual(only_block(message).orders, ("UNIT 1", "WORK"))

    def test_new_orders_below_the_quote(self) -> None:
        message = plain(
            "On Fri, Oct 30, 2026 at 8:01 PM The moderator of our club <\natlantis@club.example> wrote:\n\n"
            "> #ATLANTIS 1\n>UNIT 1\n> STUDY sailing\n> #END\n\n#ATLANTIS 1\nUNIT 1\nWORK\n#END\n")
        self.assertEqual(only_block(message).orders, ("UNIT 1", "WORK"))

    def test_quote_without_signs(self) -> None:
        for head in ("-----Original Message-----\nFrom: Club <atlantis@club.example>\n"
                     "Sent: Friday, October 30, 2026 8:01 PM\n"
                     "To: Ann\nSubject: report",
                     "________________________________\nFrom: Club <atlantis@club.example>\nSent: Friday\nTo: Ann\n"
                     "Subject: report",
                     "Von: Club <atlantis@club.example>\nGesendet: Freitag, 30. Oktober 2026 20:01\nAn: Ann\n"
                     "Betreff: Bericht",
                     "Am 30.10.2026 um 20:01 schrieb Club <atlantis@club.example>:",
                     "---------- Forwarded message ---------\nFrom: Bob <bob@example.org>\nDate: Fri, Oct 30, 2026",
                     "Begin forwarded message:"):
            message = plain(f"#ATLANTIS 1\nUNIT 1\nWORK\n\n{head}\n\n#ATLANTIS 1\nUNIT 1\nSTUDY sailing\n#END\n")
            with self.subTest(head):
                block = only_block(message)
                self.assertEqual(block.orders, ("UNIT 1", "WORK"))
                self.assertIn(block.ended, (Ended.QUOTE, Ended.SIGNATURE))


class OldMailingAbove(unittest.TestCase):
    def test_two_blocks_for_one_faction(self) -> None:
        message = plain("#ATLANTIS 1\nUNIT 1\nWORK\n#END\n\nand now\n#ATLANTIS 1\nUNIT 1\nTAX\n#END\n")
        self.assertEqual([(block.faction, block.orders[1]) for block in find_blocks(message.lines)],
                         [(1, "WORK"), (1, "TAX")])


class WithoutEnd(unittest.TestCase):
    def test_signature_that_reads_as_an_order(self) -> None:
        message = plain("#ATLANTIS 1\nUNIT 1\nSTUDY sailing\n\nBest wishes\nAnn\nWork 020 7946 0958\n")
        block = only_block(message)
        self.assertEqual((block.orders, block.ended), (("UNIT 1", "STUDY sailing"), Ended.SIGNATURE))
        self.assertIn("Work 020 7946 0958", block.cut)
        text = answer(block, 1)
        self.assertIn("    Work 020 7946 0958", text)
        self.assertIn("There is no line #END", text)

    def test_footer_that_reads_as_an_order(self) -> None:
        for footer in ("Tax included.", "-- \nTax included.", "__________________\nTax", "Sent from my iPhone\nTax",
                       "\u2014\nTax", "Von meinem iPhone gesendet\nTax", "--\nTax"):
            with self.subTest(footer):
                block = only_block(plain(f"#ATLANTIS 1\nUNIT 1\nSTUDY sailing\n\n{footer}\n"))
                self.assertEqual((block.orders, block.ended), (("UNIT 1", "STUDY sailing"), Ended.SIGNATURE))

    def test_footer_that_is_a_part_of_its_own(self) -> None:
        body = (b"--b\nContent-Type: text/plain\n\n#ATLANTIS 1\nUNIT 1\nSTUDY sailing\n--b\nContent-Type: text/plain\n"
                b"\nTax\n--b--\n")
        block = only_block(mail("multipart/mixed; boundary=b", body))
        self.assertEqual((block.orders, block.ended), (("UNIT 1", "STUDY sailing"), Ended.SIGNATURE))


class Addition(unittest.TestCase):
    def test_reply_says_what_it_replaces(self) -> None:
        block = only_block(plain("and also this, please:\n#ATLANTIS 1\nUNIT 2\nTAX\n#END\n"))
        text = answer(block, 1, Previous("Mon 2026-11-02 19:12", 12))
        self.assertIn("This replaces your mailing of Mon 2026-11-02 19:12: 12 orders, now 1.", text)


class LateMail(unittest.TestCase):
    def test_time_is_our_own_servers(self) -> None:
        raw = (b"Received: from a (a [192.0.2.1]) by mx.club.example (x; y); Fri, 6 Nov 2026 21:30:00 +0100 (CET)\n"
               b"Received: by a; Fri, 6 Nov 2026 19:00:00 +0100\nDate: Fri, 6 Nov 2026 19:00:00 +0100\n"
               b"From: ann@example.org\n\n#ATLANTIS 1\n")
        self.assertEqual(read_message(raw).received, datetime(2026, 11, 6, 20, 30, tzinfo=UTC))


class OutOfOffice(unittest.TestCase):
    def test_it_is_automatic(self) -> None:
        raw = (b"From: ann@example.org\nSubject: Automatic reply: orders for month 5\nAuto-Submitted: auto-replied\n"
               b"X-Auto-Response-Suppress: All\n\nI am away.\n\n#ATLANTIS 1\nUNIT 1\nWORK\n#END\n")
        self.assertIs(read_message(raw).automatic, Automatic.AUTO_SUBMITTED)
        self.assertIs(plain("#ATLANTIS 1").automatic, Automatic.NO)


class QuitOfAStranger(unittest.TestCase):
    def test_sender_and_missing_pass_text_show(self) -> None:
        raw = b'From: "Ann Smith <ann@example.org>" <evil@example.net>\n\n#ATLANTIS 1\nUNIT 1\nQUIT 1\n#END\n'
        message = read_message(raw)
        block = only_block(message)
        self.assertEqual((message.sender, block.pass_text), ("evil@example.net", None))
        self.assertIn("Line 3 QUIT takes your whole faction out of the game", answer(block, 1))


class PassTextOnTheHeader(unittest.TestCase):
    def test_it_is_not_handed_in_and_not_shown(self) -> None:
        block = only_block(plain("Hello\n\n#ATLANTIS 1 s3cret\nUNIT 1\nWORK\n#END\n"))
        self.assertEqual(block.pass_text, "s3cret")
        self.assertEqual(block.mailing(), b"\n\n#ATLANTIS 1\nUNIT 1\nWORK\n#END\n")
        self.assertNotIn("s3cret", answer(block, 1))


class TwoFactions(unittest.TestCase):
    def test_each_has_its_block(self) -> None:
        message = plain("#ATLANTIS 1 apple\nUNIT 1\nWORK\n#END\n\n#ATLANTIS 2 pony\nUNIT 2\nTAX\n#END\n")
        blocks = find_blocks(message.lines)
        self.assertEqual([(block.faction, block.pass_text, block.orders) for block in blocks],
                         [(1, "apple", ("UNIT 1", "WORK")), (2, "pony", ("UNIT 2", "TAX"))])
        self.assertEqual(blocks[1].mailing(), b"\n\n\n\n\n#ATLANTIS 2\nUNIT 2\nTAX\n#END\n")


class AnotherFactionsNumber(unittest.TestCase):
    def test_number_and_sender_show(self) -> None:
        message = plain("#ATLANTIS 3\nUNIT 1\nWORK\n#END\n")
        self.assertEqual((message.sender, only_block(message).faction), ("ann@example.org", 3))


if __name__ == "__main__":
    unittest.main()
