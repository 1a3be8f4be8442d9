"""Hostile and random bytes: nothing is raised, the time is bounded, and what comes out keeps its promises."""

import random
import time
import unittest

from office.mail.blocks import find_blocks
from office.mail.limits import LONGEST_ID, LONGEST_LINE, LONGEST_SUBJECT, MOST_BYTES, MOST_LINES
from office.mail.message import Message, read_body, read_message, split_mbox
from office.orders.answer import Taken, reply

# far above what it takes on a slow machine, and far below what a bad case took before it was mended
SECONDS = 5
RANDOM_MESSAGES = 150
# so much of each hostile message is enough to see a time that grows faster than the length; one is read whole
MOST_HOSTILE = 120_000

SEEDS = (
    b"Return-Path: <a@b.c>\nReceived: by mx; Mon, 2 Nov 2026 19:12:08 +0100\nFrom: Ann <a@b.c>\n"
    b"Subject: =?utf-8?q?=C3=A9?=\nMessage-ID: <x@y>\n"
    b"Authentication-Results: mx; dmarc=pass (a) header.from=b.c\n"
    b"Content-Type: multipart/alternative; boundary=\"b1\"\n\n--b1\nContent-Type: text/plain; charset=utf-8; "
    b"format=flowed; delsp=yes\nContent-Transfer-Encoding: quoted-printable\n\n#ATLANTIS 1 pw\nUNIT 1\n"
    b"NAME UNIT =E2=80=9Cx=E2=80=9D \nWORK ; a\n#END\n-- \nSent from my iPhone\n--b1\n"
    b"Content-Type: text/html\n\n"
    b"<html><p class=Mso>#ATLANTIS 1<br>&nbsp;UNIT&#32;1</p><blockquote>x</blockquote></html>\n--b1--\n",
    b"From: a@b.c\nContent-Type: multipart/mixed; boundary=x\n\n--x\n"
    b"Content-Type: application/octet-stream; name*=utf-8''o%2Etxt\nContent-Transfer-Encoding: base64\n\n"
    b"//4jAEEAVABMAEEATgBUAEkAUwAgADEACgBVAE4ASQBUACAAMQAKAA==\n--x\nContent-Type: message/rfc822\n\nFrom: d@e.f\n\n"
    b"#ATLANTIS 2\n--x--\n",
    b"From a@b.c Mon Nov  2 19:12:08 2026\nFrom: a@b.c\n\n-----BEGIN PGP SIGNED MESSAGE-----\nHash: SHA1\n\n- -- \n"
    b"#ATLANTIS 1\nOn 2 May 2026 Ann wrote:\n> #END\n"
    b"-----BEGIN PGP SIGNATURE-----\nx\n-----END PGP SIGNATURE-----\n\nFrom a@b.c Mon Nov  2 19:12:08 2026\nTo: x\n\n"
    b"y\n",
    b"#ATLANTIS 1\nUNIT 1\nFORM 1\nSTUDY sailing ; x\nWORK\nEND\nPAY NEW 1 5\nQUIT 1\n\nBest wishes\nWork 020\n"
    b"________\nFrom: x\nSent: y\nSubject: z\n\n#ATLANTIS 1\n",
)
PIECES = (b"\0", b"\r", b"\r\n", b"\n\n", b"--b1\n", b"--x--", b"#ATLANTIS ", b"#END\n", b"=", b"=?utf-8?b?", b"?=",
          b"<", b"<!--", b">", b"&#x110000;", b'"', b"\\", b"(", b";", b":", b" \n", b"> ",
          b"\xff\xfe", b"\xef\xbb\xbf", b"\xe2\x80\xae", b"\xed\xa0\x80", b"-- \n",
          b"Content-Type: multipart/mixed; boundary=b\n\n--b\n", b"charset=utf-7", b"+AOk-", b"%00", b"\x1b[2J",
          b"9" * 5000)

HOSTILE = {
    "nothing": b"\n" * MOST_BYTES, "zeros": b"\0" * MOST_BYTES, "returns": b"A: b\n\n" + b"\r" * MOST_BYTES,
    "spaces": b"A: b\n\n" + b" " * MOST_BYTES, "signs of a quote": b"A: b\n\n" + b">" * MOST_BYTES,
    "nested parts": b"".join(b"Content-Type: multipart/mixed; boundary=b%d\n\n--b%d\n" % (i, i)
                             for i in range(10_000)) + b"\n#ATLANTIS 1\n",
    "deep parts and nothing": b"".join(b"Content-Type: multipart/mixed; boundary=b%d\n\n--b%d\n" % (i, i)
                                       for i in range(19)) + b"\n" * MOST_BYTES,
    "nested messages": b"Content-Type: message/rfc822\n\n" * 20_000,
    "many parts": b"Content-Type: multipart/mixed; boundary=b\n\n" + b"--b\n\nx\n" * 100_000,
    "thousands of attachments": b"Content-Type: multipart/mixed; boundary=b\n\n"
                                + b"--b\nContent-Disposition: attachment; filename=a.txt\n\n#ATLANTIS 1\n" * 10_000,
    "boundaries that are none": b"Content-Type: multipart/mixed; boundary=b\n\n" + b"--b \t" * 200_000,
    "folded field": b"Subject: x\n" + b" y\n" * 300_000, "many fields": b"X: y\n" * 200_000,
    "encoded words": b"Subject: " + b"=?utf-8?q?a?= " * 70_000 + b"\n\n",
    "parameters": b'Content-Type: text/plain; a="' + b'\\"' * 200_000 + b"\n\nx",
    "comments": b"From: " + b"(" * 200_000 + b"\n\n",
    "addresses": b"From: " + b"<a@b>," * 100_000 + b"\n\n",
    "results": (b"Authentication-Results: mx; " + b"dmarc=pass (" * 5000 + b"\n") * 20 + b"\n",
    "spaces of a date": b"Received: ;" + b" " * 200_000 + b"\n\n",
    "headers": b"A: b\n\n" + b"#ATLANTIS 1\n" * 80_000, "long line": b"A: b\n\n#ATLANTIS 1\n" + b"WORK " * 200_000,
    "quotes": b"A: b\n\n#ATLANTIS 1\n" + b'"' * MOST_BYTES,
    "forms": b"A: b\n\n#ATLANTIS 1\nUNIT 1\n" + b"FORM 1\n" * 100_000,
    "heads of quotes": b"A: b\n\n" + (b"On 1 " + b"wrote " * 48 + b"\n") * 3500,
    "dates": b"A: b\n\n" + b"2026-01-01 \n" * 80_000, "dashes": b"A: b\n\n" + (b"-" * 299 + b"\n") * 3500,
    "copied heads": b"A: b\n\nx\n" + b"From: x\n" * 80_000,
    "flowed": b"Content-Type: text/plain; format=flowed\n\n" + b"a \n" * 300_000,
    "soft breaks": b"Content-Transfer-Encoding: quoted-printable\n\n" + b"=\n" * 500_000,
    "blanks at ends": b"Content-Transfer-Encoding: quoted-printable\n\n" + b"a \t" * 300_000,
    "marks of direction": b"A: b\n\n" + "\u202e".encode() * 300_000,
    "ellipses": b"A: b\n\n" + "\u2026".encode() * 300_000,
    "signed": b"A: b\n\n" + b"-----BEGIN PGP SIGNED MESSAGE-----\n" * 30_000,
    "tags": b"Content-Type: text/html\n\n" + b"<a '" * 250_000,
    "elements": b"Content-Type: text/html\n\n" + b"<div>" * 200_000,
    "comment without end": b"Content-Type: text/html\n\n" + b"<!--" * 250_000,
    "breaks": b"Content-Type: text/html\n\n" + b"<br>" * 250_000,
    "kept blanks": b"Content-Type: text/html\n\n<pre>" + b"\n" * MOST_BYTES,
    "deep elements": b"Content-Type: text/html\n\n" + b"<b>" * 99 + b"a<i></i>" * 130_000,
    "numbers of signs": b"Content-Type: text/html\n\n&#" + b"9" * MOST_BYTES,
}


class Promises(unittest.TestCase):
    def check(self, message: Message) -> None:
        self.assertLessEqual(len(message.lines), MOST_LINES)
        for line in message.lines:
            self.assertLessEqual(len(line), LONGEST_LINE * 3)
            self.assertEqual([sign for sign in line if sign in "\n\r\0\x1b\u202e\u200b\ufeff"], [])
            line.encode()
        self.assertTrue(len(message.subject) <= LONGEST_SUBJECT
                        and all(sign.isprintable() or sign == "\t" for sign in message.subject), repr(message.subject))
        self.assertTrue(len(message.message_id) <= LONGEST_ID and message.message_id.isascii()
                        and " " not in message.message_id and message.message_id.isprintable())
        self.assertTrue(message.sender.isascii() and message.sender.isprintable() and message.sender.count("@") <= 1
                        and " " not in message.sender)
        for value in message.authentication:
            self.assertNotIn("\n", value)
            self.assertNotIn("\r", value)

    def check_all(self, raw: bytes) -> None:
        for read in (read_message, read_body):
            message = read(raw)
            self.check(message)
            message.is_authentic("mx")
            for block in find_blocks(message.lines)[:3]:
                lines = block.mailing().split(b"\n")
                self.assertTrue(lines[block.first_line - 1].startswith(b"#ATLANTIS"))
                self.assertEqual(lines[block.first_line + len(block.orders):], [b"#END", b""])
                text = reply(Taken(1, 1, block, 0, ((block.first_line + 1, 2),), message.notes, frozenset({1}))).text
                self.assertLess(len(text), 200_000)
                self.assertTrue(all(sign.isprintable() or sign in "\n\t" for sign in text), repr(text))

    def test_hostile_messages(self) -> None:
        for name, raw in HOSTILE.items():
            with self.subTest(name):
                begin = time.process_time()
                self.check_all(raw if name == "nothing" else raw[:MOST_HOSTILE])
                self.assertLess(time.process_time() - begin, SECONDS)

    def test_random_changes(self) -> None:
        begin = time.process_time()
        for case in range(RANDOM_MESSAGES):
            raw = mutated(random.Random(case))
            with self.subTest(case):
                self.check_all(raw)
                self.assertGreaterEqual(len(split_mbox(raw)), 1)
        self.assertLess(time.process_time() - begin, SECONDS)


def mutated(dice: random.Random) -> bytes:
    """One of the seeds after some random changes."""
    raw = bytearray(dice.choice(SEEDS))
    for _ in range(dice.randrange(1, 12)):
        at = dice.randrange(len(raw) + 1)
        change = dice.randrange(5)
        if change == 0:
            raw[at:at] = dice.choice(PIECES)
        elif change == 1:
            del raw[at:at + dice.randrange(1, 40)]
        elif change == 2:
            raw[at:at + 1] = bytes([dice.randrange(256)])
        elif change == 3:
            raw[at:at] = raw[dice.randrange(len(raw) + 1):][:dice.randrange(1, 200)]
        else:
            raw[at:at] = dice.choice(SEEDS)[dice.randrange(100):][:dice.randrange(1, 300)]
    return bytes(raw)


if __name__ == "__main__":
    unittest.main()
