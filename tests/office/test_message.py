"""The head of a message: who sent it, when it came, and whether a program wrote it."""

import unittest
from datetime import UTC, datetime

from office.mail.message import Automatic, read_body, read_message, split_mbox
from office.mail.senders import OWN_MARK, is_authentic, read_address


def with_field(field: str) -> bytes:
    return field.encode() + b"\n\n#ATLANTIS 1\n"


class Senders(unittest.TestCase):
    def test_one_plain_address(self) -> None:
        for value in ("ann@example.org", "<ann@example.org>", "Ann <Ann@Example.ORG>",
                      '"Smith, Ann (x)" <ann@example.org>',
                      "Ann (at home <b@c.d>) <ann@example.org>", "ann@example.org (Ann)",
                      "=?utf-8?q?=C3=84nn?= <ann@example.org>",
                      '"<evil@example.net>" <ann@example.org>'):
            self.assertEqual(read_address(value), "ann@example.org", value)
        self.assertEqual(read_address("ann+club@mail.local"), "ann+club@mail.local")

    def test_none_several_or_no_plain_address(self) -> None:
        for value in ("", "Ann", "<>", "ann@", "@example.org", "ann@example.org, bob@example.org",
                      "Ann <ann@example.org>, <b@c.d>",
                      "a <b@c.d> <e@f.g>", "ann@example.org <evil@example.net>", "club: ann@example.org;",
                      "ann@exa mple.org",
                      "<ann@example.org", "ann@example.org\u202e", "ann..b@example.org", "a" * 65 + "@example.org",
                      '"a b"@example.org',
                      "ann@[192.0.2.1]", "ann@-x.org", "<ann@example.org\r\nBcc: x>"):
            self.assertEqual(read_address(value), "", value)

    def test_longest(self) -> None:
        local, domain = "a" * 64, "b" * (254 - 65)
        self.assertEqual(read_address(f"{local}@{domain}"), f"{local}@{domain}")
        self.assertEqual(read_address(f"{local}a@b"), "")
        self.assertEqual(read_address(f"{local}@{domain}b"), "")

    def test_two_fields_from(self) -> None:
        self.assertEqual(read_message(b"From: a@b.c\nFrom: d@e.f\n\n").sender, "")
        self.assertEqual(read_message(b"From: Ann\n <a@b.c>\n\n").sender, "a@b.c")
        self.assertEqual(read_message(b"from : a@b.c\n\n").sender, "a@b.c")


class Numbers(unittest.TestCase):
    def test_message_id(self) -> None:
        self.assertEqual(read_message(with_field("Message-ID: <a.b$c@example.org>")).message_id, "a.b$c@example.org")
        self.assertEqual(read_message(with_field("Message-Id:\n <a@b>")).message_id, "a@b")
        for value in ("", "<>", "<a b>", "<a@b> <c@d>", "<" + "a" * 201 + ">", "<a\u00e9@b>", "<a@b", "a\x01@b"):
            expected = "a@b" if value == "<a@b" else ""
            self.assertEqual(read_message(with_field(f"Message-ID: {value}")).message_id, expected, value)

    def test_longest(self) -> None:
        self.assertEqual(len(read_message(with_field("Message-ID: <" + "a" * 200 + ">")).message_id), 200)


class Subjects(unittest.TestCase):
    def test_decoded_on_one_line(self) -> None:
        for value, subject in (("Re: orders", "Re: orders"), ("=?utf-8?b?w4lyaWM=?=", "\u00c9ric"), ("a\n  b", "a  b"),
                               ("=?iso-8859-1?q?caf=E9_x?= =?utf-8?q?_y?=", "caf\u00e9 x y"),
                               ("=?utf-8?q?a=0D=0AB=3A_c?=", "aB: c"),
                               ("=?utf-8?q?=E2=80=AEx?=", "x"), ("=?x-unknown?q?a?=", "a"), ("=?utf-8?b?!!?=", ""),
                               ("s" * 300, "s" * 200)):
            self.assertEqual(read_message(with_field(f"Subject: {value}")).subject, subject, value)


class Times(unittest.TestCase):
    def received(self, value: str) -> datetime | None:
        return read_message(with_field(f"Received: {value}")).received

    def test_utc(self) -> None:
        expected = datetime(2026, 11, 6, 20, 30, 5, tzinfo=UTC)
        for value in ("by mx; Fri, 6 Nov 2026 21:30:05 +0100 (CET)", "by mx (a; b); 6 Nov 2026 20:30:05 GMT",
                      "by mx; Fri, 06 Nov 2026 15:00:05 -0530",
                      "from a\n by mx;\n\tFri, 6 Nov 2026 20:30:05 -0000"):
            self.assertEqual(self.received(value), expected, value)

    def test_seconds(self) -> None:
        for seconds, second in (("", 0), (":00", 0), (":59", 59), (":60", 59)):
            expected = datetime(2026, 11, 6, 20, 30, second, tzinfo=UTC)
            self.assertEqual(self.received(f"by mx; Fri, 6 Nov 2026 20:30{seconds} +0000"), expected)

    def test_unreadable(self) -> None:
        for value in ("", "by mx", "by mx; yesterday", "by mx; Fri, 31 Nov 2026 21:30:05 +0100",
                      "by mx; Fri, 6 Xyz 2026 21:30:05 +0100",
                      "by mx; Fri, 6 Nov 2026 21:30:05", "by mx; Fri, 6 Nov 0000 21:30:05 +0100",
                      "by mx; Fri, 1 Jan 0001 00:00:05 +0100",
                      "by mx; Fri, 31 Dec 9999 23:59:59 -0100", "by mx; Fri, 6 Nov 2026 25:30:05 +0100"):
            self.assertIsNone(self.received(value), value)

    def test_date_never_counts(self) -> None:
        self.assertIsNone(read_message(b"Date: Fri, 6 Nov 2026 21:30:05 +0100\n\n").received)

    def test_topmost(self) -> None:
        raw = b"Received: by us; Fri, 6 Nov 2026 20:00:00 +0000\nReceived: by them; Thu, 5 Nov 2026 20:00:00 +0000\n\n"
        self.assertEqual(read_message(raw).received, datetime(2026, 11, 6, 20, tzinfo=UTC))


class AutomaticMail(unittest.TestCase):
    def check(self, field: str, expected: Automatic) -> None:
        self.assertIs(read_message(with_field(f"From: ann@example.org\n{field}")).automatic, expected, field)

    def test_reasons(self) -> None:
        for field in ("Auto-Submitted: auto-replied", "auto-submitted: Auto-Generated; owner-email=x",
                      "X-Autoreply: yes",
                      "Subject: Automatic reply: orders", "Subject: Out of Office: orders"):
            self.check(field, Automatic.AUTO_SUBMITTED)
        for field in ("Precedence: bulk", "Precedence: JUNK", "Precedence: list", "Precedence: auto_reply"):
            self.check(field, Automatic.PRECEDENCE)
        for field in ("List-Id: <a.b>", "List-Unsubscribe: <mailto:a@b>"):
            self.check(field, Automatic.LIST)
        for field in ("Return-Path: <>", "Return-Path: < >",
                      "Content-Type: multipart/report; report-type=delivery-status; boundary=b"):
            self.check(field, Automatic.BOUNCE)
        self.check(f"{OWN_MARK}: 12ab", Automatic.OUR_OWN)
        self.assertIs(read_message(b"From: MAILER-DAEMON@example.org\n\n").automatic, Automatic.BOUNCE)

    def test_none(self) -> None:
        for field in ("Auto-Submitted: no", "Auto-Submitted: no (a person)", "Precedence: first-class",
                      "Return-Path: <ann@example.org>",
                      "Subject: Re: Automatic reply: orders", "Content-Type: multipart/mixed; boundary=b"):
            self.check(field, Automatic.NO)


class Authentication(unittest.TestCase):
    def test_own_server_vouches(self) -> None:
        for value in ("mx.club; dmarc=pass (p=none) header.from=example.org",
                      "MX.club 1; dkim=pass header.d=example.org",
                      "mx.club; spf=pass smtp.mailfrom=ann@example.org",
                      "mx.club; dkim=fail header.d=example.org;\n spf=pass smtp.mailfrom=example.org",
                      "mx.club (a; b); dkim=none; dmarc = pass",
                      'mx.club; dkim=pass reason="good; x" header.i=@example.org'):
            self.assertTrue(is_authentic([value.replace("\n", "")], "mx.club", "ann@example.org"), value)
        self.assertTrue(is_authentic(["mx.club; dkim=pass header.d=example.org"], "mx.club", "ann@mail.example.org"))

    def test_it_does_not(self) -> None:
        for value in ("", "other.club; dmarc=pass", "mx.club; none",
                      "mx.club; dmarc=fail; dkim=pass header.d=example.org", "mx.club; dkim=pass header.d=evil.net",
                      "mx.club; dkim=pass header.d=org", "mx.club; spf=pass smtp.helo=example.org",
                      "mx.club; spf=softfail smtp.mailfrom=example.org",
                      'mx.club; spf=fail smtp.mailfrom="; dmarc=pass"',
                      "mx.club; spf=fail (; dmarc=pass ) smtp.mailfrom=x", "mx.club; dkim=pass header.d=ple.org",
                      "mx.club; dmarc=pass header.from=evil.net", "mx.club; dmarc=passed",
                      "mx.club.evil.net; dmarc=pass",
                      "mx.club; dkim=pass header.d=mail.example.org", "; dmarc=pass", "mx.club; x-dmarc=pass",
                      'mx.club; spf=fail smtp.helo="; dmarc=pass', "mx.club; spf=fail (x; dmarc=pass",
                      "mx.club; spf=fail smtp.helo=) ; dmarc=pass"):
            self.assertFalse(is_authentic([value], "mx.club", "ann@example.org"), value)
        self.assertFalse(is_authentic(["mx.club; dmarc=pass"], "mx.club", ""))
        self.assertFalse(is_authentic(["; dmarc=pass"], "", "ann@example.org"))

    def test_topmost_of_our_server_counts(self) -> None:
        raw = (b"Authentication-Results: proxy; dmarc=fail\nAuthentication-Results: mx.club; dmarc=fail\n"
               b"Authentication-Results: mx.club;\n dmarc=pass\nFrom: ann@example.org\n\n")
        message = read_message(raw)
        self.assertEqual(message.authentication, ("proxy; dmarc=fail", "mx.club; dmarc=fail", "mx.club; dmarc=pass"))
        self.assertFalse(message.is_authentic("mx.club"))


class Mailboxes(unittest.TestCase):
    def test_several_messages(self) -> None:
        first = b"From: a@b.c\n\nx\n>From here\n>>From there\n"
        second = b"From MAILER-DAEMON Mon Nov  2 19:12:08 2026 +0100\nTo: d\n\ny\n"
        raw = b"From a@b.c Mon Nov  2 19:12:08 2026\n" + first + b"\n" + second
        self.assertEqual(split_mbox(raw), [b"From: a@b.c\n\nx\nFrom here\n>From there\n"[:-1], b"To: d\n\ny\n"])
        self.assertEqual(read_message(raw[:60]).sender, "a@b.c")

    def test_other_files(self) -> None:
        for raw in (b"", b"From: a@b.c\n\nFrom me\n",
                    b"From the hills we come\n\nFrom x Mon Nov  2 19:12:08 2026\nA: b\n"):
            self.assertEqual(split_mbox(raw), [raw])

    def test_a_sentence_is_no_message(self) -> None:
        raw = b"From a@b.c Mon Nov  2 19:12:08 2026\nTo: d\n\nx\n\nFrom 19:12 on in 2026\nwe stay\n"
        self.assertEqual(len(split_mbox(raw)), 1)


class Bodies(unittest.TestCase):
    def test_nobody_sent_a_file(self) -> None:
        message = read_body(b"From: a@b.c\n\n#ATLANTIS 1\n")
        self.assertEqual((message.sender, message.received, message.lines),
                         ("", None, ("From: a@b.c", "", "#ATLANTIS 1")))


if __name__ == "__main__":
    unittest.main()
