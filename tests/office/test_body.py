"""How the parts of a message become plain lines."""

import base64
import codecs
import html
import struct
import unicodedata
import unittest
from email.message import EmailMessage
from email.policy import SMTP
from email.policy import default as DEFAULT

from office.mail.blocks import find_blocks
from office.mail.body import PART_BREAK
from office.mail.charsets import NAMES, decode
from office.mail.fields import decode_base64
from office.mail.flowed import join_flowed, without_pgp
from office.mail.html_lines import html_lines
from office.mail.limits import MOST_BYTES, MOST_LINES
from office.mail.message import Message, read_body, read_message
from office.mail.notes import Change, Note
from office.mail.signs import plain_lines, plain_signs, split_lines

MAILING = "#ATLANTIS 1\nUNIT 1\nWORK\n#END\n"


def lines_of(head: str, body: bytes) -> list[str]:
    return list(read_message(head.encode() + b"\n\n" + body).lines)


def changes_of(head: str, body: bytes) -> set[Change]:
    return {note.change for note in read_message(head.encode() + b"\n\n" + body).notes}


def multipart(kind: str, *parts: str) -> bytes:
    pieces = "".join(f"--b\n{part}\n" for part in parts)
    return f"Content-Type: multipart/{kind}; boundary=b\n\nnot seen\n{pieces}--b--\nnot seen\n".encode()


class Charsets(unittest.TestCase):
    def test_named(self) -> None:
        for data, charset, text in ((b"\xe9", "ISO-8859-1", "é"), (b"\x93", "iso-8859-1", "“"),
                                    (b"\xc3\xa9", "utf-8", "é"), (b"\xe9", "\"windows-1252\"", "é"),
                                    (b"\xd0", "koi8-r", "п"), (b"+AOk-", "utf-7", "é"),
                                    ("é".encode("utf-16"), "utf-16", "é"), (b"\x00\xe9", "utf-16", "é"),
                                    (b"\xe9\x00", "UTF-16LE", "é"), (b"a", "us-ascii", "a")):
            self.assertEqual(decode(data, charset), (text, False), charset)

    def test_guessed(self) -> None:
        for data, charset in ((b"\xe9", "utf-8"), (b"\xc3\xa9", "us-ascii2"), (b"\xc3\xa9", "rot13"),
                              (b"\xe9", "../../x"), (b"\xe9", "zlib")):
            self.assertEqual(decode(data, charset), ("é", True), charset)
        self.assertEqual(decode(b"caf\xe9"), ("café", False))

    def test_all_names_are_codecs(self) -> None:
        for name in ("iso-8859-2", "ISO_8859-15", "windows-1250", "cp1251", "windows-1258", "ibm850", "cp437",
                     "macintosh", "koi8-u", "gb2312", "gbk", "gb18030",
                     "big5", "euc-kr", "ks_c_5601-1987", "euc-jp", "shift_jis", "iso-2022-jp", "latin1", "l1",
                     "unicode-1-1-utf-8", "ansi_x3.4-1968"):
            self.assertEqual(decode(b"WORK 1", name), ("WORK 1", False), name)
        for codec in NAMES.values():
            self.assertTrue(codecs.lookup(codec)._is_text_encoding, codec)  # type: ignore[attr-defined]

    def test_no_charset_runs_a_codec_that_isnt_for_mail(self) -> None:
        for charset in ("hex", "unicode_escape", "idna", "punycode", "bz2", "undefined", "mbcs", "a" * 5000, "\0",
                        "utf-8\0"):
            decode(b"\\u0041", charset)


class Lines(unittest.TestCase):
    def test_line_ends_of_any_system(self) -> None:
        for text in ("a\nb\nc", "a\r\nb\r\nc\r\n", "a\rb\rc\r", "a\r\r\nb\u2028c", "a\x85b\u2029c"):
            self.assertEqual(split_lines(text), ["a", "b", "c"], repr(text))
        self.assertEqual(split_lines("a\r\r\n\r\nb\r\rc"), ["a", "", "b", "", "c"])

    def test_signs_become_plain(self) -> None:
        lines, notes = plain_lines(["NAME UNIT \u201cGuards\u2019 Hall\u201d", "WORK", "PAY\u00a05\u202f100",
                                    "#ATLANTIS\u200b 1\ufeff", "a\u2014b\u2013c\u2026", "x\0\ty"])
        self.assertEqual(lines, ["NAME UNIT \"Guards' Hall\"", "WORK", "PAY 5 100", "#ATLANTIS 1", "a--b-c...", "x\ty"])
        self.assertEqual(notes, [Note(Change.QUOTES, (1,)), Note(Change.DASHES, (5,)), Note(Change.ELLIPSES, (5,)),
                                 Note(Change.SPACES, (3,)),
                                 Note(Change.HIDDEN, (4, 6))])

    def test_signs_by_the_tables_of_unicode(self) -> None:
        signs = list(map(chr, [*range(0x20000), *range(0xE0000, 0xE1000)]))
        for sign in (sign for sign in signs if unicodedata.category(sign) == "Zs"):
            self.assertEqual(plain_signs(f"a{sign}b"), "a b", hex(ord(sign)))
        hidden = [sign for sign in signs if unicodedata.category(sign) == "Cc" and sign not in "\t\n"]
        hidden += [sign for sign in signs if unicodedata.bidirectional(sign) in ("LRE", "RLE", "LRO", "RLO", "PDF",
            "LRI", "RLI", "FSI", "PDI", "BN") and sign not in hidden]
        for sign in (sign for sign in hidden if unicodedata.category(sign) in ("Cc", "Cf")
                     and ord(sign) not in range(0x1BCA0, 0x1D17B)):
            self.assertEqual(plain_signs(f"a{sign}b"), "ab", hex(ord(sign)))

    def test_other_letters_stay_for_the_program_to_judge(self) -> None:
        self.assertEqual(plain_lines(["WORK ; café \u05d0"]), (["WORK ; café \u05d0"], []))

    def test_marks_of_direction_go_away(self) -> None:
        lines, notes = plain_lines(["\u202e#ATLANTIS 1", "WO\u2066RK\u2069"])
        self.assertEqual((lines, notes), (["#ATLANTIS 1", "WORK"], [Note(Change.HIDDEN, (1, 2))]))


class Encodings(unittest.TestCase):
    def test_base64_that_is_cut(self) -> None:
        data = base64.b64encode(MAILING.encode())
        self.assertEqual(lines_of("Content-Transfer-Encoding: BASE64", data[:21])[0], "#ATLANTIS 1")
        self.assertEqual(lines_of("Content-Transfer-Encoding: base64", b"!!" + data[:3] + b"\n-- " + data[3:])[0],
                         "#ATLANTIS 1")

    def test_base64_of_any_length(self) -> None:
        for data, decoded in ((b"", b""), (b"Q", b""), (b"QU", b"A"), (b"QUI", b"AB"), (b"QUJD", b"ABC"),
                              (b"QUJDR", b"ABC"),
                              (b"QUJDRA==", b"ABCD"), (b"Q*U-J\r\nD", b"ABC"), (b"QQ==QUJD", b"AABC")):
            self.assertEqual(decode_base64(data), decoded, data)

    def test_quoted_printable(self) -> None:
        head = "Content-Type: text/plain; charset=utf-8\nContent-Transfer-Encoding: quoted-printable"
        self.assertEqual(lines_of(head, b"NAME UNIT =C3=89ric= \nX =3D 1  \nUNIT=201\n=\n=ZZ\n"),
                         ["NAME UNIT ÉricX = 1", "UNIT 1", "=ZZ"])

    def test_unknown_encoding_is_read_as_it_is(self) -> None:
        self.assertEqual(lines_of("Content-Transfer-Encoding: x-strange", b"WORK"), ["WORK"])


class WrittenByPackage(unittest.TestCase):
    """Messages as the package `email` of Python writes them."""

    TEXT = ("Chère modératrice,\n\n#ATLANTIS 1\nUNIT 1\n  NAME UNIT Grüne_Hügel ; " + "x" * 90
            + "\nWORK ; = . =20 From\n\n#END\n.\nFrom me\n")
    SUBJECT = "Für März:" + " Befehle" * 12

    def check(self, mail: EmailMessage) -> None:
        for raw in (mail.as_bytes(policy=SMTP), mail.as_bytes(policy=DEFAULT)):
            message = read_message(raw)
            self.assertEqual(message.lines, tuple(self.TEXT.split("\n")[:-1]))
            self.assertEqual((message.sender, message.subject), ("ann@example.org", self.SUBJECT))

    def mail(self) -> EmailMessage:
        mail = EmailMessage()
        mail["From"] = "Änne Müller <ann@example.org>"
        mail["Subject"] = self.SUBJECT
        return mail

    def test_encodings_and_charsets(self) -> None:
        for charset in ("utf-8", "iso-8859-1", "iso-8859-15", "cp1252", "cp850", "utf-7"):
            for encoding in ("8bit", "quoted-printable", "base64"):
                mail = self.mail()
                mail.set_content(self.TEXT, charset=charset, cte=encoding)
                with self.subTest(charset=charset, encoding=encoding):
                    self.check(mail)

    def test_alternatives_and_attachments(self) -> None:
        mail = self.mail()
        mail.set_content(self.TEXT)
        mail.add_alternative("<p>#ATLANTIS 2</p>", subtype="html")
        mail.add_attachment(b"x", maintype="image", subtype="png", filename="karte für märz.png")
        self.check(mail)

    def test_attached_text(self) -> None:
        mail = self.mail()
        mail.set_content("Siehe Anhang")
        mail.add_attachment(self.TEXT.encode("utf-16"), maintype="application", subtype="octet-stream",
                            filename="für märz " * 9 + ".txt")
        self.check(mail)

    def test_html(self) -> None:
        page = "".join(f"<div>{html.escape(line).replace('  ', '&nbsp; ') or '<br>'}</div>"
                       for line in self.TEXT.split("\n")[:-1])
        mail = self.mail()
        mail.set_content(f"<html><body>{page}</body></html>", subtype="html")
        self.check(mail)


class Flowed(unittest.TestCase):
    def test_soft_breaks(self) -> None:
        lines = ["STUDY sailing ; and then we ", "WORK or build", " indented", "-- ", "x "]
        self.assertEqual(join_flowed(lines, False),
                         (["STUDY sailing ; and then we WORK or build", "indented", "-- ", "x "], [1]))

    def test_deleted_space(self) -> None:
        self.assertEqual(join_flowed(["WO ", "RK", "a  ", "b"], True), (["WORK", "a b"], [1, 2]))

    def test_quotes_are_joined_among_themselves(self) -> None:
        lines = ["> a ", "> b", ">> c ", "d ", "> e"]
        self.assertEqual(join_flowed(lines, False), (["> a b", "> c ", "d ", "> e"], [1]))

    def test_in_a_message(self) -> None:
        head = "Content-Type: text/plain; charset=utf-8; Format=Flowed; delsp=yes"
        message = read_message(head.encode() + b"\n\n#ATLANTIS 1\nUNIT 1\nSTUDY  \nsailing\n#END\n")
        self.assertEqual(message.lines, ("#ATLANTIS 1", "UNIT 1", "STUDY sailing", "#END"))
        self.assertEqual(message.notes, (Note(Change.FLOWED, (3,)),))

    def test_only_where_the_head_says_so(self) -> None:
        self.assertEqual(lines_of("Content-Type: text/plain", b"UNIT 1 \nWORK\n"), ["UNIT 1 ", "WORK"])


class Html(unittest.TestCase):
    def test_lines(self) -> None:
        for text, lines in (
            ("a<br>b<BR/>c", ["a", "b", "c"]),
            ("<div>a</div><div><br></div><div>b<br></div><div>c</div>", ["a", "", "b", "c"]),
            ("<p>a</p>\n<p>b</p>", ["a", "", "b"]),
            ("<p class=MsoNormal>a<o:p></o:p></p>\n<p class=MsoNormal><o:p>&nbsp;</o:p></p><p class=MsoNormal>b</p>",
             ["a", "\xa0", "b"]),
            ("<pre>a\n  b\n\nc</pre>", ["a", "  b", "", "c"]),
            ("<div style='white-space: pre-wrap'>a\r\nb</div>", ["a", "b"]),
            ("a\n  b&amp;c &lt;d&gt; &#65;&#x42;&nosuch; &#99999999999;", ["a b&c <d> AB&nosuch;"]),
            ("<ul><li>a<li>b</ul>c", ["a", "b", "", "c"]),
            ("<table><tr><td>a</td><td>b</td></tr><tr><td>c</table>", ["a b", "c"]),
            ("a < b <3 c", ["a < b <3 c"]),
            ('<a title="x>y" href=\'z\'>a</a><img alt="b">', ["a"]),
            ("x<!-- <br> #ATLANTIS --><!DOCTYPE html>y", ["xy"]),
        ):
            self.assertEqual(html_lines(text, MOST_LINES), lines, text)

    def test_what_isnt_seen(self) -> None:
        for text in ("<style>a<br>b</style>", "<script>if (a<b) x='<br>'</script>",
                     "<div style='x:y; DISPLAY : none'><p>a</p></div>", "<title>a</title>",
                     "<head><div>a</div></head>", "<!-- a", "<div hidden style=\"mso-hide:all\">a</div>"):
            self.assertEqual(html_lines("<p>1</p>" + text, MOST_LINES), ["1"], text)

    def test_quotes(self) -> None:
        for text in ("<blockquote>a<br>b</blockquote>", '<div class="gmail_quote"><div>a</div><div>b</div></div>',
                     '<div name="quote" style="border-left: 2px solid">a<br>b</div>',
                     '<blockquote type="cite" style="border:none">a<p>b</blockquote>'):
            self.assertEqual([line for line in html_lines(text, MOST_LINES) if line], ["> a", "> b"], text)
        indented = '<blockquote style="margin:0 0 0 40px;border:none;padding:0px">a</blockquote>'
        self.assertEqual(html_lines(indented, MOST_LINES), ["a"])

    def test_deep_elements_are_left_out(self) -> None:
        self.assertEqual(html_lines("1" + "<b>" * 200 + "deep" + "</b>" * 200 + "2", MOST_LINES), ["12"])


class Parts(unittest.TestCase):
    def test_plain_part_goes_before_html(self) -> None:
        raw = multipart("alternative", f"Content-Type: text/plain\n\n{MAILING}",
                        "Content-Type: text/html\n\n#ATLANTIS 2<br>")
        self.assertEqual([block.faction for block in find_blocks(read_message(raw).lines)], [1])

    def test_html_where_the_plain_part_has_no_header(self) -> None:
        raw = multipart("alternative", "Content-Type: text/plain\n\nThis mail is in HTML.",
                        "Content-Type: text/html\n\n<p>#ATLANTIS 2<br>UNIT 2</p>")
        message = read_message(raw)
        self.assertEqual((message.lines, message.notes), (("#ATLANTIS 2", "UNIT 2"), (Note(Change.HTML),)))

    def test_quoted_header_is_none(self) -> None:
        attached = f'Content-Type: text/plain; name="o.txt"\nContent-Disposition: attachment\n\n{MAILING}'
        raw = multipart("mixed", "Content-Type: text/plain\n\n> #ATLANTIS 3\n> UNIT 3", attached)
        self.assertEqual([block.faction for block in find_blocks(read_message(raw).lines)], [1])

    def test_header_in_another_message_alone_is_said(self) -> None:
        for text in ("> #ATLANTIS 3\n> UNIT 3", "-----Original Message-----\n#ATLANTIS 3"):
            self.assertEqual(read_message(multipart("mixed", f"\n{text}")).notes, (Note(Change.QUOTED_ORDERS),))
        self.assertEqual(read_message(multipart("mixed", f"\n{MAILING}\n> #ATLANTIS 3")).notes, ())

    def test_html_is_not_read_where_the_plain_part_quotes_a_header(self) -> None:
        page = "Content-Type: text/html\n\n<p>ok</p><div>#ATLANTIS 3<br>QUIT 3</div>"
        message = read_message(multipart("alternative", "\nok\n> #ATLANTIS 3\n> QUIT 3", page))
        self.assertEqual((find_blocks(message.lines), message.notes), ([], (Note(Change.QUOTED_ORDERS),)))

    def test_body_goes_before_an_attachment_and_a_note_says_so(self) -> None:
        attached = "Content-Type: text/plain\nContent-Disposition: attachment; filename=o.txt\n\n#ATLANTIS 2"
        message = read_message(multipart("mixed", f"Content-Type: text/plain\n\n{MAILING}", attached))
        self.assertEqual(([block.faction for block in find_blocks(message.lines)], message.notes),
                         ([1], (Note(Change.OTHER_ORDERS),)))

    def test_two_plain_parts(self) -> None:
        message = read_message(multipart("mixed", "\n#ATLANTIS 1\nUNIT 1", "Content-Type: image/png\n\nx",
                                         "Content-Type: text/plain\n\nWORK"))
        self.assertEqual(message.lines, ("#ATLANTIS 1", "UNIT 1", PART_BREAK, "WORK"))

    def test_forwarded_message_never_counts(self) -> None:
        message = read_message(multipart("mixed", "\nsee below",
                                         f"Content-Type: message/rfc822\n\nFrom: a@b.c\n\n{MAILING}"))
        self.assertEqual((message.lines, message.notes), (("see below",), (Note(Change.FORWARDED),)))
        digest = read_message(multipart("digest", f"\nFrom: a@b.c\n\n{MAILING}"))
        self.assertEqual((digest.lines, digest.notes), ((), (Note(Change.FORWARDED),)))

    def test_notes_count_lines_over_all_parts(self) -> None:
        flowed = "Content-Type: text/plain; format=flowed\n\nUNIT \n1"
        message = read_message(multipart("mixed", "\na\nb", flowed, flowed))
        self.assertEqual((message.lines, message.notes),
                         (("a", "b", PART_BREAK, "UNIT 1", PART_BREAK, "UNIT 1"), (Note(Change.FLOWED, (4, 6)),)))

    def test_nested_parts_without_a_last_boundary(self) -> None:
        raw = (b'Content-Type: multipart/mixed; boundary="a b"\n\n--a b\n'
               b'Content-Type: multipart/alternative; boundary=c\n\n--c\n\n'
               b"#ATLANTIS 1\n--ca\n--c\nContent-Type: text/html\n\nx\n--a b\nContent-Type: image/png\n\ny\n")
        self.assertEqual(read_message(raw).lines, ("#ATLANTIS 1", "--ca"))

    def test_boundaries_at_the_ends(self) -> None:
        head = b"Content-Type: multipart/mixed; boundary=b\n\n"
        for body, lines in ((b"--b\n\nx\n--b--", ("x",)), (b"--b\n\nx\n--b", ("x",)), (b"--b", ()), (b"--b\n", ()),
                            (b"", ()),
                            (b"--b\n\nx", ("x",)), (b"--b--\n--b\n\nx", ()), (b"a--b\n\nx", ()),
                            (b"--b\r\n\r\nx\r\n--b--", ("x",)),
                            (b"--b \t\n\nx\n--b-- \ny", ("x",))):
            self.assertEqual(read_message(head + body).lines, lines, body)
        self.assertEqual(read_message(b"Content-Type: multipart/mixed\n\n--b\n\nx").lines, ())
        self.assertEqual(read_message(b"Content-Type: multipart/mixed; boundary=\"" + b"b" * 201 + b"\"\n\nx").lines,
                         ())

    def test_file_names(self) -> None:
        percent = "Content-Disposition: attachment; filename*=utf-8''%6F.t%78t\nContent-Type: application/octet-stream"
        self.assertEqual(read_message(multipart("mixed", "\nhello", f"{percent}\n\n{MAILING}")).lines[0], "#ATLANTIS 1")
        for field in ("Content-Disposition: attachment; filename*=utf-8''%C3%A9.TXT",
                      "Content-Type: application/octet-stream; name=\"=?utf-8?q?a.txt?=\"",
                      "Content-Disposition: attachment;\n filename*0=\"a.\";\n filename*1=\"txt\"\n"
                      "Content-Type: application/octet-stream"):
            message = read_message(multipart("mixed", "\nhello", f"{field}\n\n{MAILING}"))
            self.assertEqual(message.lines[0], "#ATLANTIS 1", field)
        for field in ("Content-Type: application/octet-stream; name=a.exe",
                      "Content-Type: application/pdf; name=a.txt"):
            self.assertEqual(read_message(multipart("mixed", "\nhello", f"{field}\n\n{MAILING}")).lines, ("hello",),
                             field)


class Signed(unittest.TestCase):
    def test_multipart_signed(self) -> None:
        raw = multipart("signed", f"Content-Type: text/plain\n\n{MAILING}",
                        "Content-Type: application/pgp-signature; name=signature.asc\n\n-----BEGIN PGP SIGNATURE-----")
        message = read_message(raw)
        self.assertEqual((message.lines, message.notes), (tuple(MAILING.split("\n")[:-1]), (Note(Change.SIGNED),)))

    def test_inline(self) -> None:
        text = ("Hi\n-----BEGIN PGP SIGNED MESSAGE-----\nHash: SHA256\n\n#ATLANTIS 1\nUNIT 1\nNAME UNIT Grey\n- -- \n"
                "- - x\n"
                "-----BEGIN PGP SIGNATURE-----\n\niQEz\nWORK\n-----END PGP SIGNATURE-----\nTAX\n").split("\n")
        lines, is_signed = without_pgp(text)
        self.assertTrue(is_signed)
        self.assertEqual(lines, ["Hi", "", "", "", "#ATLANTIS 1", "UNIT 1", "NAME UNIT Grey", "-- ", "- x", "", "", "",
                                 "", "", "TAX", ""])
        self.assertEqual(changes_of("A: b", "\n".join(text).encode()), {Change.SIGNED})

    def test_dashes_outside_of_signed_text_stay(self) -> None:
        self.assertEqual(without_pgp(["- a", "-----BEGIN PGP SIGNATURE-----", "x"]),
                         (["- a", "-----BEGIN PGP SIGNATURE-----", "x"], False))

    def test_what_cant_be_read_is_said(self) -> None:
        for raw, change in ((multipart("encrypted", "Content-Type: application/pgp-encrypted\n\nVersion: 1"),
                             Change.ENCRYPTED),
                            (b"Content-Type: application/pkcs7-mime; name=smime.p7m\n\nx", Change.ENCRYPTED),
                            (b"A: b\n\n-----BEGIN PGP MESSAGE-----\n\nx\n", Change.ENCRYPTED),
                            (multipart("mixed", "Content-Type: application/ms-tnef; name=winmail.dat\n\nx"),
                             Change.WINMAIL_UNREAD)):
            self.assertIn(change, {note.change for note in read_message(raw).notes})


def attribute(number: int, data: bytes) -> bytes:
    return struct.pack("<BII", 1, number, len(data)) + data + struct.pack("<H", sum(data) & 0xFFFF)


def text_property(number: int, kind: int, data: bytes) -> bytes:
    return struct.pack("<HHII", kind, number, 1, len(data)) + data + b"\0" * (-len(data) % 4)


class Winmail(unittest.TestCase):
    """Files as MS-OXTNEF describes them."""

    HEAD = (struct.pack("<IH", 0x223E9F78, 1) + attribute(0x89006, struct.pack("<I", 0x10000))
            + attribute(0x69007, struct.pack("<II", 1252, 0)))

    def read(self, data: bytes, first: str = "\nsee the file") -> Message:
        head = "Content-Type: application/ms-tnef; name=winmail.dat\nContent-Transfer-Encoding: base64\n\n"
        part = head + base64.encodebytes(data).decode()
        return read_message(multipart("mixed", first, part))

    def test_body(self) -> None:
        message = self.read(self.HEAD + attribute(0x2800C, MAILING.replace("\n", "\r\n").encode() + b"\0"))
        self.assertEqual((message.lines, message.notes), (tuple(MAILING.split("\n")[:-1]), (Note(Change.WINMAIL),)))

    def test_properties(self) -> None:
        other = struct.pack("<HHI", 0x3, 0x3FDE, 1) + struct.pack("<HH16sII", 0x1E, 0x8001, b"g" * 16, 1,
            6) + "ab\0".encode("utf-16-le") + b"\0\0" + struct.pack("<II", 1, 2) + b"x\0\0\0"
        several = struct.pack("<HHI", 0x1003, 0x1234, 2) + b"\0" * 8
        for number, kind, data, lines in ((0x1000, 0x1F, (MAILING + "\0").encode("utf-16-le"), MAILING),
                                          (0x1000, 0x1E, MAILING.encode() + b"\0", MAILING),
                                          (0x1013, 0x102, b"<p>#ATLANTIS 1<br>WORK</p>", "#ATLANTIS 1\nWORK\n")):
            properties = struct.pack("<I", 3) + other[:8] + several + text_property(number, kind, data)
            self.assertEqual(self.read(self.HEAD + attribute(0x69003, properties)).lines, tuple(lines.split("\n")[:-1]))
        named = struct.pack("<I", 3) + other + text_property(0x1000, 0x1E, MAILING.encode())
        self.assertEqual(self.read(self.HEAD + attribute(0x69003, named)).lines[0], "#ATLANTIS 1")

    def test_file(self) -> None:
        data = self.HEAD + attribute(0x69002, b"\0" * 14) + attribute(0x18010, b"Orders.TXT\0") + attribute(0x6800F,
            MAILING.encode("utf-16"))
        self.assertEqual(self.read(data).lines[0], "#ATLANTIS 1")
        self.assertEqual(self.read(data.replace(b"Orders.TXT", b"Orders.EXE")).lines, ("see the file",))

    def test_the_mail_itself_goes_before(self) -> None:
        message = self.read(self.HEAD + attribute(0x2800C, b"#ATLANTIS 2"), f"\n{MAILING}")
        self.assertEqual((message.lines[0], message.notes), ("#ATLANTIS 1", ()))

    def test_other_bytes(self) -> None:
        whole = self.HEAD + attribute(0x69003, struct.pack("<I", 1) + text_property(0x1000, 0x1E,
            b"x" * 9)) + attribute(0x2800C, MAILING.encode())
        for data in (b"", b"x", self.HEAD, self.HEAD + b"\1" + b"\xff" * 8,
                     self.HEAD + attribute(0x69003, b"\xff" * 400), *(whole[:size] for size in range(len(whole)))):
            self.assertIn(Note(Change.WINMAIL_UNREAD), self.read(data).notes)


class Limits(unittest.TestCase):
    def test_lines(self) -> None:
        message = read_body(b"x\n" * MOST_LINES)
        self.assertEqual((len(message.lines), message.notes), (MOST_LINES, ()))
        message = read_body(b"x\n" * (MOST_LINES + 1))
        self.assertEqual((len(message.lines), message.notes), (MOST_LINES, (Note(Change.CUT_LINES),)))

    def test_bytes(self) -> None:
        head = b"#ATLANTIS 1\n"
        self.assertEqual(read_body(head + b" " * (MOST_BYTES - len(head))).notes, ())
        self.assertEqual(read_body(head + b" " * (MOST_BYTES - len(head) + 1)).notes, (Note(Change.CUT_BYTES),))

    def test_parts(self) -> None:
        raw = multipart("mixed", *["\nx"] * 101)
        message = read_message(raw)
        self.assertEqual((message.lines.count("x"), message.notes), (100, (Note(Change.CUT_PARTS),)))
        self.assertEqual(read_message(multipart("mixed", *["\nx"] * 100)).notes, ())

    def test_depth(self) -> None:
        for depth, lines, notes in ((20, ("x",), ()), (21, (), (Note(Change.CUT_PARTS),))):
            raw = b"".join(b"Content-Type: multipart/mixed; boundary=b%d\n\n--b%d\n" % (i, i)
                           for i in range(depth)) + b"\nx\n"
            message = read_message(raw)
            self.assertEqual((message.lines, message.notes), (lines, notes))


if __name__ == "__main__":
    unittest.main()
