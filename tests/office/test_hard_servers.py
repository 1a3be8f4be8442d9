"""`send` and `fetch` over mail servers that refuse, put off, are slow, or drop the line: no letter and no message is
lost, and none is sent or taken twice but a letter whose line was dropped when the server had it whole."""

from __future__ import annotations

import contextlib
import io
import shutil
import socket
import tempfile
import time
import unittest
from collections.abc import Callable, Iterator
from contextlib import contextmanager
from pathlib import Path
from unittest import mock

from office.club.club import Club
from office.club.files import make_folder
from office.command import main
from office.mail import fetching, sending
from office.mail.taking import BYTES_KEPT_ASIDE
from tests.office.mailhouse import make_certificate
from tests.office.scripted import DROP, SILENCE, ImapScript, ScriptedImap, ScriptedSmtp, SmtpScript
from tests.tools.ports import HOST, free_port

SILENT_SECONDS = 0.4
MANY = 2_000
LARGE = 30_000_000
Answer = Callable[[str, str], str]


def when(verb: str, answer: str, part: str = "") -> Answer:
    """This answer to one command, where its argument has this part; a good one to all others."""
    return lambda seen, argument: answer if seen == verb and part in argument else ""


GOOD = when("", "")


class HardServer(unittest.TestCase):
    """A club's folder without a campaign, which neither `send` nor `fetch` needs."""

    keys: Path
    certificate: Path
    key: Path

    @classmethod
    def setUpClass(cls) -> None:
        if shutil.which("openssl") is None:
            raise unittest.SkipTest("openssl is missing: apt-get install openssl")
        cls.keys = Path(tempfile.mkdtemp(prefix="keys-"))
        cls.addClassCleanup(shutil.rmtree, cls.keys)
        cls.certificate, cls.key = make_certificate(cls.keys)

    def setUp(self) -> None:
        self.folder = Path(tempfile.mkdtemp(prefix="club-"))
        self.addCleanup(shutil.rmtree, self.folder)
        (self.folder / "password").write_text("secret\n")
        self.set_port(1)
        for folder in Club(self.folder).places.folders():
            make_folder(folder)

    def set_port(self, port: int) -> None:
        server = f'host = "{HOST}"\nport = {port}\nuser = "club"\npassword_file = "password"\n'
        (self.folder / "club.toml").write_text(
            f'moderator = "club@club.test"\n[mail]\ncertificates = "{self.certificate}"\n'
            f"[imap]\n{server}[smtp]\n{server}")

    def run_office(self, *words: str) -> tuple[int, str]:
        """The status of a command, and all that it prints."""
        output = io.StringIO()
        with contextlib.redirect_stdout(output), contextlib.redirect_stderr(output):
            status = main(["--club", str(self.folder), *words])
        return status, output.getvalue()

    def names(self, place: str) -> list[str]:
        return sorted(path.name for path in (self.folder / place).glob("*.eml"))


class HardSmtp(HardServer):
    """Three letters wait: a, b and c, each to a player of its own."""

    def setUp(self) -> None:
        super().setUp()
        for name in "abc":
            self.write_letter(name, f"{name}@club.test")

    def write_letter(self, name: str, to: str) -> None:
        (self.folder / "out" / f"{name}.eml").write_text(
            f"From: club@club.test\nTo: {to}\nSubject: {name}\nMessage-ID: <{name}@club.test>\n\nHello\n.\n..dots\n")

    @contextmanager
    def server(self, answer: Answer, delay: float = 0.0) -> Iterator[SmtpScript]:
        script = SmtpScript(answer, delay)
        with ScriptedSmtp(script, self.certificate, self.key) as port:
            self.set_port(port)
            yield script

    def send(self, answer: Answer = GOOD, delay: float = 0.0) -> tuple[int, str]:
        """`send` to a server of its own; what it took is added to `self.taken`."""
        with self.server(answer, delay) as script:
            done = self.run_office("send")
        self.taken = getattr(self, "taken", []) + [(letter.to, letter.data) for letter in script.delivered]
        return done

    def addressed(self) -> list[str]:
        return sorted(address for to, _ in self.taken for address in to)

    def test_letters_arrive_as_they_are(self) -> None:
        self.assertEqual(0, self.send()[0])
        self.assertEqual(["a.eml", "b.eml", "c.eml"], self.names("out/sent"))
        self.assertTrue(all(data.endswith(b"Hello\r\n.\r\n..dots\r\n") for _, data in self.taken))
        self.assertEqual((0, "no letter waits\n"), self.send())
        self.assertEqual(3, len(self.taken))

    def test_refused_address(self) -> None:
        status, said = self.send(when("RCPT", "550 no such player", "b@"))
        self.assertEqual(3, status)
        self.assertIn("no such player", said)
        self.assertEqual((["a.eml", "c.eml"], ["b.eml"], []),
                         (self.names("out/sent"), self.names("out/failed"), self.names("out")))
        self.assertIn("no such player", (self.folder / "out" / "failed" / "b.json").read_text())
        self.send()
        self.assertEqual(["a@club.test", "c@club.test"], self.addressed())

    def test_refused_text_and_full_mailbox(self) -> None:
        for answer in ("554 looks like junk", "552 mailbox full"):
            with self.subTest(answer):
                self.write_letter("x", "x@club.test")
                status, _ = self.send(when("END", answer, "x@"))
                self.assertEqual((3, ["x.eml"]), (status, self.names("out/failed")))
                (self.folder / "out" / "failed" / "x.eml").unlink()
        self.assertEqual(["a@club.test", "b@club.test", "c@club.test"], self.addressed())

    def test_put_off(self) -> None:
        """Greylisting, a mailbox that is full at this time, and a server that has too much to do."""
        for verb, answer in (("RCPT", "451 come again"), ("RCPT", "452 full"), ("END", "452 full"),
                             ("MAIL", "421 busy")):
            with self.subTest(verb=verb, answer=answer):
                self.taken = []
                for name in "abc":
                    (self.folder / "out" / "sent" / f"{name}.eml").unlink(missing_ok=True)
                    self.write_letter(name, f"{name}@club.test")
                self.assertEqual(3, self.send(when(verb, answer))[0])
                self.assertEqual(["a.eml", "b.eml", "c.eml"], self.names("out"))
                self.assertEqual([], self.taken)
                self.assertEqual(0, self.send()[0])
                self.assertEqual(["a@club.test", "b@club.test", "c@club.test"], self.addressed())

    def test_two_addresses_of_which_one_is_put_off(self) -> None:
        """Who has the letter doesn't get it again."""
        self.write_letter("s", "p@club.test, q@club.test")
        status, _ = self.send(when("RCPT", "451 come again", "q@"))
        self.assertEqual((3, ["s.eml"]), (status, self.names("out")))
        self.assertEqual(0, self.send()[0])
        self.assertEqual([f"{name}@club.test" for name in "abcpq"], self.addressed())
        self.assertEqual([], [path.name for path in (self.folder / "out").iterdir() if path.is_file()])

    def test_two_addresses_of_which_one_is_refused(self) -> None:
        self.write_letter("s", "p@club.test, q@club.test")
        status, said = self.send(when("RCPT", "550 unknown", "p@"))
        self.assertEqual((3, ["s.eml"]), (status, self.names("out/failed")))
        self.assertIn("p@club.test", said)
        self.send()
        self.assertEqual([f"{name}@club.test" for name in "abcq"], self.addressed())

    def test_slow(self) -> None:
        self.assertEqual(0, self.send(delay=0.05)[0])
        self.assertEqual(3, len(self.taken))

    def test_line_dropped_behind_data(self) -> None:
        """The letter may come twice, and then it has the same Message-ID. The others come once."""
        status, said = self.send(when("END", DROP, "b@"))
        self.assertEqual((3, ["b.eml"], ["a.eml", "c.eml"]), (status, self.names("out"), self.names("out/sent")))
        self.assertIn("may come twice", said)
        self.assertEqual(0, self.send()[0])
        self.assertEqual([f"{name}@club.test" for name in "abbc"], self.addressed())
        twice = [data for to, data in self.taken if to == ("b@club.test",)]
        self.assertEqual(twice[0], twice[1])

    def test_line_dropped_before_data(self) -> None:
        for verb in ("GREETING", "EHLO", "MAIL", "RCPT", "DATA"):
            with self.subTest(verb):
                self.taken = []
                status, _ = self.send(when(verb, DROP))
                self.assertNotEqual(0, status)
                self.assertEqual(([], ["a.eml", "b.eml", "c.eml"]), (self.taken, self.names("out")))

    def test_no_answer(self) -> None:
        """A server that is silent is left after some letters, and not asked 500 times."""
        for number in range(20):
            self.write_letter(f"more-{number}", "m@club.test")
        for verb in ("GREETING", "MAIL", "DATA", "END"):
            with self.subTest(verb), mock.patch.object(sending, "SECONDS_OF_SILENCE", SILENT_SECONDS):
                began = time.monotonic()
                status, said = self.send(when(verb, SILENCE))
                self.assertEqual((1, 23), (status, len(self.names("out"))), said)
                self.assertLess(time.monotonic() - began, 20 * SILENT_SECONDS)

    def test_nobody_listens(self) -> None:
        self.set_port(free_port())
        status, said = self.run_office("send")
        self.assertEqual((1, ["a.eml", "b.eml", "c.eml"]), (status, self.names("out")))
        self.assertIn("letters stay in out/", said)

    def test_certificate_that_nobody_knows(self) -> None:
        with self.server(GOOD) as script:
            text = (self.folder / "club.toml").read_text()
            (self.folder / "club.toml").write_text(text.replace(f'certificates = "{self.certificate}"', ""))
            status, said = self.run_office("send")
        self.assertEqual((1, []), (status, script.commands), said)

    def test_wrong_password(self) -> None:
        with self.server(when("AUTH", "535 unknown")):
            status, said = self.run_office("send")
        self.assertEqual((1, ["a.eml", "b.eml", "c.eml"]), (status, self.names("out")), said)
        self.assertNotIn("secret", said)

    def test_refused_club(self) -> None:
        """What the server has against the club's own address it has against all letters: they stay."""
        status, said = self.send(when("MAIL", "530 sign in first"))
        self.assertEqual((1, ["a.eml", "b.eml", "c.eml"]), (status, self.names("out")), said)

    def test_letter_without_an_address(self) -> None:
        (self.folder / "out" / "by-hand.eml").write_text("From: club@club.test\nSubject: nobody\n\nHello\n")
        self.assertEqual(3, self.send()[0])
        self.assertEqual(["by-hand.eml"], self.names("out") + self.names("out/failed"))
        self.assertEqual(3, len(self.taken))


def message(number: int, length: int = 200) -> bytes:
    head = f"From: ann@club.test\r\nMessage-ID: <{number}@club.test>\r\nSubject: {number}\r\n\r\n".encode()
    return head + b"x" * (length - len(head) - 2) + b"\r\n"


class HardImap(HardServer):
    """A mailbox with five messages."""

    def setUp(self) -> None:
        super().setUp()
        self.script = ImapScript({uid: message(uid) for uid in range(1, 6)})

    def fetch(self) -> tuple[int, str]:
        with ScriptedImap(self.script, self.certificate, self.key) as port:
            self.set_port(port)
            return self.run_office("fetch")

    def texts(self) -> list[bytes]:
        return sorted(path.read_bytes() for path in (self.folder / "mail" / "in").glob("*.eml"))

    def test_each_message_once(self) -> None:
        self.assertEqual((0, "5 messages fetched\n"), self.fetch())
        self.assertEqual((0, "0 messages fetched\n"), self.fetch())
        self.script.messages[9] = message(9)
        self.assertEqual((0, "1 messages fetched\n"), self.fetch())
        self.assertEqual(sorted(self.script.messages.values()), self.texts())
        self.assertEqual(sorted(self.script.messages), self.script.fetched)

    def test_names_have_the_order_of_the_mailbox(self) -> None:
        self.script.messages = {uid: message(uid) for uid in (9, 10, 99, 100, 4_294_967_295)}
        self.fetch()
        names = sorted((self.folder / "mail" / "in").glob("*.eml"))
        self.assertEqual([message(uid) for uid in (9, 10, 99, 100, 4_294_967_295)], [path.read_bytes() for path in names])

    def test_line_dropped_in_a_message(self) -> None:
        for cut in (0, 1, 100, 199):
            with self.subTest(cut):
                self.setUp()
                self.script.cut = {3: cut}
                status, said = self.fetch()
                self.assertEqual((1, 2), (status, len(self.texts())), said)
                self.script.cut = {}
                self.assertEqual((0, "3 messages fetched\n"), self.fetch())
                self.assertEqual(sorted(self.script.messages.values()), self.texts())
                self.assertEqual([1, 2, 3, 3, 4, 5], self.script.fetched)

    def test_message_that_the_server_cannot_read(self) -> None:
        """It isn't taken for an empty one, and comes when the server can read it."""
        self.script.refused = frozenset({2})
        status, said = self.fetch()
        self.assertEqual(1, status, said)
        self.assertNotIn(b"", self.texts())
        self.script.refused = frozenset()
        self.assertEqual(0, self.fetch()[0])
        self.assertEqual(sorted(self.script.messages.values()), self.texts())

    def test_another_state_of_the_mailbox(self) -> None:
        """The numbers of a mailbox that was made anew say nothing: all comes again, and `take` knows it."""
        self.fetch()
        self.script.validity = 8
        self.script.messages = {uid: message(uid) for uid in (4, 5, 6)}
        self.assertEqual((0, "3 messages fetched\n"), self.fetch())
        self.assertEqual({message(uid) for uid in range(1, 7)}, set(self.texts()))

    def test_many_messages(self) -> None:
        """The server is asked once for each, and seldom for anything else."""
        self.script.messages = {uid: message(uid) for uid in range(1, MANY + 1)}
        self.assertEqual(0, self.fetch()[0])
        self.assertEqual(sorted(self.script.messages.values()), self.texts())
        self.assertLess(self.script.commands, MANY + MANY / 20)

    def test_large_message(self) -> None:
        """Only its beginning is fetched, and put aside."""
        self.script.messages[3] = message(3, LARGE)
        self.assertEqual((0, "5 messages fetched\n"), self.fetch())
        self.assertEqual(4, len(self.texts()))
        aside = list((self.folder / "mail" / "aside").glob("*.eml"))
        self.assertEqual([BYTES_KEPT_ASIDE], [path.stat().st_size for path in aside])
        self.assertLess(self.script.sent_bytes, 100_000)

    def test_full_folder(self) -> None:
        with mock.patch.object(fetching, "MOST_MESSAGES", 3):
            status, said = self.fetch()
        self.assertNotEqual(0, status)
        self.assertIn("kiwirudder take", said)
        self.assertEqual(3, len(self.texts()))
        self.assertEqual((0, "2 messages fetched\n"), self.fetch())

    def test_wrong_password(self) -> None:
        self.script.password = "another"
        status, said = self.fetch()
        self.assertEqual((1, []), (status, self.texts()))
        self.assertNotIn("secret", said)

    def test_no_answer(self) -> None:
        with socket.create_server((HOST, 0)) as silent:
            self.set_port(silent.getsockname()[1])
            with mock.patch.object(fetching, "SECONDS_OF_SILENCE", SILENT_SECONDS):
                self.assertEqual(1, self.run_office("fetch")[0])

    def test_nobody_listens(self) -> None:
        self.set_port(free_port())
        status, said = self.run_office("fetch")
        self.assertEqual(1, status)
        self.assertIn("can't be read", said)


del HardServer

if __name__ == "__main__":
    unittest.main()
