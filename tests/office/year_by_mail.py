#!/usr/bin/env python3
"""A year of six factions that play by mail alone: they mail their orders, read the replies and the reports in their own
mailboxes, and mail again. The moderator calls `kiwirudder`, and touches no letter. Dovecot and Postfix are real ones.
After the last month `kiwirudder replay` has to find every report and the books as they were. Called as

    tests/office/year_by_mail.py [MONTHS]

with 12 months where none is said. Status 77 where a tool is missing, with the reason on the last line."""

from __future__ import annotations

import base64
import re
import sys
import tempfile
import time
from collections.abc import Callable
from datetime import datetime, timedelta
from email.message import EmailMessage
from email.utils import format_datetime, make_msgid
from pathlib import Path

sys.path.insert(0, str(Path(__file__).resolve().parents[2]))

from tests.office.clubs import MODERATOR, TOP, ClubFolder, find_program  # noqa: E402
from tests.office.mailhouse import PASSWORD, MailHouse, missing_tool, text_of  # noqa: E402

SKIPPED = 77
PLAYERS = ("ann", "bob", "cat", "dan", "eve", "fay")
OTHERS = ("club", "phone", "mallory")  # the club's mailbox, an address of Ann's that nobody knows, and a stranger
SECONDS_BETWEEN_CLOCK_TICKS = 1.1  # a mail server notes the time of a mail in whole seconds
LAST_MONTH_OF_EVE = 5
FAY_MAILS_IN = 6
NOBODY = 0


def check(holds: object, what: str, seen: object = "") -> None:
    """AssertionError with what was seen where it doesn't hold."""
    if not holds:
        raise AssertionError(f"{what}; seen:\n{seen}")


def mail_of(sender: str, subject: str, text: str) -> EmailMessage:
    """A mail in plain text, as most programs write it."""
    message = EmailMessage()
    message["From"] = f"{sender.title()} <{sender}@club.test>"
    message["To"] = MODERATOR
    message["Subject"] = subject
    message["Date"] = format_datetime(datetime.now().astimezone())
    message["Message-ID"] = make_msgid(domain="club.test")
    message.set_content(text)
    return message


def orders_of(faction: int, *lines: str, pass_text: str = "") -> str:
    return "\n".join([f"#ATLANTIS {faction} {pass_text}".rstrip(), f"UNIT {faction}", *lines, "#END", ""])


class Year:
    """The club, its players, and what each has read so far. Faction n is that of the nth player, and so is its first
    unit, since they join in this order."""

    def __init__(self, house: MailHouse, club: ClubFolder) -> None:
        self.house = house
        self.club = club
        self.posted = 0
        self.read: dict[str, int] = dict.fromkeys(PLAYERS, 0)
        self.month = 1

    # What players do

    def post(self, sender: str, message: EmailMessage) -> None:
        """The mail is in the club's mailbox when this returns."""
        self.house.post(f"{sender}@club.test", "club", message)
        self.posted += 1
        self.house.wait_for("club", self.posted)

    def mail(self, sender: str, text: str, subject: str = "My orders") -> None:
        self.post(sender, mail_of(sender, subject, text))

    def new_letters(self, player: str) -> list[EmailMessage]:
        """What the player finds in the mailbox and hasn't read yet."""
        letters = self.house.read(player)[self.read[player]:]
        self.read[player] += len(letters)
        return letters

    def only_letter(self, player: str, subject: str) -> str:
        """The text of the one new letter, which must have these words in its subject."""
        letters = self.new_letters(player)
        subjects = [str(letter["Subject"]) for letter in letters]
        check(len(letters) == 1 and subject in subjects[0], f"{player} finds one letter: {subject!r}", subjects)
        check(letters[0]["From"] == MODERATOR, "it is from the club", letters[0]["From"])
        check(letters[0]["Auto-Submitted"] in ("auto-replied", "auto-generated"), "it is marked as automatic mail")
        return text_of(letters[0])

    def reply_to(self, player: str, orders: int, *parts: str) -> str:
        """The reply that the player reads says that so many orders were taken, and all these parts."""
        text = self.only_letter(player, "taken")
        count = "1 order" if orders == 1 else f"{orders} orders"
        for part in (f"month {self.month}", f"{count}", *parts):
            check(part in " ".join(text.split()), f"the reply to {player} in month {self.month} says {part!r}", text)
        return text

    def finds_nothing(self, player: str) -> None:
        letters = self.new_letters(player)
        check(not letters, f"{player} gets no letter", [str(letter["Subject"]) for letter in letters])

    # What the moderator does

    def send(self, status: int = 0) -> None:
        """`send`, and the letters are in the mailboxes when this returns."""
        self.club.call("send", expected=status)
        check(not self.club.letters(), "all letters were sent", self.club.letters())
        for player in PLAYERS:
            self.house.wait_for(player, self.letters_to(player))

    def letters_to(self, player: str) -> int:
        line = f"To: {player}@club.test".encode()
        return sum(line in path.read_bytes().split(b"\n\n")[0] for path in self.club.letters("out/sent"))

    def take(self, status: int = 0) -> str:
        """An evening's look at the mailbox: `fetch`, `take`, `send`."""
        self.club.call("fetch")
        said = self.club.call("take", expected=status)
        self.send(status)
        return said

    def close(self, status: int = 0) -> None:
        self.club.call("close", "--yes", expected=status)
        self.send()
        time.sleep(SECONDS_BETWEEN_CLOCK_TICKS)

    def kept(self, player: str) -> bytes:
        """The mailing of the player's faction that counts."""
        rows = self.club.ask(f"SELECT text FROM mail WHERE faction = {self.number(player)}")
        return bytes(rows[0][0]) if rows else b""  # type: ignore[call-overload,no-any-return]

    def waiting_message(self) -> str:
        """The one message that waits for the moderator, as `status` lists it."""
        waiting = re.findall(r"^  ([0-9a-f]{12})", self.club.call("status", expected=3), re.MULTILINE)
        check(len(waiting) == 1, "one message is held", waiting)
        return str(waiting[0])

    # A month

    def play_month(self, month: int) -> None:
        self.month = month
        events = EVENTS.get(month, ())
        busy = {player for event in events for player in event.players}
        ordinary = [player for player in PLAYERS if player not in busy and self.plays(player)]
        for player in ordinary:
            self.mail(player, f"Hello!\n\n{orders_of(self.number(player), 'WORK')}\nCheers, {player}\n")
        for event in events:
            event.before(self)
        if ordinary or events:
            self.take(3 if any(event.holds for event in events) else 0)
        for player in ordinary:
            self.reply_to(player, 1, "WORK")
        for event in events:
            event.after(self)
        self.close()
        self.read_reports()

    def number(self, player: str) -> int:
        return PLAYERS.index(player) + 1

    def plays(self, player: str) -> bool:
        return (player != "eve" or self.month <= LAST_MONTH_OF_EVE) and (player != "fay" or self.month == FAY_MAILS_IN)

    def read_reports(self) -> None:
        """Each player reads the whole report of the month; who was gone before it gets none."""
        for player in PLAYERS:
            number = self.number(player)
            if player == "eve" and self.month > LAST_MONTH_OF_EVE:
                self.finds_nothing(player)
                continue
            text = self.only_letter(player, f"report of month {self.month}, faction {number}")
            report = (self.club.folder / "months" / str(self.month) / f"report-{number}.txt").read_text()
            check(report.startswith(f"Atlantis report, month {self.month}, faction {number} "), "a report", report)
            check(report in text, f"{player} reads the whole report of month {self.month}", text)


class Event:
    """What is unusual in a month: mail of `players` before the moderator looks, and what is read and done after it.
    `holds` says that a message waits for the moderator then."""

    players: tuple[str, ...] = ()
    holds = False

    def before(self, year: Year) -> None:
        """Mails."""

    def after(self, year: Year) -> None:
        """Reads, and acts on it."""


class Corrected(Event):
    """Bob's mail has a fault. He reads the reply, and mails the whole again."""

    players = ("bob",)

    def before(self, year: Year) -> None:
        year.mail("bob", "\n" + orders_of(2, "RECRUT 2", "STUDY observation"))

    def after(self, year: Year) -> None:
        text = year.reply_to("bob", 1, "1 line with a fault")
        check(re.search(r"^ *4 +RECRUT 2\n +\^\^ 2 UnknownOrder", text, re.MULTILINE),
              "the fault is below the line, which has its number in the mail", text)
        year.mail("bob", orders_of(2, "RECRUIT 2", "STUDY observation"), "Re: My orders")
        year.take()
        text = year.reply_to("bob", 2, "replaces your mailing", "1 order, now 2")
        check("fault" not in text, "no fault is left", text)


class OnlyHtml(Event):
    """Cat's program writes HTML alone."""

    players = ("cat",)

    def before(self, year: Year) -> None:
        message = mail_of("cat", "Orders", "")
        lines = "</div><div>".join(orders_of(3, "WORK").split("\n"))
        message.set_content(f"<html><body><p>Hi,</p><div>{lines}</div><p><b>Cat</b></p></body></html>", subtype="html")
        year.post("cat", message)

    def after(self, year: Year) -> None:
        year.reply_to("cat", 1, "WORK", "HTML")


class Base64(Event):
    """Ann's program encodes the text in base64, in UTF-8 with a byte order mark, and makes the quotes curly."""

    players = ("ann",)

    def before(self, year: Year) -> None:
        message = mail_of("ann", "Zw\u00f6lf", "x")
        text = "\ufeffHallo!\n\n" + orders_of(1, "NAME UNIT \u201cGreen men\u201d", "WORK")
        message.set_payload(base64.encodebytes(text.replace("\n", "\r\n").encode()).decode())
        message.replace_header("Content-Transfer-Encoding", "base64")
        message.set_param("charset", "utf-8")
        year.post("ann", message)

    def after(self, year: Year) -> None:
        text = year.reply_to("ann", 2, 'NAME UNIT "Green men"')
        check("quotes" in text, "the reply says that quotes were changed", text)


class QuotedReport(Event):
    """Dan writes above the report, which his program quotes; it has no #END, and old orders are in it."""

    players = ("dan",)

    def before(self, year: Year) -> None:
        report = (year.club.folder / "months" / str(year.month - 1) / "report-4.txt").read_text()
        quoted = "".join(f"> {line}\n" for line in ["#ATLANTIS 4", "UNIT 4", "TAX", *report.split("\n")])
        year.mail("dan", f"#ATLANTIS 4\nUNIT 4\nSTUDY sailing\n\nDan\n-- \nWork 020 7946 0958\n\n"
                         f"On 3 May 2026 at 20:00, The club wrote:\n{quoted}", "Re: report")

    def after(self, year: Year) -> None:
        text = year.reply_to("dan", 1, "STUDY sailing", "#END")
        check(not re.search(r"^ +\d+ +(TAX|Work)", text, re.MULTILINE), "neither signature nor quote is an order", text)


class OtherAddress(Event):
    """Ann mails from a telephone whose address nobody knows, with the pass text on the header."""

    players = ("ann",)

    def before(self, year: Year) -> None:
        year.mail("phone", orders_of(1, "WORK", pass_text=year.club.pass_text(1)))

    def after(self, year: Year) -> None:
        text = year.reply_to("ann", 1)
        check(year.club.pass_text(1) not in text, "the reply hasn't the pass text", text)
        check(year.club.pass_text(1).encode() not in year.kept("ann"), "nor what is kept", year.kept("ann"))


class ForgedQuit(Event):
    """A stranger mails QUIT for Eve: once from an address of her own, once under Eve's. Eve reads of both, and asks."""

    players = ("eve",)

    def before(self, year: Year) -> None:
        year.mail("eve", orders_of(5, "WORK"))
        year.mail("mallory", orders_of(5, "QUIT 5"), "Goodbye")
        year.post("mallory", mail_of("eve", "Goodbye again", orders_of(5, "QUIT 5")))

    def after(self, year: Year) -> None:
        letters = year.new_letters("eve")
        texts = [text_of(letter) for letter in letters if "NOT taken" in str(letter["Subject"])]
        subjects = [str(letter["Subject"]) for letter in letters]
        check(len(letters) == 3 and len(texts) == 2, "Eve reads of both forgeries", subjects)
        check(any("mallory@club.test" in text for text in texts), "and who wrote the one", texts)
        check(any("pass text" in text for text in texts), "and what QUIT needs", texts)
        kept = year.kept("eve")
        check(b"WORK" in kept and b"QUIT" not in kept, "her own orders stay", kept)
        check(year.house.count("mallory") == 0, "the stranger reads nothing")
        self._ask(year)

    @staticmethod
    def _ask(year: Year) -> None:
        """A letter without orders is answered, and waits for the moderator."""
        year.mail("eve", "Was that you? I did not write that.\n", "A question")
        year.take(3)
        text = " ".join(year.only_letter("eve", "no orders").split())
        check("moderator will read it" in text, "her letter is answered", text)
        year.club.call("refuse", year.waiting_message())


class OutOfOffice(Event):
    """Fay is silent and gets a reminder. Her program answers that she is away, with the reminder's example quoted."""

    def before(self, year: Year) -> None:
        year.club.call("remind")
        year.send()
        text = year.only_letter("fay", "no orders yet")
        for player in set(PLAYERS) - {"fay"}:
            year.new_letters(player)
        message = mail_of("fay", "Automatic reply: no orders yet", f"I am away.\n\n{text}\nUNIT 6\nTAX\n#END\n")
        message["Auto-Submitted"] = "auto-replied"
        year.post("fay", message)

    def after(self, year: Year) -> None:
        year.finds_nothing("fay")
        check(not year.kept("fay"), "nothing was taken for her")


class Replaced(Event):
    """Cat mails twice on one evening: the second mailing counts."""

    players = ("cat",)

    def before(self, year: Year) -> None:
        year.mail("cat", orders_of(3, "WORK", "RECRUIT 1", "NAME UNIT Cats"))
        time.sleep(SECONDS_BETWEEN_CLOCK_TICKS)
        year.mail("cat", orders_of(3, "STUDY observation"), "and also ..")

    def after(self, year: Year) -> None:
        first, second = (text_of(letter) for letter in year.new_letters("cat"))
        if "This replaces" in first:
            first, second = second, first
        second = " ".join(second.split())
        check("3 orders" in first and "3 orders, now 1" in second, "the second says what it replaces", second)
        kept = year.kept("cat")
        check(b"STUDY" in kept and b"WORK" not in kept, "the second counts", kept)


class Late(Event):
    """Dan mails after the deadline. It is held, Dan reads that, and the moderator accepts it."""

    players = ("dan",)
    holds = True

    def before(self, year: Year) -> None:
        moment = datetime.now().replace(microsecond=0) + timedelta(seconds=1)
        year.club.change_settings("# next_deadline = 2027-01-08T20:00:00", f"next_deadline = {moment.isoformat()}")
        time.sleep(1 + SECONDS_BETWEEN_CLOCK_TICKS)
        year.mail("dan", orders_of(4, "WORK"), "Sorry")

    def after(self, year: Year) -> None:
        text = year.only_letter("dan", "late")
        check("after the deadline" in text and "held" in text, "Dan reads that he is late", text)
        check(not year.kept("dan"), "it isn't taken yet")
        year.club.call("accept", year.waiting_message())
        year.send()
        year.reply_to("dan", 1, "WORK")


class Quits(Event):
    """Eve quits, with her pass text. She reads the last report, and nothing afterwards."""

    players = ("eve",)

    def before(self, year: Year) -> None:
        year.mail("eve", orders_of(5, "QUIT 5", pass_text=year.club.pass_text(5)), "Farewell")

    def after(self, year: Year) -> None:
        year.reply_to("eve", 1, "QUIT takes your whole faction out of the game")


EVENTS: dict[int, tuple[Event, ...]] = {
    1: (Corrected(), OnlyHtml()),
    2: (Base64(), QuotedReport(), ForgedQuit()),
    3: (OtherAddress(), Replaced(), OutOfOffice()),
    4: (Late(),),
    LAST_MONTH_OF_EVE: (Quits(), QuotedReport()),
    7: (Corrected(), Base64(), OutOfOffice()),
    10: (Replaced(), QuotedReport()),
}


def read_welcome(year: Year, player: str) -> None:
    """The first letter has all that a player needs to mail orders."""
    letters = year.new_letters(player)
    check(len(letters) == 1, f"{player} gets one letter of welcome", letters)
    number = year.number(player)
    text = text_of(letters[0])
    for part in (f"#ATLANTIS {number}", year.club.pass_text(number), f'Atlantis report, month 0, faction {number} "',
                 f"#ATLANTIS {number} {year.club.pass_text(number)}"):
        check(part in text, f"the welcome of {player} has {part!r}", text)
    names = {part.get_filename() for part in letters[0].iter_attachments()}
    check({"world.toml", "QUICKSTART.md", "PLAYER.md"} <= names, "the prices and the handbook are with it", names)


def found(house: MailHouse, club: ClubFolder) -> Year:
    club.found(TOP / "worlds" / "coast.toml", "--name", "The coast", "--apart", "6")
    (club.folder / "mail-password").write_text(PASSWORD + "\n")
    club.add_settings(house.settings("starttls"))
    club.change_settings("replies_a_day = 10", f'replies_a_day = 1000\ncertificates = "{house.certificate}"')
    year = Year(house, club)
    for player in PLAYERS:
        club.call("join", f"The people of {player}", f"{player}@club.test")
    year.send()
    for player in PLAYERS:
        read_welcome(year, player)
    return year


def check_all_once(year: Year) -> None:
    """Each letter that was sent is in its mailbox, and none is there twice."""
    for player in PLAYERS:
        ids = [str(letter["Message-ID"]) for letter in year.house.read(player)]
        check(len(ids) == len(set(ids)) == year.letters_to(player), f"{player} has each letter once", ids)
    check(not year.club.letters("out/failed"), "no letter failed", year.club.letters("out/failed"))


def play(months: int, say: Callable[[str], None]) -> None:
    began = time.monotonic()
    with MailHouse((*PLAYERS, *OTHERS)) as house, tempfile.TemporaryDirectory(prefix="year-") as folder:
        year = found(house, ClubFolder(Path(folder) / "club"))
        say(f"six factions have joined, {time.monotonic() - began:.0f} s")
        for month in range(1, months + 1):
            year.play_month(month)
            say(f"month {month}, {time.monotonic() - began:.0f} s")
        check_all_once(year)
        said = year.club.call("replay")
        say(said.strip().split("\n")[-1])
        letters = sum(year.letters_to(player) for player in PLAYERS)
        say(f"year: {months} months, {year.posted} mails, {letters} letters read, all as expected")


def main(arguments: list[str]) -> int:
    reason = missing_tool() or ("" if find_program() else "no program is there: ./gm path says why")
    if reason:
        print(reason)
        return SKIPPED
    try:
        play(int(arguments[0]) if arguments else 12, lambda text: print(text, flush=True))
    except AssertionError as error:
        print(f"year: {error}", file=sys.stderr)
        return 1
    return 0


if __name__ == "__main__":
    sys.exit(main(sys.argv[1:]))
