"""The settings of a club: the file club.toml, read at each call."""

from __future__ import annotations

import tomllib
from dataclasses import dataclass
from datetime import datetime
from pathlib import Path
from typing import Any

from office.errors import OfficeError

WEEKDAYS = ("monday", "tuesday", "wednesday", "thursday", "friday", "saturday", "sunday")
MOST_PORT = 65_535

TEMPLATE = """\
# The settings of this club. `kiwirudder` reads them at each call. A line that begins with # is a comment:
# take the # away to set it. Times are those of this machine.

name = {name}
# The address from which players get their letters, and to which they mail their orders.
moderator = {moderator}

[month]
# Mail that comes after the deadline is held for you. Without this line there is no deadline.
# deadline = "friday 20:00"
# The first deadline after a closing is at least this many days away.
least_days = 3
# A date in the place of the next deadline, such as a holiday:
# next_deadline = 2027-01-08T20:00:00

[mail]
# Your own mail server's name in the lines `Authentication-Results:` of the mail that it brings (ask whoever runs it).
# With it, mail without a pass text counts only if this server says that the sender's address is real.
# server = "mx.example.org"
# At most this many letters a day go to one address in answer to its mail.
replies_a_day = 10
# The certificates of your mail servers, if they are none that this machine knows.
# certificates = "mail-servers.pem"

# Without this table, messages are files in the folder mail/in.
# [imap]
# host = "imap.example.org"
# port = 993
# user = "atlantis"
# # The file of this folder whose first line is the password. Only you may read it: chmod 600 imap-password
# password_file = "imap-password"
# folder = "INBOX"

# Without this table, letters are files in the folder out.
# [smtp]
# host = "smtp.example.org"
# port = 465
# # "tls", or "starttls" (port 587), or "none" for a server on this machine
# security = "tls"
# user = "atlantis"
# password_file = "smtp-password"

[serve]
# The port of `kiwirudder serve`, which answers the players' page.
port = 8080

[papers]
# The chronicle shows ranks, the books and press. With true it also shows each faction's money and units.
open = false
"""


@dataclass(frozen=True)
class Server:
    """A mail server. `security` is tls, starttls or none; an empty `user` means no sign-in."""

    host: str
    port: int
    security: str
    user: str
    password_file: str
    folder: str


@dataclass(frozen=True)
class Settings:
    """What club.toml says. `deadline` is a weekday from 0 (Monday), an hour and a minute."""

    name: str
    moderator: str
    deadline: tuple[int, int, int] | None
    least_days: int
    next_deadline: datetime | None
    mail_server: str
    replies_a_day: int
    imap: Server | None
    smtp: Server | None
    port: int
    papers_open: bool
    certificates: str


class _Table:
    """A table of club.toml whose keys are taken one by one, so that a misspelled key is found."""

    def __init__(self, name: str, value: Any) -> None:
        if not isinstance(value, dict):
            raise OfficeError(f"club.toml: {name} must be a table: write [{name}] above its lines")
        self.name = name
        self.rest = dict(value)

    def take(self, key: str, kind: type, default: Any) -> Any:
        value = self.rest.pop(key, default)
        if isinstance(value, bool) and kind is not bool or not isinstance(value, kind):
            raise OfficeError(f"club.toml: {self._path(key)} must be {_KINDS[kind]}")
        return value

    def number(self, key: str, default: int, least: int, most: int) -> int:
        value: int = self.take(key, int, default)
        if not least <= value <= most:
            raise OfficeError(f"club.toml: {self._path(key)} must be from {least} to {most}")
        return value

    def done(self) -> None:
        for key in self.rest:
            raise OfficeError(f"club.toml: there is no setting {self._path(key)}: is it misspelled?")

    def _path(self, key: str) -> str:
        return f"{self.name}.{key}" if self.name else key


_KINDS: dict[type, str] = {str: "a text in quotes", int: "a whole number", bool: "true or false",
                           datetime: "a date with a time, such as 2027-01-08T20:00:00", dict: "a table"}


def _deadline(text: str) -> tuple[int, int, int] | None:
    if not text:
        return None
    day, _, time = text.lower().partition(" ")
    hour, _, minute = time.partition(":")
    if day in WEEKDAYS and hour.isdigit() and minute.isdigit() and int(hour) < 24 and int(minute) < 60:
        return WEEKDAYS.index(day), int(hour), int(minute)
    raise OfficeError('club.toml: month.deadline must be a weekday and a time, such as "friday 20:00"')


def _server(name: str, value: Any, port: int, security: str) -> Server | None:
    if value is None:
        return None
    table = _Table(name, value)
    server = Server(
        host=table.take("host", str, ""),
        port=table.number("port", port, 1, MOST_PORT),
        security=table.take("security", str, security),
        user=table.take("user", str, ""),
        password_file=table.take("password_file", str, ""),
        folder=table.take("folder", str, "INBOX"),
    )
    table.done()
    if not server.host:
        raise OfficeError(f"club.toml: {name}.host is missing")
    if server.security not in ("tls", "starttls", "none"):
        raise OfficeError(f'club.toml: {name}.security must be "tls", "starttls" or "none"')
    if server.security == "none" and server.host not in ("127.0.0.1", "::1", "localhost"):
        raise OfficeError(f'club.toml: {name}.security may be "none" only for a server on this machine')
    return server


def _next_deadline(value: Any) -> datetime | None:
    if value is None:
        return None
    if not isinstance(value, datetime):
        raise OfficeError("club.toml: month.next_deadline must be " + _KINDS[datetime])
    return value.astimezone()


def parse_settings(text: str) -> Settings:
    """OfficeError where the text is no TOML, or a setting is unknown or out of its range."""
    try:
        whole = tomllib.loads(text)
    except tomllib.TOMLDecodeError as error:
        raise OfficeError(f"club.toml can't be read: {error}") from None
    top = _Table("", whole)
    month = _Table("month", top.take("month", dict, {}))
    mail = _Table("mail", top.take("mail", dict, {}))
    serve = _Table("serve", top.take("serve", dict, {}))
    papers = _Table("papers", top.take("papers", dict, {}))
    settings = Settings(
        name=top.take("name", str, "The club"),
        moderator=top.take("moderator", str, ""),
        deadline=_deadline(month.take("deadline", str, "")),
        least_days=month.number("least_days", 3, 0, 365),
        next_deadline=_next_deadline(month.rest.pop("next_deadline", None)),
        mail_server=mail.take("server", str, ""),
        replies_a_day=mail.number("replies_a_day", 10, 1, 1_000),
        imap=_server("imap", top.rest.pop("imap", None), 993, "tls"),
        smtp=_server("smtp", top.rest.pop("smtp", None), 465, "tls"),
        port=serve.number("port", 8080, 1, MOST_PORT),
        papers_open=papers.take("open", bool, False),
        certificates=mail.take("certificates", str, ""),
    )
    for table in (top, month, mail, serve, papers):
        table.done()
    if not settings.moderator or any(letter.isspace() or not letter.isprintable() for letter in settings.moderator):
        raise OfficeError("club.toml: moderator must be your address, from which players get their letters")
    return settings


def read_settings(path: Path) -> Settings:
    try:
        return parse_settings(path.read_text("utf-8"))
    except FileNotFoundError:
        raise OfficeError(f"there is no {path.name} here: go to the club's folder, or name it by --club; "
                          "`kiwirudder init` makes one") from None
    except (OSError, UnicodeDecodeError) as error:
        raise OfficeError(f"{path.name} can't be read: {error}") from None
