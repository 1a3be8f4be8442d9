"""Who sent a message, as far as its head says so: the address, whether a server vouches for it, and automatic mail."""

from __future__ import annotations

import re
from collections.abc import Sequence
from enum import Enum

from office.mail.fields import Field, first_value, values_of

# what the office writes into each letter of its own
OWN_MARK = "X-Kiwirudder"
LONGEST_ADDRESS = 254
LONGEST_LOCAL_PART = 64

_ADDRESS = re.compile(r"([A-Za-z0-9.!#$%&'*+/=?^_`{|}~-]+)@([A-Za-z0-9](?:[A-Za-z0-9.-]*[A-Za-z0-9])?)")
_QUOTED = re.compile(r'"(?:[^"\\]|\\.)*"')
_COMMENT = re.compile(r"\((?:[^()\\]|\\.)*\)")
_MOST_NESTED = 10

_AUTOMATIC_FIELDS = ("x-autoreply", "x-autorespond", "x-autoresponder", "x-auto-response", "autoreply",
                     "x-ms-exchange-generated-message-source")
_AUTOMATIC_SUBJECTS = ("automatic reply:", "out of office autoreply:", "out of office:", "automatische antwort:",
                       "réponse automatique", "respuesta automática:")
_PRECEDENCES = ("bulk", "junk", "list", "auto_reply", "auto-reply")
_LIST_FIELDS = ("list-id", "list-unsubscribe", "list-post", "mailing-list", "x-mailing-list")
_DAEMONS = ("mailer-daemon", "postmaster", "mail-daemon")


class Automatic(Enum):
    """Why a message is automatic mail, which is never answered."""

    NO = "no"
    AUTO_SUBMITTED = "auto-submitted"
    PRECEDENCE = "precedence"
    LIST = "list"
    BOUNCE = "bounce"
    OUR_OWN = "our own"


def _without_comments(value: str) -> str:
    """A value without comments in brackets, which may be nested. What is in quotes is no comment."""
    for _ in range(_MOST_NESTED):
        shorter = _COMMENT.sub(" ", value)
        if shorter == value:
            return value
        value = shorter
    return value


def read_address(value: str) -> str:
    """The one address of a value such as `Ann <ann@example.org>` in small letters, '' if there is none, or more."""
    bare = _without_comments(_QUOTED.sub(" ", value)).strip()
    if "<" in bare:
        before, _, rest = bare.partition("<")
        bare, closing, after = rest.partition(">")
        if not closing or after.strip() or re.search(r"[,;:@<>\"()]", before):
            return ""
    bare = bare.strip()
    found = _ADDRESS.fullmatch(bare)
    if not found or len(bare) > LONGEST_ADDRESS or len(found[1]) > LONGEST_LOCAL_PART or ".." in bare:
        return ""
    return bare.lower()


def sender_of(fields: Sequence[Field]) -> str:
    """The one address of the one field From, '' if there isn't exactly one."""
    values = values_of(fields, "from")
    return read_address(values[0]) if len(values) == 1 else ""


def automatic_of(fields: Sequence[Field], kind: str, sender: str, subject: str) -> Automatic:
    """Why a message is automatic mail. `kind` is its media type."""
    submitted = _without_comments(first_value(fields, "auto-submitted")).partition(";")[0].strip().lower()
    return_path = first_value(fields, "return-path").replace(" ", "")
    names = {field.name for field in fields}
    precedence = first_value(fields, "precedence").strip().lower()
    reasons = {
        Automatic.OUR_OWN: OWN_MARK.lower() in names,
        Automatic.BOUNCE: kind == "multipart/report" or return_path == "<>" or sender.partition("@")[0] in _DAEMONS,
        Automatic.AUTO_SUBMITTED: submitted not in ("", "no") or not names.isdisjoint(_AUTOMATIC_FIELDS)
        or subject.lower().startswith(_AUTOMATIC_SUBJECTS),
        Automatic.LIST: not names.isdisjoint(_LIST_FIELDS),
        Automatic.PRECEDENCE: precedence in _PRECEDENCES,
    }
    return next((reason for reason, holds in reasons.items() if holds), Automatic.NO)


def _items(value: str) -> list[str]:
    """The parts of an Authentication-Results, between `;`. What is in quotes is no part of its own. A value whose quotes
    or brackets don't fit has its first part alone: a sender may have written some of it."""
    plain = _QUOTED.sub(lambda match: re.sub(r"[^A-Za-z0-9.@_-]", "", match[0]), value)
    bare = _without_comments(plain)
    name, *items = (item.strip().lower() for item in bare.split(";"))
    return [name] if re.search(r'["()]', bare) else [name, *items]


def _aligns(domain: str, sender: str) -> bool:
    """Whether a domain is the sender's, or one above it that has a dot."""
    domain = domain.rpartition("@")[2].strip(".")
    own = sender.rpartition("@")[2]
    return bool(domain) and (own == domain or "." in domain and own.endswith(f".{domain}"))


def _property(item: str, *names: str) -> str:
    """The value of the first of some properties of a result, as `header.d`."""
    for name in names:
        found = re.search(rf"\s{re.escape(name)}\s*=\s*(\S+)", item)
        if found:
            return found[1]
    return ""


def _passes(item: str, sender: str) -> bool:
    """Whether one result says that the sender's domain sent the message."""
    found = re.match(r"(dmarc|dkim|spf)\s*(?:/\s*\d+\s*)?=\s*pass\b", item)
    method = found[1] if found else ""
    if method == "dmarc":
        domain = _property(item, "header.from")
        return not domain or domain.rpartition("@")[2] == sender.rpartition("@")[2]
    if method == "dkim":
        return _aligns(_property(item, "header.d", "header.i"), sender)
    return method == "spf" and _aligns(_property(item, "smtp.mailfrom"), sender)


def is_authentic(results: Sequence[str], authserv: str, sender: str) -> bool:
    """Whether our own server, whose name is `authserv`, says that the sender's address is real. Of its lines the
    topmost counts. A failed DMARC outweighs all else."""
    for value in results:
        name, *items = _items(value)
        if name.split()[:1] != [authserv.strip().lower()]:
            continue
        is_failed = any(re.match(r"dmarc\s*(?:/\s*\d+\s*)?=\s*(?:fail|reject|quarantine)", item) for item in items)
        return bool(sender) and not is_failed and any(_passes(item, sender) for item in items)
    return False
