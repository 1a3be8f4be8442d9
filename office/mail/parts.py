"""The parts of a message, by RFC 2045 and 2046.

The time is in proportion to the length times the depth for any input, which isn't so for the parser of the package
`email`: many nested parts make that one slow, or end it."""

from __future__ import annotations

import binascii
import re
from collections.abc import Iterator
from dataclasses import dataclass, field

from office.mail.fields import Field, decode_base64, decode_words, first_value, parameters_of, split_head
from office.mail.limits import MOST_BYTES, MOST_DEPTH, MOST_PARTS

_LONGEST_BOUNDARY = 200
_TEXT_NAMES = (".txt", ".text", ".ord", ".orders", ".asc", ".md")


@dataclass(frozen=True)
class Part:
    """A part that has no parts in it. `kind` is its media type in small letters, and `parameters` are those of
    Content-Type. `name` is its file's name, '' where it has none."""

    kind: str
    parameters: dict[str, str]
    name: str
    is_attachment: bool
    encoding: str
    body: bytes = field(repr=False)

    def data(self) -> bytes:
        """The bytes that the part carries."""
        if self.encoding == "base64":
            return decode_base64(self.body)[:MOST_BYTES]
        if self.encoding == "quoted-printable":
            return binascii.a2b_qp(b"\n".join(line.rstrip(b" \t\r") for line in self.body.split(b"\n")))
        return self.body

    def is_winmail(self) -> bool:
        """Whether the part is a file in which Outlook puts what other programs can't read."""
        return self.kind == "application/ms-tnef" or self.name.lower() == "winmail.dat"

    def is_text_file(self) -> bool:
        """Whether the part is a file of plain text."""
        has_text_name = self.kind == "application/octet-stream" and self.name.lower().endswith(_TEXT_NAMES)
        return self.is_attachment and (self.kind == "text/plain" or has_text_name)


@dataclass
class Found:
    """What a walk through a message found: its parts, and what was passed over."""

    parts: list[Part] = field(default_factory=list)
    is_cut: bool = False
    has_forwarded: bool = False
    is_signed: bool = False
    is_encrypted: bool = False


def find_parts(fields: list[Field], body: bytes) -> Found:
    """The parts of a message with these fields and this body."""
    found = Found()
    _walk(fields, body, "text/plain", 0, found)
    return found


def kind_of(value: str, default: str = "text/plain") -> str:
    """The media type that a Content-Type names, in small letters."""
    kind = re.split(r"[;\s]", value.strip().lower(), maxsplit=1)[0]
    return kind if re.fullmatch(r"[a-z0-9.+-]{1,60}/[a-z0-9.+-]{1,100}", kind) else default


def _walk(fields: list[Field], body: bytes, default: str, depth: int, found: Found) -> None:
    content_type = first_value(fields, "content-type")
    kind = kind_of(content_type, default)
    parameters = parameters_of(content_type)
    if kind.startswith("message/") and kind != "message/partial":
        found.has_forwarded = found.has_forwarded or kind in ("message/rfc822", "message/global")
        return
    if len(found.parts) >= MOST_PARTS or depth > MOST_DEPTH:
        found.is_cut = True
        return
    boundary = parameters.get("boundary", "")
    if not kind.startswith("multipart/") or not 0 < len(boundary) <= _LONGEST_BOUNDARY:
        found.parts.append(_part(fields, kind, parameters, body))
        return
    found.is_encrypted = found.is_encrypted or kind == "multipart/encrypted"
    found.is_signed = found.is_signed or kind == "multipart/signed"
    inner = "message/rfc822" if kind == "multipart/digest" else "text/plain"
    for piece in _pieces(body, boundary):
        if len(found.parts) >= MOST_PARTS:
            found.is_cut = True
            return
        _walk(*split_head(piece), inner, depth + 1, found)


@dataclass(frozen=True)
class _Boundary:
    """A line of a boundary: where the text above it ends, and where the text below it begins."""

    start: int
    end: int
    is_last: bool


def _boundaries(body: bytes, boundary: bytes) -> Iterator[_Boundary]:
    at = body.find(boundary)
    while at >= 0:
        end = body.find(b"\n", at)
        end = len(body) if end < 0 else end
        rest = body[at + len(boundary):end].rstrip(b" \t\r")
        if rest in (b"", b"--") and (at == 0 or body[at - 1:at] == b"\n"):
            start = at - 2 if body[at - 2:at] == b"\r\n" else at - 1
            yield _Boundary(max(start, 0), end + 1, bool(rest))
        at = body.find(boundary, end)


def _pieces(body: bytes, boundary: str) -> Iterator[bytes]:
    """What lies between the lines of a boundary. Without a last one the end of the body ends a piece too."""
    begin = None
    for line in _boundaries(body, b"--" + boundary.encode("latin-1", "replace")):
        if begin is not None:
            yield body[begin:line.start]
        if line.is_last:
            return
        begin = line.end
    if begin is not None:
        yield body[begin:]


def _part(fields: list[Field], kind: str, parameters: dict[str, str], body: bytes) -> Part:
    disposition = first_value(fields, "content-disposition")
    name = decode_words(parameters_of(disposition).get("filename", "") or parameters.get("name", ""))
    is_attachment = disposition.strip().lower().startswith("attachment") or bool(name)
    encoding = first_value(fields, "content-transfer-encoding").strip().lower()
    return Part(kind, parameters, name[:200], is_attachment, encoding, body)
