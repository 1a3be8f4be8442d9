"""The fields of a message's head, by RFC 5322, and words in other letters, by RFC 2047."""

from __future__ import annotations

import base64
import binascii
import re
from collections.abc import Iterable
from dataclasses import dataclass

from office.mail.charsets import decode
from office.mail.limits import LONGEST_FIELD, MOST_FIELDS, MOST_HEADER_BYTES

_HEAD_END = re.compile(rb"\r?\n\r?\n|\A\r?\n")
_FOLD = re.compile(rb"\r?\n(?=[ \t])")
_FIELD = re.compile(r"([!-9;-~]{1,100})[ \t]*:(.*)", re.DOTALL)
_ENCODED = re.compile(r"=\?([A-Za-z0-9_.*:-]{1,60})\?([bBqQ])\?([^? ]*)\?=")
_BETWEEN = re.compile(r"(=\?[^? ]{1,60}\?[bBqQ]\?[^? ]*\?=)[ \t]+(?==\?[^? ]{1,60}\?[bBqQ]\?)")
_PARAMETER = re.compile(r';[ \t]*([A-Za-z0-9_-]{1,40})(\*[0-9]{0,3}\*?)?[ \t]*=[ \t]*(?:"((?:[^"\\]|\\.)*)"|([^;"]*))')


@dataclass(frozen=True)
class Field:
    """A field on one line. `name` is in small letters. Bytes that aren't ASCII are shown by their Latin-1 letters."""

    name: str
    value: str


def split_head(data: bytes) -> tuple[list[Field], bytes]:
    """The fields of a head in their order, and the body below it. Lines that are no field are passed over."""
    found = _HEAD_END.search(data[:MOST_HEADER_BYTES])
    head, body = (data[:found.start()], data[found.end():]) if found else (data[:MOST_HEADER_BYTES], b"")
    fields = []
    for line in _FOLD.sub(b"", head).split(b"\n")[:MOST_FIELDS]:
        match = _FIELD.match(line[:LONGEST_FIELD].decode("latin-1").rstrip("\r"))
        if match:
            value = re.sub(r"[\x00-\x1f\x7f]", " ", match[2]).strip(" ")
            fields.append(Field(match[1].lower(), value))
    return fields, body


def values_of(fields: Iterable[Field], name: str) -> list[str]:
    """The values of all fields of a name, topmost first."""
    return [field.value for field in fields if field.name == name]


def first_value(fields: Iterable[Field], name: str) -> str:
    """The value of the topmost field of a name, '' where there is none."""
    return next((field.value for field in fields if field.name == name), "")


def decode_base64(data: bytes) -> bytes:
    """What base64 says, as far as it is whole. Other signs are passed over. After `=` it begins anew."""
    return b"".join(map(_decode_run, re.sub(rb"[^A-Za-z0-9+/=]", b"", data).split(b"=")))


def _decode_run(run: bytes) -> bytes:
    whole = run[:-1] if len(run) % 4 == 1 else run
    return base64.b64decode(whole + b"=" * (-len(whole) % 4))


def _decode_word(match: re.Match[str]) -> str:
    charset, letter, text = match[1].partition("*")[0], match[2].upper(), match[3].encode("latin-1", "replace")
    data = decode_base64(text) if letter == "B" else binascii.a2b_qp(text, header=True)
    return decode(data, charset)[0]


def decode_words(value: str) -> str:
    """A value with its encoded words decoded. UTF-8 that isn't encoded is read too."""
    try:
        value = value.encode("latin-1").decode("utf-8")
    except UnicodeError:
        pass
    return _ENCODED.sub(_decode_word, _BETWEEN.sub(r"\1", value))


def parameters_of(value: str) -> dict[str, str]:
    """The parameters of a field such as Content-Type, by their names in small letters. Parts of a long one are put
    together, and `%` is decoded where the name says so."""
    parts: dict[str, str] = {}
    for match in _PARAMETER.finditer(value):
        name, star = match[1].lower(), match[2] or ""
        text = re.sub(r"\\(.)", r"\1", match[3]) if match[3] is not None else match[4].strip(" \t")
        parts[name] = parts.get(name, "") + (_decode_percent(text) if star.endswith("*") else text)
    return parts


def _decode_percent(text: str) -> str:
    plain = re.sub(r"^[A-Za-z0-9_-]*'[A-Za-z0-9-]*'", "", text)
    data = re.sub(rb"%([0-9A-Fa-f]{2})", lambda match: bytes([int(match[1], 16)]), plain.encode("latin-1", "replace"))
    return decode(data, "utf-8")[0]
