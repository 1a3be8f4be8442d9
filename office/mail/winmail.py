"""Reads winmail.dat of Outlook (TNEF, by Microsoft's MS-OXTNEF): its text, its HTML and the files in it. Text as
compressed RTF is not read."""

from __future__ import annotations

import struct
from collections.abc import Iterator
from dataclasses import dataclass

from office.mail.limits import MOST_PARTS
from office.mail.parts import Part

_SIGNATURE = 0x223E9F78
_CODEPAGE = 0x69007
_BODY = 0x2800C
_PROPERTIES = 0x69003
_FILE_BEGINS = 0x69002
_FILE_TITLE = 0x18010
_FILE_DATA = 0x6800F
_TEXT_PROPERTY = 0x1000
_HTML_PROPERTY = 0x1013
_STRING, _UNICODE, _BINARY, _OBJECT = 0x1E, 0x1F, 0x102, 0xD
_SIZES = {0x2: 4, 0x3: 4, 0x4: 4, 0x5: 8, 0x6: 8, 0x7: 8, 0xA: 4, 0xB: 4, 0x14: 8, 0x40: 8, 0x48: 16}
_NAMED = 0x8000
_SEVERAL = 0x1000
_LENGTH_OF_GUID = 16


class _Bytes:
    """Bytes that are read from the front. ValueError where there are too few."""

    def __init__(self, data: bytes) -> None:
        self.data = data
        self.at = 0

    def is_empty(self) -> bool:
        return self.at >= len(self.data)

    def take(self, count: int) -> bytes:
        if count > len(self.data) - self.at:
            raise ValueError("too few bytes")
        self.at += count
        return self.data[self.at - count:self.at]

    def number(self, count: int = 4) -> int:
        return int.from_bytes(self.take(count), "little")

    def padded(self) -> bytes:
        """Bytes with their length in front, filled up to four."""
        count = self.number()
        data = self.take(count)
        self.take(min(-count % 4, len(self.data) - self.at))
        return data


@dataclass(frozen=True)
class _Property:
    kind: int
    number: int
    values: tuple[bytes, ...]


def _attributes(stream: _Bytes) -> Iterator[tuple[int, bytes]]:
    while not stream.is_empty():
        stream.take(1)
        number = stream.number()
        data = stream.take(stream.number())
        stream.take(2)
        yield number, data


def _properties(stream: _Bytes) -> Iterator[_Property]:
    for _ in range(stream.number()):
        kind, number = stream.number(2), stream.number(2)
        if number >= _NAMED:
            stream.take(_LENGTH_OF_GUID)
            if stream.number():
                stream.padded()
            else:
                stream.take(4)
        single = kind & ~_SEVERAL
        if single in (_STRING, _UNICODE, _BINARY, _OBJECT):
            values = tuple(stream.padded() for _ in range(stream.number()))
        else:
            size = _SIZES.get(single)
            if size is None:
                raise ValueError("unknown type")
            values = tuple(stream.take(size) for _ in range(stream.number() if kind & _SEVERAL else 1))
        yield _Property(single, number, values)


def _part(kind: str, charset: str, data: bytes, name: str = "") -> Part:
    return Part(kind, {"charset": charset}, name, bool(name), "", data)


def _of_properties(data: bytes, codepage: str) -> Iterator[Part]:
    for entry in _properties(_Bytes(data)):
        if entry.number in (_TEXT_PROPERTY, _HTML_PROPERTY) and entry.values:
            kind = "text/plain" if entry.number == _TEXT_PROPERTY else "text/html"
            charset, end = ("utf-16-le", b"\0\0") if entry.kind == _UNICODE else (codepage, b"\0")
            yield _part(kind, charset, entry.values[0].removesuffix(end))


def _parts(data: bytes) -> Iterator[Part]:
    stream = _Bytes(data)
    if stream.number() != _SIGNATURE:
        raise ValueError("another signature")
    stream.take(2)
    codepage, title = "windows-1252", ""
    for number, value in _attributes(stream):
        if number == _CODEPAGE and len(value) >= 4:
            codepage = f"cp{struct.unpack('<I', value[:4])[0]}"
        elif number == _BODY:
            yield _part("text/plain", codepage, value.removesuffix(b"\0"))
        elif number == _PROPERTIES:
            yield from _of_properties(value, codepage)
        elif number == _FILE_BEGINS:
            title = ""
        elif number == _FILE_TITLE:
            title = value.removesuffix(b"\0").decode("cp1252", "replace")
        elif number == _FILE_DATA:
            yield _part("application/octet-stream", "", value, title or "file")


def winmail_parts(data: bytes) -> list[Part]:
    """The parts of a winmail.dat, as far as it is whole; none for other bytes."""
    parts = []
    try:
        for part in _parts(data):
            parts.append(part)
            if len(parts) >= MOST_PARTS:
                break
    except ValueError:
        pass
    return parts
