"""Joins the lines of a text with format=flowed, by RFC 3676, and takes off an inline PGP signature, by RFC 4880."""

from __future__ import annotations

import re
from collections.abc import Sequence
from enum import Enum

_SIGNATURE = "-- "
_SIGNED = "-----BEGIN PGP SIGNED MESSAGE-----"
_SIGNATURE_BEGINS = "-----BEGIN PGP SIGNATURE-----"
_SIGNATURE_ENDS = "-----END PGP SIGNATURE-----"
_ARMOR_FIELD = re.compile(r"[A-Z][A-Za-z-]{1,20}: ")


def join_flowed(lines: Sequence[str], is_delsp: bool) -> tuple[list[str], list[int]]:
    """The lines as they were written, and the numbers of those that were joined. A line that ends with a space goes on
    in the next one with as many `>`; with `is_delsp` the space itself is no part of the text."""
    joined: list[list[str]] = []
    numbers: list[int] = []
    depth_open = -1
    for line in lines:
        text = line.lstrip(">")
        depth = len(line) - len(text)
        text = text[1:] if text.startswith(" ") else text
        is_flowed = text.endswith(" ") and text != _SIGNATURE
        if depth == depth_open and text != _SIGNATURE:
            if numbers[-1:] != [len(joined)]:
                numbers.append(len(joined))
        else:
            joined.append(["> " * min(depth, 1)])
        joined[-1].append(text[:-1] if is_flowed and is_delsp else text)
        depth_open = depth if is_flowed else -1
    return ["".join(parts) for parts in joined], numbers


def without_pgp(lines: Sequence[str]) -> tuple[list[str], bool]:
    """The lines without the marks of an inline signature, which become empty so that the others keep their numbers; and
    whether there was one. `- ` in front of a signed line is taken off."""
    if _SIGNED not in map(str.rstrip, lines):
        return list(lines), False
    plain = []
    state = _Signed.NOT
    for line in lines:
        state, kept = _signed_line(state, line)
        plain.append(kept)
    return plain, True


class _Signed(Enum):
    """Where in a signed text a line is."""

    NOT = 0
    HEAD = 1
    TEXT = 2
    SIGNATURE = 3


def _signed_line(state: _Signed, line: str) -> tuple[_Signed, str]:
    """Where the line below is, and what is kept of this one."""
    mark = line.rstrip()
    if mark == _SIGNED:
        return _Signed.HEAD, ""
    if state is _Signed.HEAD and (not mark or _ARMOR_FIELD.match(mark)):
        return (_Signed.HEAD if mark else _Signed.TEXT), ""
    if state is _Signed.SIGNATURE:
        return (_Signed.NOT if mark == _SIGNATURE_ENDS else state), ""
    if state is _Signed.NOT:
        return state, line
    if mark == _SIGNATURE_BEGINS:
        return _Signed.SIGNATURE, ""
    return _Signed.TEXT, line[2:] if line.startswith("- ") else line
