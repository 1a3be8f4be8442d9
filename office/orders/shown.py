"""Shows what a player wrote, so that it can't change how a letter or a screen looks."""

from __future__ import annotations

# up to this letter nothing turns the direction of a text, or sits on the letter before
_LAST_LATIN = "\u024f"


def _sign(sign: str) -> str:
    if " " <= sign <= "~" or sign == "\t" or "\u00a1" <= sign <= _LAST_LATIN and sign.isprintable():
        return sign
    code = ord(sign)
    return f"\\u{code:04x}" if code <= 0xFFFF else f"\\U{code:08x}"


def shown(text: str, most: int) -> str:
    """The text on one line, with `\\u202e` for a sign that isn't Latin, and `..` in the place of what is too long."""
    kept = text[:most]
    line = kept if kept.isascii() and kept.isprintable() else "".join(map(_sign, kept))
    return line if len(text) <= most else f"{line} .."
