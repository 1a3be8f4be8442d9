"""Turns the parts of a message into plain lines.

The plain parts are read first. If they have no header line, the parts in HTML are read, and then the files of text that
are attached. If the plain parts have a header in the text of another message, HTML isn't read: its marks of a quote are
less sure. Signs that look like ASCII become ASCII."""

from __future__ import annotations

from collections.abc import Iterable, Sequence
from dataclasses import dataclass

from office.mail.blocks import HEADER, find_blocks
from office.mail.charsets import decode
from office.mail.flowed import join_flowed, without_pgp
from office.mail.html_lines import html_lines
from office.mail.limits import LONGEST_LINE, MOST_LINES, MOST_NOTED_LINES
from office.mail.marks import is_blank
from office.mail.notes import Change, Note
from office.mail.parts import Found, Part
from office.mail.signs import plain_lines, split_lines
from office.mail.winmail import winmail_parts
from office.orders.words import begins

# it ends a block without #END, as a signature does: a footer of a list is a part of its own
PART_BREAK = "-- "
_ENCRYPTED_LINE = "-----BEGIN PGP MESSAGE-----"
_ENCRYPTED_KINDS = ("application/pkcs7-mime", "application/x-pkcs7-mime")


@dataclass(frozen=True)
class Text:
    """The lines of a text, and what was changed or left out."""

    lines: tuple[str, ...]
    notes: tuple[Note, ...]

    def has_blocks(self) -> bool:
        return bool(find_blocks(self.lines))

    def has_quoted_header(self) -> bool:
        """Whether a line is a header but for the `>` in front of it, or but for being in another message."""
        return any(begins(line.lstrip("> \t"), HEADER) for line in self.lines)


def text_of_parts(found: Found) -> Text:
    """The lines of a message's parts, by the rule at the top of this module."""
    inside = [part for winmail in found.parts if winmail.is_winmail() for part in winmail_parts(winmail.data())]
    texts = _texts_of(found.parts)
    if inside and not any(text.has_blocks() for text in texts):
        of_winmail = _texts_of(inside, Change.WINMAIL)
        texts = of_winmail if any(text.has_blocks() for text in of_winmail) else texts
    plain, _, files = texts
    sure = (plain, files) if plain.has_quoted_header() else texts
    chosen = next((text for text in sure if text.has_blocks()), None)
    if chosen is None:
        chosen = next((text for text in texts if not all(map(is_blank, text.lines))), plain)
    notes = [*chosen.notes, *_notes_of_parts(found, chosen)]
    if chosen is not files and files.has_blocks():
        notes.append(Note(Change.OTHER_ORDERS))
    if not chosen.has_blocks() and any(text.has_quoted_header() for text in texts):
        notes.append(Note(Change.QUOTED_ORDERS))
    return Text(chosen.lines, tuple(notes))


def _texts_of(parts: Sequence[Part], change: Change | None = None) -> tuple[Text, Text, Text]:
    """The texts of the plain parts, of those in HTML, and of the files of text."""
    plain = _text_of((part for part in parts if part.kind == "text/plain" and not part.is_attachment), change)
    page = _text_of((part for part in parts if part.kind == "text/html" and not part.is_attachment),
                    change or Change.HTML)
    files = _text_of((part for part in parts if part.is_text_file()), change or Change.ATTACHMENT)
    return plain, page, files


def text_of_file(data: bytes, charset: str = "") -> Text:
    """The lines of a file that is a body alone."""
    lines, notes = _lines_of_text(*decode(data, charset))
    return _finish(lines, notes)


def _notes_of_parts(found: Found, chosen: Text) -> list[Note]:
    kinds = {part.kind for part in found.parts}
    is_unread = any(part.is_winmail() for part in found.parts) and not chosen.has_blocks()
    is_encrypted = found.is_encrypted or not kinds.isdisjoint(_ENCRYPTED_KINDS) or _ENCRYPTED_LINE in chosen.lines
    signs = {
        Change.FORWARDED: found.has_forwarded,
        Change.SIGNED: found.is_signed,
        Change.WINMAIL_UNREAD: is_unread,
        Change.ENCRYPTED: is_encrypted,
        Change.CUT_PARTS: found.is_cut,
    }
    return [Note(change) for change, holds in signs.items() if holds]


def _lines_of_text(text: str, is_guess: bool) -> tuple[list[str], list[Note]]:
    lines, is_signed = without_pgp(split_lines(text))
    changes = {Change.CHARSET: is_guess, Change.SIGNED: is_signed}
    return lines, [Note(change) for change, holds in changes.items() if holds]


def _lines_of_part(part: Part) -> tuple[list[str], list[Note]]:
    text, is_guess = decode(part.data(), part.parameters.get("charset", ""))
    if part.kind == "text/html":
        return html_lines(text, MOST_LINES), [Note(Change.CHARSET)] if is_guess else []
    lines, notes = _lines_of_text(text, is_guess)
    if part.parameters.get("format", "").lower() == "flowed":
        lines, numbers = join_flowed(lines, part.parameters.get("delsp", "").lower() == "yes")
        notes += [Note(Change.FLOWED, tuple(numbers))] if numbers else []
    return lines, notes


def _text_of(parts: Iterable[Part], change: Change | None = None) -> Text:
    """The lines of several parts, with a break between two."""
    lines: list[str] = []
    notes: list[Note] = []
    for part in parts:
        of_part, notes_of_part = _lines_of_part(part)
        if all(map(is_blank, of_part)):
            continue
        lines += [PART_BREAK] if lines else []
        notes += [Note(note.change, tuple(number + len(lines) for number in note.lines)) for note in notes_of_part]
        lines += of_part
        if len(lines) > MOST_LINES:
            break
    if lines and change:
        notes.append(Note(change))
    return _finish(lines, notes)


def _finish(lines: Sequence[str], notes: Sequence[Note]) -> Text:
    """Makes the signs plain, and cuts what is too long."""
    plain, changes = plain_lines([line[:LONGEST_LINE] for line in lines[:MOST_LINES]])
    cut = [Note(Change.CUT_LINES)] if len(lines) > MOST_LINES else []
    return Text(tuple(plain), _merged([*notes, *changes, *cut]))


def _merged(notes: Iterable[Note]) -> tuple[Note, ...]:
    """One note for each change, with all its lines."""
    lines: dict[Change, list[int]] = {}
    for note in notes:
        lines.setdefault(note.change, []).extend(note.lines)
    return tuple(Note(change, tuple(numbers[:MOST_NOTED_LINES])) for change, numbers in lines.items())
