"""Lines that people and mail programs put around a text: quoted lines, the heads of quoted messages, signatures."""

from __future__ import annotations

import re
from collections.abc import Sequence

# no mark is longer, so no more of a line is looked at
MOST_OF_A_MARK = 300
# a head such as `On Monday .. wrote:` may be wrapped, and one of `From:` lines has several
MOST_WRAPPED = 3
LINES_OF_A_HEAD = 6

# programs of phones and free mailboxes, in the languages that they are set to
_ADVERTS = (
    r"sent (?:from|via|with|by|using) ",
    r"get (?:outlook|bluemail|spike|edison mail) for ",
    r"(?:von|mit) mein\w* .*gesendet",
    r"gesendet (?:von|mit|über) ",
    r"(?:holen sie sich )?outlook für (?:ios|android)",
    r"envoyé (?:de|depuis|avec|à partir de) ",
    r"(?:obtenir|télécharger|téléchargez) outlook pour ",
    r"enviado (?:desde|do|de|con|com|através) ",
    r"(?:obtener|obtenga|obter o|obtenha o) outlook para ",
    r"inviato d(?:a|al|all') ?",
    r"(?:ottieni|scarica) outlook per ",
    r"(?:verzonden|verstuurd) (?:vanaf|via|met|vanuit) ",
    r"(?:download |haal )?outlook voor (?:ios|android)",
    r"skickat från ",
    r"sendt fra ",
    r"lähetetty ",
    r"wysłan[eoy] z ",
    r"odesláno z ",
    r"отправлено (?:с|из) ",
)
_SIGNATURE = re.compile(rf"\s*(?:--|_{{5,}}|(?:{'|'.join(_ADVERTS)}).*)\s*", re.IGNORECASE)

_COPIES = (
    r"original message",
    r"forwarded message",
    r"forwarded by [^-]*",
    r"(?:original-nachricht|original-?nachricht|ursprüngliche nachricht|weitergeleitete nachricht)",
    r"(?:message d'origine|message original|message transféré|message transmis)",
    r"(?:mensaje original|mensaje reenviado|mensagem original|mensagem encaminhada)",
    r"(?:messaggio originale|messaggio inoltrato)",
    r"(?:oorspronkelijk bericht|doorgestuurd bericht)",
    r"(?:ursprungligt meddelande|oprindelig meddelelse|opprinnelig melding|original besked)",
    r"(?:wiadomość oryginalna|původní zpráva|исходное сообщение|пересылаемое сообщение)",
)
_COPY = re.compile(rf"(?:{'|'.join(_COPIES)})", re.IGNORECASE)
_APPLES_COPY = "begin forwarded message:"

_ATTRIBUTION_BEGINS = re.compile(r"\s*(?:(?:on|am|le|el|il|op|den|em|dnia|w dniu|pe|dne) \S|\d{4}[-/.]\d\d[-/.]\d\d)",
                                 re.IGNORECASE)
# the verb is the last word, or the name comes after it
_ATTRIBUTION_ENDS = re.compile(
    r"\b(?:(?:wrote|a écrit|escribió|ha scritto|escreveu|napisał\w*|napsal\w*|kirjoitti)\s*:$"
    r"|(?:schrieb|schreef|skrev)\b)",
    re.IGNORECASE,
)
_HAS_DATE = re.compile(r"[\d@]")
_FROM = re.compile(r"\s*\*?(?:from|von|de|da|van|från|fra)\s?:", re.IGNORECASE)
_SENT = re.compile(r"\s*\*?(?:sent|date|gesendet|datum|envoyé|enviado|fecha|inviato|data|verzonden|skickat|sendt)\s?:",
                   re.IGNORECASE)
_SUBJECT = re.compile(r"\s*\*?(?:subject|betreff|objet|asunto|assunto|oggetto|onderwerp|ämne|emne)\s?:", re.IGNORECASE)


def is_blank(line: str) -> bool:
    return not line.strip()


def is_quoted(line: str) -> bool:
    """Whether a mail program put `>` in front of the line."""
    return line.lstrip().startswith(">")


def is_signature(line: str) -> bool:
    """Whether a line begins a signature: `--`, a line of `_`, or `Sent from my ..`."""
    return len(line) <= MOST_OF_A_MARK and _SIGNATURE.fullmatch(line) is not None


def _is_copy(line: str) -> bool:
    """Whether a line is such as `-----Original Message-----`."""
    text = line[:MOST_OF_A_MARK].strip()
    words = text.lstrip("-").lstrip()
    found = _COPY.match(words) if text.startswith("--") else None
    return found is not None and words[found.end():].lstrip().startswith("--") or text.lower() == _APPLES_COPY


def _attribution(lines: Sequence[str], first: int) -> int:
    """How many lines from `first` on are a head such as `On 3 May 2026 Ann wrote:`, 0 for none."""
    if not _ATTRIBUTION_BEGINS.match(lines[first][:MOST_OF_A_MARK]):
        return 0
    for count, line in enumerate(lines[first:first + MOST_WRAPPED], 1):
        if is_blank(line):
            return 0
        if line.rstrip().endswith(":"):
            head = " ".join(part[:MOST_OF_A_MARK].strip() for part in lines[first:first + count])
            return count if _HAS_DATE.search(head) and _ATTRIBUTION_ENDS.search(head) else 0
    return 0


def _head_lines(lines: Sequence[str], first: int) -> int:
    """How many lines from `first` on are the head `From: Sent: To: Subject:` of a copied message, 0 for none."""
    if not _FROM.match(lines[first][:MOST_OF_A_MARK]):
        return 0
    head = []
    for line in lines[first:first + LINES_OF_A_HEAD]:
        if is_blank(line):
            break
        head.append(line[:MOST_OF_A_MARK])
    is_head = any(map(_SENT.match, head)) and any(map(_SUBJECT.match, head))
    return len(head) if is_head else 0


def quote_head(lines: Sequence[str], first: int) -> int:
    """How many lines from `first` on say that a copied message follows, 0 for none. A head `From:` at the very top of
    a text is that of the text itself."""
    if _is_copy(lines[first]):
        return 1
    count = _attribution(lines, first) or _head_lines(lines, first)
    is_top = count > 0 and _FROM.match(lines[first]) is not None and all(map(is_blank, lines[:first]))
    return 0 if is_top else count


def mark_quoted(lines: Sequence[str]) -> list[bool]:
    """Which lines are those of another message. After a head such as `On 3 May Ann wrote:` these are the lines with `>`
    if the first line below the head has one, and else all lines up to the end."""
    quoted = [is_quoted(line) for line in lines]
    number = 0
    while number < len(lines):
        count = quote_head(lines, number)
        if not count:
            number += 1
            continue
        below = number + count
        while below < len(lines) and is_blank(lines[below]):
            below += 1
        end = below if below < len(lines) and quoted[below] else len(lines)
        quoted[number:end] = [True] * (end - number)
        number = end
    return quoted
