"""Decodes bytes of a text by the charset that its part names, or by what the bytes say."""

from __future__ import annotations

import codecs
import re

# the charsets of mail, by their names without signs; others are never looked up
NAMES = {
    **dict.fromkeys(("utf8", "usascii", "ascii", "ansix341968", "unicode11utf8"), "utf-8"),
    # by RFC 2781 a text without a byte order mark has its high bytes first
    **dict.fromkeys(("utf16", "utf16be", "unicode", "ucs2"), "utf-16-be"),
    "utf16le": "utf-16-le",
    "utf7": "utf-7",
    # what says ISO-8859-1 most often is Windows-1252, which has the same letters and more signs
    **dict.fromkeys(("iso88591", "latin1", "windows1252", "cp1252", "l1", "ansi"), "cp1252"),
    **{f"iso8859{n}": f"iso8859-{n}" for n in (2, 3, 4, 5, 6, 7, 8, 9, 10, 13, 14, 15, 16)},
    "latin9": "iso8859-15",
    **{f"{name}{n}": f"cp{n}" for name in ("windows", "cp") for n in (1250, 1251, 1253, 1254, 1255, 1256, 1257, 1258)},
    **{f"{name}{n}": f"cp{n}" for name in ("ibm", "cp") for n in (437, 850, 852, 858, 866)},
    **dict.fromkeys(("macintosh", "macroman", "mac"), "mac-roman"),
    "koi8r": "koi8-r",
    "koi8u": "koi8-u",
    **dict.fromkeys(("gb2312", "gbk", "gb18030", "euccn"), "gb18030"),
    "big5": "big5",
    "euckr": "euc-kr",
    "ksc56011987": "euc-kr",
    "eucjp": "euc-jp",
    **dict.fromkeys(("shiftjis", "sjis", "windows31j"), "cp932"),
    "iso2022jp": "iso-2022-jp",
}
_LONGEST_NAME = 40
_MARKS = ((codecs.BOM_UTF8, "utf-8"), (codecs.BOM_UTF16_LE, "utf-16-le"), (codecs.BOM_UTF16_BE, "utf-16-be"))
# so many bytes at the beginning show whether a text is UTF-16 without a mark
_SAMPLE = 400
_SURROGATES = re.compile("[\ud800-\udfff]")


def _codec_of(charset: str) -> str | None:
    return NAMES.get(re.sub(r"[^a-z0-9]", "", charset[:_LONGEST_NAME].lower()))


def _try(data: bytes, codec: str) -> str | None:
    try:
        text = data.decode(codec)
    except (UnicodeError, ValueError):
        return None
    return None if _SURROGATES.search(text) else text


def _sampled(data: bytes) -> str | None:
    """UTF-16 without a mark: in an English text every other byte is 0."""
    sample = data[:_SAMPLE]
    half = len(sample) // 2
    low, high = sample[::2].count(0), sample[1::2].count(0)
    if 2 * high > half and 2 * low < half:
        return "utf-16-le"
    return "utf-16-be" if 2 * low > half and 2 * high < half else None


def decode(data: bytes, charset: str = "") -> tuple[str, bool]:
    """The text, and whether its letters were guessed: the charset that is named is unknown, or doesn't fit the bytes. A
    byte order mark goes before the name, and is taken away."""
    for mark, codec in _MARKS:
        text = _try(data[len(mark):], codec) if data.startswith(mark) else None
        if text is not None:
            return text, False
    named = _codec_of(charset)
    for guess in (_sampled(data), named, "utf-8"):
        text = _try(data, guess) if guess else None
        if text is not None:
            return text, bool(charset) and guess != named and "16" not in charset
    return data.decode("cp1252", "replace"), bool(charset)
