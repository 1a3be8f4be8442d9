"""How numbers and lists are written in all papers."""

from collections.abc import Sequence

MINUS = "\N{MINUS SIGN}"


def counted(count: int, word: str) -> str:
    """The count with its word, in the plural where it isn't 1."""
    return f"{count:,} {word}{'' if count == 1 else 's'}"


def listed(names: Sequence[str]) -> str:
    """The names, of which there is at least one, with `and` before the last."""
    return names[0] if len(names) == 1 else f"{', '.join(names[:-1])} and {names[-1]}"


def signed(amount: int) -> str:
    """The amount with a true minus sign, and nothing for 0."""
    if amount == 0:
        return ""
    return f"{amount:,}" if amount > 0 else f"{MINUS}{-amount:,}"
