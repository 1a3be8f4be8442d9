"""What a person reads if a command can't be done."""

from __future__ import annotations


class OfficeError(Exception):
    """A command ends here: `text` says what is wrong and what to do, `status` is its exit status."""

    def __init__(self, text: str, status: int = 1) -> None:
        super().__init__(text)
        self.text = text
        self.status = status
