"""`kiwirudder COMMAND --help`: each command has one, and a command window of 80 letters shows it."""

from __future__ import annotations

import contextlib
import io
import os
import unittest
from unittest import mock

from office.command import COMMANDS, main
from office.commands.helps import HELPS


def help_of(*words: str) -> str:
    printed = io.StringIO()
    with contextlib.redirect_stdout(printed), contextlib.suppress(SystemExit), \
            mock.patch.dict(os.environ, {"COLUMNS": "80"}):
        main([*words, "--help"])
    return printed.getvalue()


class HelpTest(unittest.TestCase):
    def test_every_command_is_listed(self) -> None:
        listed = help_of()
        for command in COMMANDS:
            self.assertIn(f"\n    {command.name} ", listed)

    def test_every_command_has_a_help_that_fits(self) -> None:
        for command in COMMANDS:
            with self.subTest(command.name):
                printed = help_of(command.name)
                self.assertIn(f"usage: kiwirudder {command.name}", printed)
                self.assertIn("exit status: 0 done", printed)
                self.assertLess(max(map(len, printed.splitlines())), 92)

    def test_what_is_said_is_about_a_command(self) -> None:
        self.assertLessEqual(set(HELPS), {command.name for command in COMMANDS})


if __name__ == "__main__":
    unittest.main()
