#!/usr/bin/env python3
"""Shows that `serve` goes on after clients that end their connection before it is taken: one whose connection is reset
while `serve` is stopped, and two that the system reports as aborted. Then another client gets its report. It takes some
seconds once the program is built, and wants strace, without which the second part is skipped."""

import http.client
import os
import shutil
import signal
import socket
import struct
import subprocess
import sys
import tempfile
import unittest
from contextlib import AbstractContextManager, closing
from pathlib import Path

sys.path.insert(0, str(Path(__file__).resolve().parents[2]))

from tests.program.calls import SEED, SMALL_FILE, connect, gm, serving  # noqa: E402
from tests.tools.ports import HOST, free_port  # noqa: E402

# Closing a socket with this value for SO_LINGER resets its connection.
RESET = struct.pack("ii", 1, 0)


def report_status(port: int) -> int:
    """The status of the reply to a request for a report."""
    with closing(http.client.HTTPConnection(HOST, port)) as client:
        client.sock = connect(port)
        client.request("GET", "/report/1", headers={"Atlantis-Pass": "pw"})
        return client.getresponse().status


def reset_connection(port: int) -> None:
    """Connects to a server, and resets the connection at once."""
    with connect(port) as client:
        client.setsockopt(socket.SOL_SOCKET, socket.SO_LINGER, RESET)


class GivenUp(unittest.TestCase):
    def setUp(self) -> None:
        folder = tempfile.TemporaryDirectory()
        self.addCleanup(folder.cleanup)
        self.database = Path(folder.name) / "campaign.db"
        self.port = free_port()
        gm("found", "--world", SMALL_FILE, "--db", self.database, "--pass", "gm")
        gm("join", "--db", self.database, "--name", "Avalon", "--pass", "pw", "--seed", SEED)

    def serving(self, count: int, *before: str) -> AbstractContextManager[subprocess.Popen[str]]:
        return serving(self.database, self.port, count, *before)

    def test_a_connection_is_reset_before_it_is_taken(self) -> None:
        """It is one of the count, as the system hands it out."""
        with self.serving(3) as server:
            self.assertEqual(report_status(self.port), 200)
            server.send_signal(signal.SIGSTOP)
            reset_connection(self.port)
            server.send_signal(signal.SIGCONT)
            self.assertEqual(report_status(self.port), 200)

    @unittest.skipUnless(shutil.which("strace"), "strace is not there")
    def test_the_system_reports_aborted_connections(self) -> None:
        """They are none of the count."""
        aborts = ["strace", "-f", "-o", os.devnull, "-e", "inject=accept4:error=ECONNABORTED:when=1..2"]
        with self.serving(1, *aborts):
            self.assertEqual(report_status(self.port), 200)


if __name__ == "__main__":
    unittest.main()
