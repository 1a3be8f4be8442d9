"""Calls of the program, and its `serve`, for the tests of this folder."""
import socket
import subprocess
import time
from collections.abc import Iterator
from contextlib import contextmanager
from pathlib import Path

from tests.tools.ports import HOST

TOP = Path(__file__).resolve().parents[2]
PROGRAM = subprocess.run([TOP / "gm", "path"], check=True, capture_output=True, text=True).stdout.strip()
SMALL_FILE = TOP / "worlds/small.toml"
SEED = "7"
# How many seconds a test waits for a call, or for a server to listen or to end.
PATIENCE = 30
# A log of so many bytes or less holds nothing.
EMPTY_LOG = 41


def gm(*words: str | Path) -> str:
    """What a call of the program prints."""
    return subprocess.run([PROGRAM, *words], check=True, capture_output=True, text=True, timeout=PATIENCE).stdout


def connect(port: int, timeout: float = PATIENCE, buffer: int = 0) -> socket.socket:
    """A socket that is connected to a server, which may not listen yet. `buffer` is how many bytes the system takes for
    it, where it isn't 0."""
    end = time.monotonic() + PATIENCE
    while True:
        client = socket.socket()
        client.settimeout(timeout)
        if buffer:
            client.setsockopt(socket.SOL_SOCKET, socket.SO_RCVBUF, buffer)
        try:
            client.connect((HOST, port))
            return client
        except ConnectionRefusedError:
            client.close()
            if end < time.monotonic():
                raise
            time.sleep(0.05)


@contextmanager
def serving(database: Path, port: int, count: int, *before: str) -> Iterator[subprocess.Popen[str]]:
    """A server of this many connections, called by the words `before`. At the end it has ended by itself with status 0, and
    has printed nothing that wasn't read."""
    words = [*before, PROGRAM, "serve", "--db", str(database), "--port", str(port), "--count", str(count), "--seed", SEED]
    with subprocess.Popen(words, stdout=subprocess.PIPE, stderr=subprocess.STDOUT, text=True) as server:
        try:
            yield server
            printed = server.communicate(timeout=PATIENCE)[0]
            if server.returncode or printed:
                raise AssertionError(f"serve ended with status {server.returncode}, and printed {printed!r}")
        finally:
            server.kill()
