#!/usr/bin/env python3
"""Shows that slow clients cannot hold `serve` for long. Each case starts a server, connects slow clients to it, and then
another client, which gets its report after a time that docs/FORMATS.md, "HTTP", allows: `serve` waits 10 seconds for each
read and each write, and 60 seconds for a client in all. The cases run at the same time, and take about 80 seconds."""
import shutil
import socket
import sqlite3
import sys
import tempfile
import threading
import time
import unittest
from collections.abc import Callable
from concurrent.futures import ThreadPoolExecutor
from contextlib import closing, suppress
from dataclasses import dataclass
from pathlib import Path

sys.path.insert(0, str(Path(__file__).resolve().parents[2]))

from tests.program.calls import SEED, SMALL_FILE, connect, gm, serving  # noqa: E402
from tests.tools.ports import free_port  # noqa: E402

# How many seconds a client waits for its report at most.
PATIENCE = 100
# With so few bytes of the system, the server keeps what a client doesn't take.
BUFFER = 65_536
# A report of 8 MB, twice as much as the system stores for a connection.
LARGE_REPORT = "a line of a large report\n" * 320_000
MAILING = b"#ATLANTIS 2\n" + b";" * 65_524
GET = b"GET /report/%d HTTP/1.1\r\nHost: club\r\nAtlantis-Pass: pw\r\n\r\n"
POST = b"POST /orders/2 HTTP/1.1\r\nHost: club\r\nAtlantis-Pass: pw\r\nContent-Length: %d\r\n\r\n"


def receive(client: socket.socket) -> bytes:
    """All that comes until the connection ends."""
    parts = []
    with suppress(ConnectionError):
        while part := client.recv(65_536):
            parts.append(part)
    return b"".join(parts)


def expect(received: bytes, wanted: bytes) -> None:
    if received != wanted:
        raise AssertionError(f"received {received[:200]!r}, and not {wanted!r}")


# ---- slow clients

SlowClient = Callable[[socket.socket, threading.Event], None]


def send_nothing(client: socket.socket, ended: threading.Event) -> None:
    ended.wait()
    expect(receive(client), b"")


def drip(client: socket.socket, ended: threading.Event) -> None:
    """Sends a byte of a head each second."""
    with suppress(ConnectionError):
        client.sendall(b"GET /report/2 HTTP/1.1\r\nX: ")
        while not ended.wait(1):
            client.sendall(b"x")
    expect(receive(client), b"")


def take_nothing(client: socket.socket, ended: threading.Event) -> None:
    client.sendall(GET % 1)
    ended.wait()


def sip(client: socket.socket, ended: threading.Event) -> None:
    """Takes 40 kB of its 8 MB each second."""
    client.sendall(GET % 1)
    while not ended.wait(0.1):
        client.recv(4_000)


def drip_and_sip(client: socket.socket, ended: threading.Event) -> None:
    """Asks for its 8 MB in 30 seconds, a byte each second, and then takes 40 kB of them each second."""
    with suppress(ConnectionError):
        client.sendall(b"GET /report/1 HTTP/1.1\r\nHost: club\r\nAtlantis-Pass: pw\r\nX: ")
        for _ in range(30):
            time.sleep(1)
            client.sendall(b"x")
        client.sendall(b"\r\n\r\n")
        while not ended.wait(0.1):
            client.recv(4_000)


def mail_slowly(client: socket.socket, ended: threading.Event) -> None:
    """Sends the longest mailing in 44 seconds, which is fast enough."""
    client.sendall(POST % len(MAILING))
    for start in range(0, len(MAILING), 1_500):
        time.sleep(1)
        client.sendall(MAILING[start:start + 1_500])
    expect(receive(client).split(b"\r\n\r\n")[-1], b'{"faults":[],"orders":0}')


def run(slow_client: SlowClient, client: socket.socket, ended: threading.Event) -> None:
    with client:
        slow_client(client, ended)


# ---- cases


@dataclass(frozen=True)
class Case:
    """After these slow clients another client waits for its report, so many seconds at least and at most."""

    name: str
    clients: tuple[SlowClient, ...]
    least: float
    most: float

    def play(self, made: Path) -> None:
        """Plays the case on a copy of the campaign, against a server of its own."""
        port = free_port()
        database = made.with_name(f"{port}.db")
        shutil.copy(made, database)
        if {take_nothing, sip, drip_and_sip} & set(self.clients):
            enlarge_report(database)
        with serving(database, port, len(self.clients) + 1):
            self.wait_behind(port)

    def wait_behind(self, port: int) -> None:
        """Connects the slow clients, and then another client, which asks for its report."""
        ended = threading.Event()
        with ThreadPoolExecutor() as pool:
            slow = [pool.submit(run, client, connect(port, PATIENCE, BUFFER), ended) for client in self.clients]
            try:
                self.expect_report(port)
            finally:
                ended.set()
            for one in slow:
                one.result()

    def expect_report(self, port: int) -> None:
        with connect(port, PATIENCE, BUFFER) as client:
            begin = time.monotonic()
            client.sendall(GET % 2)
            status = receive(client).split(b"\r\n")[0]
        seconds = time.monotonic() - begin
        print(f"{self.name}: {seconds:.1f} s")
        expect(status, b"HTTP/1.1 200 OK")
        if not self.least <= seconds <= self.most:
            raise AssertionError(f"waited {seconds:.1f} s, and not {self.least} to {self.most}")


CASES = (
    Case("after a silent client", (send_nothing,), 8, 20),
    Case("after a client that drips bytes", (drip,), 55, 75),
    Case("after a client that takes nothing", (take_nothing,), 8, 35),
    Case("after a client that sips", (sip,), 55, 80),
    Case("after a client that drips bytes and then sips", (drip_and_sip,), 55, 80),
    Case("after four slow clients", (send_nothing, take_nothing, send_nothing, send_nothing), 35, 80),
    Case("after a slow mailing", (mail_slowly,), 40, 75),
)


def enlarge_report(database: Path) -> None:
    """Gives faction 1 the large report."""
    with closing(sqlite3.connect(database)) as connection, connection:
        connection.execute("UPDATE report SET text = ? WHERE faction = 1", (LARGE_REPORT,))


def make_campaign(folder: Path) -> Path:
    database = folder / "campaign.db"
    gm("found", "--world", SMALL_FILE, "--db", database, "--pass", "gm")
    for name in ("Avalon", "Bree"):
        gm("join", "--db", database, "--name", name, "--pass", "pw", "--seed", SEED)
    return database


class Slow(unittest.TestCase):
    def test_another_client_gets_its_report(self) -> None:
        with tempfile.TemporaryDirectory() as folder, ThreadPoolExecutor(len(CASES)) as pool:
            made = make_campaign(Path(folder))
            played = [pool.submit(case.play, made) for case in CASES]
            for case, one in zip(CASES, played):
                with self.subTest(case=case.name):
                    one.result()


if __name__ == "__main__":
    unittest.main()
