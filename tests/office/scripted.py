"""Mail servers that do what real ones can't be made to do: each follows a script of a test. Both speak TLS on a port of
127.0.0.1, and only as much of SMTP and IMAP as the office uses."""

from __future__ import annotations

import re
import socket
import socketserver
import ssl
import threading
import time
from collections.abc import Callable
from dataclasses import dataclass, field
from pathlib import Path
from types import TracebackType

from tests.tools.ports import HOST

DROP = "drop the line"
SILENCE = "no answer"


class _Server(socketserver.ThreadingTCPServer):
    daemon_threads = True
    allow_reuse_address = True

    def __init__(self, handler: type[socketserver.BaseRequestHandler], certificate: Path, key: Path) -> None:
        super().__init__((HOST, 0), handler)
        self.context = ssl.SSLContext(ssl.PROTOCOL_TLS_SERVER)
        self.context.load_cert_chain(certificate, key)

    def finish_request(self, request: object, client_address: object) -> None:
        try:
            request.setsockopt(socket.IPPROTO_TCP, socket.TCP_NODELAY, 1)  # type: ignore[attr-defined]
            with self.context.wrap_socket(request, server_side=True) as line:  # type: ignore[arg-type]
                super().finish_request(line, client_address)
        except OSError:
            pass

    def handle_error(self, request: object, client_address: object) -> None:
        pass


class _Running:
    """A server that answers as long as the `with` lasts."""

    server: _Server

    def __enter__(self) -> int:
        threading.Thread(target=self.server.serve_forever, kwargs={"poll_interval": 0.01}, daemon=True).start()
        return int(self.server.server_address[1])

    def __exit__(self, _kind: type[BaseException] | None, _error: BaseException | None,
                 _trace: TracebackType | None) -> None:
        self.server.shutdown()
        self.server.server_close()


@dataclass(frozen=True)
class Delivered:
    """A letter that was taken whole, or whose line was dropped when it was there whole."""

    to: tuple[str, ...]
    data: bytes


@dataclass
class SmtpScript:
    """`answer(verb, argument)` is the server's answer to a command, '' for a good one. The verbs are those of SMTP,
    GREETING for the first line, and END for the line with a dot, with the addresses as its argument."""

    answer: Callable[[str, str], str] = lambda _verb, _argument: ""
    delay: float = 0.0
    delivered: list[Delivered] = field(default_factory=list)
    commands: list[str] = field(default_factory=list)


GOOD = {"GREETING": "220 ready", "EHLO": "250-here\r\n250 AUTH PLAIN", "HELO": "250 here", "AUTH": "235 known",
        "MAIL": "250 yes", "RCPT": "250 yes", "DATA": "354 go on", "END": "250 taken", "RSET": "250 yes",
        "NOOP": "250 yes", "QUIT": "221 bye"}


class ScriptedSmtp(_Running):
    """A mail server that takes letters as its script says."""

    def __init__(self, script: SmtpScript, certificate: Path, key: Path) -> None:
        class Handler(socketserver.StreamRequestHandler):
            def handle(self) -> None:
                _SmtpTalk(script, self).talk()
        self.server = _Server(Handler, certificate, key)


class _SmtpTalk:
    def __init__(self, script: SmtpScript, line: socketserver.StreamRequestHandler) -> None:
        self.script = script
        self.line = line
        self.to: list[str] = []

    def _say(self, verb: str, argument: str = "") -> str:
        """What it answered, with '' where the line ends."""
        answer = self.script.answer(verb, argument) or GOOD.get(verb, "502 unknown")
        time.sleep(self.script.delay)
        if answer == DROP:
            return ""
        if answer == SILENCE:
            self.line.rfile.read()
            return ""
        self.line.wfile.write(answer.encode() + b"\r\n")
        return answer

    def talk(self) -> None:
        answer = self._say("GREETING")
        while answer and (line := self.line.rfile.readline()):
            text = line.decode("latin-1").rstrip("\r\n")
            verb, _, argument = text.partition(" ")
            verb = verb.upper()
            self.script.commands.append(text)
            if verb == "MAIL":
                self.to = []
            answer = self._say(verb, argument)
            if verb == "RCPT" and answer.startswith("2"):
                self.to.append(re.sub(r".*<(.*)>.*", r"\1", argument))
            if verb == "DATA" and answer.startswith("3"):
                answer = self._take()
            if verb == "QUIT":
                return

    def _take(self) -> str:
        lines = []
        while (line := self.line.rfile.readline()) not in (b".\r\n", b""):
            lines.append(line[1:] if line.startswith(b".") else line)
        if not line:
            return ""
        answer = self.script.answer("END", " ".join(self.to))
        if not answer or answer == DROP or answer.startswith("2"):
            self.script.delivered.append(Delivered(tuple(self.to), b"".join(lines)))
        return self._say("END", " ".join(self.to)) if answer not in (DROP, SILENCE) else self._break(answer)

    def _break(self, answer: str) -> str:
        if answer == SILENCE:
            self.line.rfile.read()
        return ""


@dataclass
class ImapScript:
    """A mailbox: its messages by their numbers, and the number of its state. `cut` says after how many bytes of a
    message the line is dropped. `refused` are messages that it can't read."""

    messages: dict[int, bytes]
    validity: int = 7
    cut: dict[int, int] = field(default_factory=dict)
    refused: frozenset[int] = frozenset()
    fetched: list[int] = field(default_factory=list)
    sent_bytes: int = 0
    commands: int = 0
    password: str = "secret"


class ScriptedImap(_Running):
    """A mailbox that is read as its script says."""

    def __init__(self, script: ImapScript, certificate: Path, key: Path) -> None:
        class Handler(socketserver.StreamRequestHandler):
            def handle(self) -> None:
                _ImapTalk(script, self).talk()
        self.server = _Server(Handler, certificate, key)


class _ImapTalk:
    def __init__(self, script: ImapScript, line: socketserver.StreamRequestHandler) -> None:
        self.script = script
        self.line = line

    def _say(self, text: str) -> None:
        self.line.wfile.write(text.encode() + b"\r\n")

    def talk(self) -> None:
        self._say("* OK ready")
        while line := self.line.rfile.readline():
            self.script.commands += 1
            tag, _, rest = line.decode("latin-1").rstrip("\r\n").partition(" ")
            verb = rest.split(" ")[0].upper()
            if verb == "UID":
                verb = rest.split(" ")[1].upper()
            if verb == "LOGOUT":
                self._say(f"* BYE\r\n{tag} OK bye")
                return
            if not self._answer(tag, verb, rest):
                return

    def _answer(self, tag: str, verb: str, rest: str) -> bool:
        """False where the line is to be dropped."""
        if verb == "CAPABILITY":
            self._say("* CAPABILITY IMAP4rev1")
        elif verb == "LOGIN" and self.script.password not in rest:
            self._say(f"{tag} NO [AUTHENTICATIONFAILED] unknown")
            return True
        elif verb == "SELECT":
            self._say(f"* {len(self.script.messages)} EXISTS\r\n* OK [UIDVALIDITY {self.script.validity}] state")
        elif verb == "SEARCH":
            first = int(re.findall(r"UID (\d+):", rest)[-1])
            found = [uid for uid in sorted(self.script.messages) if uid >= first] or sorted(self.script.messages)[-1:]
            self._say(" ".join(["* SEARCH", *map(str, found)]))
        elif verb == "FETCH":
            return self._fetch(tag, rest)
        self._say(f"{tag} OK done")
        return True

    def _fetch(self, tag: str, rest: str) -> bool:
        numbers = {int(number) for number in rest.split(" ")[2].split(",")}
        for uid in sorted(numbers & self.script.messages.keys()):
            if "RFC822.SIZE" in rest:
                size = len(self.script.messages[uid])
                self._say(f'* {uid} FETCH (UID {uid} RFC822.SIZE {size} INTERNALDATE "03-May-2026 20:00:00 +0000")')
            elif uid in self.script.refused:
                self._say(f"{tag} NO [SERVERBUG] it can't be read")
                return True
            elif not self._send(uid, rest):
                return False
        self._say(f"{tag} OK done")
        return True

    def _send(self, uid: int, rest: str) -> bool:
        part = re.search(r"<0\.(\d+)>", rest)
        text = self.script.messages[uid][:int(part[1]) if part else None]
        name = "BODY[]<0>" if part else "BODY[]"
        cut = self.script.cut.get(uid)
        self.script.fetched.append(uid)
        self.script.sent_bytes += len(text)
        self._say(f"* {uid} FETCH (UID {uid} {name} {{{len(text)}}}")
        self.line.wfile.write(text[:cut])
        if cut is not None:
            return False
        self._say(")")
        return True
