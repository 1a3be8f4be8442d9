"""A mail house of a test's own: Dovecot for IMAP and Postfix for SMTP, with a mailbox for each account. Each listens
at a port of 127.0.0.1 for TLS from the first byte, and at one for STARTTLS. Their settings, queues and mailboxes are in a
temporary folder: the machine's own mail isn't touched, and several can be open. No mail leaves the machine."""

from __future__ import annotations

import email.policy
import grp
import imaplib
import os
import pwd
import shutil
import signal
import smtplib
import socket
import ssl
import subprocess
import sys
import tempfile
import time
from collections.abc import Callable, Sequence
from dataclasses import dataclass
from email import message_from_bytes
from email.message import EmailMessage
from functools import partial
from pathlib import Path
from types import TracebackType
from typing import cast

from tests.tools.ports import HOST, free_port

DOMAIN = "club.test"
PASSWORD = "a-password-of-the-tests"
SECONDS_TO_START = 30.0
SECONDS_TO_DELIVER = 30.0
SECONDS_TO_END = 10.0
OWNER = "nobody"
STATUS_OF_SIGTERM = 143
TOOLS = {"dovecot": "dovecot-imapd", "postconf": "postfix", "openssl": "openssl"}
# The folders of a queue, with their rights. The last two are those into which programs of other users write.
PRIVATE_QUEUES = ("incoming", "active", "bounce", "defer", "deferred", "corrupt", "hold", "trace", "flush", "saved",
                  "private")
# Those into which programs of other users write, with their rights.
SHARED_QUEUES = {"public": 0o710, "maildrop": 0o730}

IMAP_SETTINGS = """\
base_dir = {home}/run
state_dir = {home}/state
log_path = {home}/log
protocols = imap
listen = {host}
ssl = required
ssl_cert = <{folder}/certificate.pem
ssl_key = <{folder}/key.pem
auth_mechanisms = plain
mail_location = maildir:~/Maildir
first_valid_uid = 1
mail_fsync = never
passdb {{
  driver = passwd-file
  args = {folder}/passwords
}}
userdb {{
  driver = static
  args = uid={user} gid={group} home={folder}/mail/%n
}}
service auth {{
  unix_listener {home}/sign-in {{
    mode = 0660
    user = postfix
  }}
}}
service imap-login {{
  chroot =
  inet_listener imap {{
    port = {starttls_port}
  }}
  inet_listener imaps {{
    port = {tls_port}
    ssl = yes
  }}
}}
"""

SMTP_SETTINGS = """\
compatibility_level = 3.6
queue_directory = {home}/queue
data_directory = {home}/data
maillog_file = {home}/log
maillog_file_prefixes = {home}
myhostname = mail.{domain}
mynetworks =
mydestination =
inet_interfaces = {host}
inet_protocols = ipv4
alias_maps =
alias_database =
local_recipient_maps =
virtual_mailbox_domains = {domain}
virtual_mailbox_maps = texthash:{folder}/mailboxes
virtual_mailbox_base = {folder}/mail
virtual_uid_maps = static:{user}
virtual_gid_maps = static:{group}
virtual_minimum_uid = 1
default_transport = error:no mail leaves this machine
relay_transport = error:no mail leaves this machine
smtpd_tls_cert_file = {folder}/certificate.pem
smtpd_tls_key_file = {folder}/key.pem
smtpd_tls_security_level = encrypt
smtpd_sasl_auth_enable = yes
smtpd_sasl_type = dovecot
smtpd_sasl_path = {folder}/dovecot/sign-in
smtpd_relay_restrictions = permit_sasl_authenticated, reject_unauth_destination
smtpd_client_connection_count_limit = 0
smtputf8_enable = no
biff = no
"""

SMTP_SERVICES = """\
{host}:{tls_port} inet n - n - - smtpd
  -o smtpd_tls_wrappermode=yes
{host}:{starttls_port} inet n - n - - smtpd
cleanup unix n - n - 0 cleanup
qmgr unix n - n - 1 qmgr
tlsmgr unix - - n - 1 tlsmgr
rewrite unix - - n - - trivial-rewrite
bounce unix - - n - 0 bounce
defer unix - - n - 0 bounce
trace unix - - n - 0 bounce
proxymap unix - - n - - proxymap
error unix - - n - - error
retry unix - - n - - error
anvil unix - - n - 1 anvil
flush unix n - n - 0 flush
virtual unix - n n - - virtual
postlog unix-dgram n - n - 1 postlogd
"""


def missing_tool() -> str:
    """Why no mail house can be opened here; '' where one can."""
    for tool, package in TOOLS.items():
        if _find(tool) is None:
            return f"{tool} is missing: apt-get install {package}"
    if os.geteuid() != 0:
        return "a mail server delivers to mailboxes as root alone: run it as root"
    return ""


def _find(tool: str) -> str | None:
    return shutil.which(tool, path=os.environ.get("PATH", "") + ":/usr/sbin:/sbin")


def make_certificate(folder: Path) -> tuple[Path, Path]:
    """A certificate for 127.0.0.1 that nobody signed, and its key."""
    certificate, key = folder / "certificate.pem", folder / "key.pem"
    subprocess.run(["openssl", "req", "-x509", "-newkey", "rsa:2048", "-nodes", "-days", "2", "-subj", f"/CN={HOST}",
                    "-addext", f"subjectAltName=IP:{HOST}", "-keyout", str(key), "-out", str(certificate)],
                   check=True, capture_output=True)
    key.chmod(0o600)
    return certificate, key


def wait_until(holds: Callable[[], bool], seconds: float, what: str) -> None:
    """AssertionError where it doesn't hold in time."""
    until = time.monotonic() + seconds
    while not holds():
        if time.monotonic() > until:
            raise AssertionError(f"{what} in {seconds:.0f} s")
        time.sleep(0.02)


def is_listening(port: int) -> bool:
    try:
        with socket.create_connection((HOST, port), timeout=1):
            return True
    except OSError:
        return False


def end_process(process: subprocess.Popen[bytes]) -> None:
    """Asks it to end, and kills it where it doesn't."""
    process.terminate()
    try:
        process.wait(SECONDS_TO_END)
    except subprocess.TimeoutExpired:
        process.kill()
        process.wait()


@dataclass(frozen=True)
class Ports:
    """Where a server speaks TLS from the first byte, and where after STARTTLS."""

    tls: int
    starttls: int


class MailHouse:
    """Both servers, as long as the `with` lasts. `certificate` is the file that a client trusts."""

    def __init__(self, accounts: Sequence[str]) -> None:
        self.accounts = tuple(accounts)
        self.imap = Ports(free_port(), free_port())
        self.smtp = Ports(free_port(), free_port())
        self.folder = Path(tempfile.mkdtemp(prefix="mailhouse-"))
        self.certificate = self.folder / "certificate.pem"
        self._processes: list[subprocess.Popen[bytes]] = []

    def __enter__(self) -> MailHouse:
        # A test that is asked to end ends its servers too.
        signal.signal(signal.SIGTERM, lambda _number, _frame: sys.exit(STATUS_OF_SIGTERM))
        try:
            self._start()
        except BaseException:
            self._end()
            raise
        return self

    def __exit__(self, _kind: type[BaseException] | None, _error: BaseException | None,
                 _trace: TracebackType | None) -> None:
        self._end()

    def _start(self) -> None:
        self.folder.chmod(0o755)
        make_certificate(self.folder)
        self._make_mailboxes()
        self._start_imap()
        self._start_smtp()
        for port in (self.imap.tls, self.imap.starttls, self.smtp.tls, self.smtp.starttls):
            wait_until(partial(is_listening, port), SECONDS_TO_START, f"nobody listens at port {port}")

    def _end(self) -> None:
        for process in reversed(self._processes):
            end_process(process)
        shutil.rmtree(self.folder, ignore_errors=True)

    def _make_mailboxes(self) -> None:
        owner = pwd.getpwnam(OWNER)
        secret = subprocess.run(["openssl", "passwd", "-6", PASSWORD], check=True, capture_output=True,
                                text=True).stdout.strip()
        for name in self.accounts:
            home = self.folder / "mail" / name
            home.mkdir(parents=True)
            os.chown(home, owner.pw_uid, owner.pw_gid)
        (self.folder / "mailboxes").write_text(
            "".join(f"{self.address(name)} {name}/Maildir/\n" for name in self.accounts))
        (self.folder / "passwords").write_text(
            "".join(f"{name}:{{SHA512-CRYPT}}{secret}::::::\n" for name in self.accounts))

    def _fill(self, text: str, home: Path, ports: Ports) -> str:
        owner = pwd.getpwnam(OWNER)
        return text.format(home=home, folder=self.folder, host=HOST, domain=DOMAIN, user=owner.pw_uid,
                           group=owner.pw_gid, tls_port=ports.tls, starttls_port=ports.starttls)

    def _start_imap(self) -> None:
        home = self.folder / "dovecot"
        home.mkdir()
        (home / "dovecot.conf").write_text(self._fill(IMAP_SETTINGS, home, self.imap))
        self._run([_find("dovecot") or "", "-F", "-c", str(home / "dovecot.conf")], "dovecot.out")

    def _make_queue(self, home: Path) -> None:
        owner = pwd.getpwnam("postfix")
        for name in ("data", "queue", "queue/pid"):
            (home / name).mkdir()
        os.chown(home / "data", owner.pw_uid, owner.pw_gid)
        group = grp.getgrnam("postdrop").gr_gid
        for name, rights in {**dict.fromkeys(PRIVATE_QUEUES, 0o700), **SHARED_QUEUES}.items():
            folder = home / "queue" / name
            folder.mkdir()
            os.chown(folder, owner.pw_uid, group if name in SHARED_QUEUES else owner.pw_gid)
            folder.chmod(rights)

    def _start_smtp(self) -> None:
        home = self.folder / "postfix"
        home.mkdir()
        self._make_queue(home)
        (home / "main.cf").write_text(self._fill(SMTP_SETTINGS, home, self.smtp))
        (home / "master.cf").write_text(self._fill(SMTP_SERVICES, home, self.smtp))
        daemons = subprocess.run([_find("postconf") or "", "-d", "-h", "daemon_directory"], check=True,
                                 capture_output=True, text=True).stdout.strip()
        self._run([f"{daemons}/master", "-c", str(home), "-d"], "postfix.out")

    def _run(self, words: list[str], log: str) -> None:
        with (self.folder / log).open("wb") as output:
            self._processes.append(subprocess.Popen(words, stdin=subprocess.DEVNULL, stdout=output, stderr=output,
                                                    cwd=self.folder))

    # Clients

    def address(self, name: str) -> str:
        return f"{name}@{DOMAIN}"

    def tls(self) -> ssl.SSLContext:
        return ssl.create_default_context(cafile=str(self.certificate))

    def post(self, sender: str, to: str, message: EmailMessage | bytes) -> None:
        """Mails it as somebody outside does: to the server of the one that it goes to, without a sign-in."""
        raw = message if isinstance(message, bytes) else message.as_bytes(policy=email.policy.SMTP)
        with smtplib.SMTP_SSL(HOST, self.smtp.tls, context=self.tls(), timeout=30) as server:
            server.sendmail(sender, [self.address(to)], raw)

    def read(self, name: str) -> list[EmailMessage]:
        """All messages of a mailbox, oldest first, as its owner reads them by IMAP."""
        with imaplib.IMAP4_SSL(HOST, self.imap.tls, ssl_context=self.tls(), timeout=30) as mailbox:
            mailbox.login(name, PASSWORD)
            mailbox.select(readonly=True)
            _, found = mailbox.uid("SEARCH", "ALL")
            return [self._message(mailbox, uid) for uid in (found[0] or b"").split()]

    @staticmethod
    def _message(mailbox: imaplib.IMAP4, uid: bytes) -> EmailMessage:
        _, parts = mailbox.uid("FETCH", uid.decode(), "(BODY.PEEK[])")
        raw = next(part[1] for part in parts if isinstance(part, tuple))
        return cast(EmailMessage, message_from_bytes(raw, policy=email.policy.default))

    def count(self, name: str) -> int:
        """How many messages were delivered to a mailbox."""
        mailbox = self.folder / "mail" / name / "Maildir"
        return sum(1 for folder in ("new", "cur") for _ in mailbox.glob(f"{folder}/*"))

    def wait_for(self, name: str, count: int) -> None:
        """AssertionError where the mailbox doesn't get so many messages in time."""
        wait_until(lambda: self.count(name) >= count, SECONDS_TO_DELIVER, f"{name} didn't get {count} messages")

    def settings(self, security: str = "tls") -> str:
        """The tables [imap] and [smtp] of club.toml for the account `club`, whose password is in the file
        `mail-password`. `security` is tls or starttls."""
        common = f'host = "{HOST}"\nuser = "club"\npassword_file = "mail-password"\nsecurity = "{security}"\n'
        imap, smtp = (ports.tls if security == "tls" else ports.starttls for ports in (self.imap, self.smtp))
        return f"\n[imap]\n{common}port = {imap}\n\n[smtp]\n{common}port = {smtp}\n"


def text_of(message: EmailMessage) -> str:
    """The plain text of a message, with single line ends."""
    body = message.get_body(("plain",))
    return "" if body is None else str(cast(EmailMessage, body).get_content()).replace("\r\n", "\n")
