"""A campaign that `gm serve` serves, and an nginx with the lines of web/nginx.conf in front of it."""
import os
import re
import signal
import socket
import subprocess
import sys
import time

HERE = os.path.dirname(os.path.dirname(os.path.dirname(os.path.abspath(__file__))))
sys.path.insert(0, HERE)

from tests.tools.ports import free_port  # noqa: E402

GM = os.path.join(HERE, 'gm')
PASS = 'moderator'
SEED = '7'


def wait_for(port, process, name):
    """Waits until the process listens on the port."""
    for _ in range(1200):
        if process.poll() is not None:
            raise RuntimeError(f'{name} ended with status {process.returncode}')
        with socket.socket() as one:
            if one.connect_ex(('127.0.0.1', port)) == 0:
                return
        time.sleep(0.05)
    raise RuntimeError(f'{name} does not listen')


def curl(*arguments):
    """Status, head and body of the reply to a request by curl."""
    command = ['curl', '-s', '-i', '--noproxy', '*', '--max-time', '60', '-H', 'Expect:', *arguments]
    reply = subprocess.run(command, stdout=subprocess.PIPE, check=True).stdout
    head, _, body = reply.partition(b'\r\n\r\n')
    head = head.decode()
    return int(head.split()[1]), head, body.decode()


class Club:
    """A campaign in a file of `folder`, which is served until it is stopped."""

    def __init__(self, folder, name, world):
        self.folder = folder
        self.db = os.path.join(folder, name + '.db')
        self.log = os.path.join(folder, name + '.log')
        self.process = None
        subprocess.run([GM, 'found', '--world', world, '--db', self.db, '--pass', PASS], check=True,
                       stdout=subprocess.DEVNULL)
        self.port = free_port()

    @property
    def site(self):
        return f'http://127.0.0.1:{self.port}'

    def start(self):
        with open(self.log, 'a') as log:
            command = [GM, 'serve', '--db', self.db, '--port', str(self.port), '--count', '100000', '--seed', SEED]
            self.process = subprocess.Popen(command, stdout=log, stderr=log)
        wait_for(self.port, self.process, 'serve')

    def stop(self):
        if self.process:
            self.process.send_signal(signal.SIGKILL)
            self.process.wait()
            self.process = None

    def report(self, faction, text):
        """The report of the faction, straight from `serve`."""
        status, _, body = curl('-H', f'Atlantis-Pass: {text}', f'{self.site}/report/{faction}')
        if status != 200:
            raise RuntimeError(f'the report of faction {faction} is refused: {body}')
        return body

    def close(self, month):
        """Closes the month, as a moderator does it past nginx."""
        status, _, body = curl('-X', 'POST', '-H', f'Atlantis-Pass: {PASS}', f'{self.site}/close/{month}')
        if status != 200:
            raise RuntimeError(f'closing month {month} is refused: {body}')


class Proxy:
    """An nginx in a folder of its own. It takes web/nginx.conf, with another port, folder and port of `serve`."""

    def __init__(self, folder):
        self.folder = os.path.join(folder, 'nginx')
        os.mkdir(self.folder)
        self.root = os.path.join(HERE, 'web')
        self.port, self.plain_port = free_port(), free_port()
        self.process = None

    @property
    def site(self):
        return f'http://127.0.0.1:{self.port}'

    def lines(self, club, changes):
        with open(os.path.join(HERE, 'web', 'nginx.conf')) as file:
            lines = file.read()
        own = [
            (r'listen 80;\n  listen \[::\]:80;', f'listen 127.0.0.1:{self.plain_port};'),
            (r'listen 443 ssl;\n  listen \[::\]:443 ssl;', f'listen 127.0.0.1:{self.port};'),
            (r'ssl_certificate \S+;\n', ''),
            (r'ssl_certificate_key \S+;\n', ''),
            (r'root \S+;', f'root "{self.root}";'),
            (r'proxy_pass http://127\.0\.0\.1:8080;', f'proxy_pass {club.site};'),
        ]
        for old, new in own + changes:
            lines, count = re.subn(old, lambda _: new, lines)
            if count != 1:
                raise RuntimeError(f'web/nginx.conf has {count} places {old}')
        return lines

    def start(self, club, changes=()):
        """Starts it in front of the club, with some of the lines changed."""
        with open(os.path.join(self.folder, 'club.conf'), 'w') as file:
            file.write(self.lines(club, list(changes)))
        folders = ''.join(f'  {name}_temp_path {name};\n'
                          for name in ('client_body', 'proxy', 'fastcgi', 'uwsgi', 'scgi'))
        with open(os.path.join(self.folder, 'nginx.conf'), 'w') as file:
            file.write('daemon off;\nmaster_process off;\npid pid;\nerror_log error.log;\nevents {}\n'
                       f'http {{\n  access_log access.log;\n{folders}  include club.conf;\n}}\n')
        command = ['nginx', '-p', self.folder, '-c', 'nginx.conf', '-e', 'error.log']
        self.process = subprocess.Popen(command, stderr=subprocess.DEVNULL)
        wait_for(self.port, self.process, 'nginx')

    def stop(self):
        if self.process:
            self.process.terminate()
            self.process.wait()
            self.process = None
