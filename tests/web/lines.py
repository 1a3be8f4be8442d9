"""Cases that ask nginx with the lines of web/nginx.conf by curl, and compare its replies."""
import os
import re
import socket
import threading
import time

from club import HERE, PASS, curl

FAST = (r'rate=12r/m;', 'rate=1000r/s;')
CLOSED = (r'# (?=location = /join)', '')
HEADERS = {
    'Content-Security-Policy':
        "default-src 'self'; base-uri 'none'; form-action 'none'; frame-ancestors 'none'",
    'X-Content-Type-Options': 'nosniff',
    'Referrer-Policy': 'same-origin',
    'Strict-Transport-Security': 'max-age=31536000',
}
TYPES = {'.html': 'text/html; charset=utf-8', '.js': 'text/javascript', '.css': 'text/css', '.svg': 'image/svg+xml',
         '.png': 'image/png'}


def field(head, name):
    """The value of the field, and None unless it is there once."""
    found = re.findall(rf'^{name}: (.*?)\r?$', head, re.M | re.I)
    return found[0] if len(found) == 1 else None


def read(path):
    with open(os.path.join(HERE, path)) as file:
        return file.read()


class Lines:
    """The cases. The club has two factions, whose pass texts are `apple` and `pony`."""

    def __init__(self, checks, club, proxy):
        self.checks, self.club, self.proxy = checks, club, proxy

    def all(self):
        run = self.checks.run
        run('SERVER.md', self.printed)
        self.proxy.start(self.club, [FAST])
        run('joining by curl', self.joins)
        run('files of the page', self.files)
        run('kept files', self.kept_files)
        run('gzip', self.packed)
        run('port 80', self.redirected)
        run('listen', self.hosts)
        run('/close', self.close_is_denied)
        run('another site', self.other_sites)
        run('long mailings', self.lengths)
        run('odd requests', self.odd)
        run('slow clients', self.slow)
        self.proxy.stop()
        self.proxy.start(self.club, [FAST, CLOSED])
        run('joining closed', self.joining_closed)
        self.proxy.stop()
        self.proxy.start(self.club)
        run('limit', self.limit)
        self.proxy.stop()

    def ask(self, path, *arguments):
        return curl(*arguments, self.proxy.site + path)

    def printed(self):
        blocks = re.findall(r'^```nginx\n(.*?)^```$', read('docs/SERVER.md'), re.M | re.S)
        self.checks.same('what the page prints', [read('web/nginx.conf')], blocks)

    def joins(self):
        for name, text, number in (('Avalon', 'apple', 1), ('Bree', 'pony', 2)):
            status, _, body = self.ask('/join', '-d', f'{{"name":"{name}","pass":"{text}"}}')
            self.checks.same(name, (200, f'{{"faction":{number},"unit":{number}}}'), (status, body))

    def files(self):
        page = read('web/index.html')
        named = re.findall(r'<(?:script|link|img)\b[^>]*?\b(?:src|href)="([^"]+)"', page)
        scripts = [name for name in os.listdir(os.path.join(HERE, 'web')) if name.endswith('.js')]
        for path in ['/'] + sorted({'/' + name.removeprefix('./') for name in named + scripts}):
            status, head, _ = self.ask(path)
            end = os.path.splitext(path)[1] or '.html'
            self.checks.same(f'status of {path}', 200, status)
            self.checks.same(f'type of {path}', TYPES.get(end), field(head, 'Content-Type'))
            self.headers(path, head)
        self.checks.same('status of a file that is not there', 404, self.ask('/none.html')[0])
        for path in ('/report/1', '/report/9', '/close/1'):
            self.headers(path, self.ask(path, '-H', 'Atlantis-Pass: apple')[1], 'no-store')

    def headers(self, path, head, keeping='no-cache'):
        for name, value in [*HEADERS.items(), ('Cache-Control', keeping)]:
            self.checks.same(f'{name} of {path}', value, field(head, name))

    def kept_files(self):
        """A browser that keeps a file is answered 304 without it, as long as the file is the same."""
        _, head, body = self.ask('/main.js')
        tag = field(head, 'ETag')
        again = self.ask('/main.js', '-H', f'If-None-Match: {tag}')
        self.checks.same('status of a file that is kept', (304, ''), again[::2])
        self.checks.true('a file that is kept was sent before', 'startTabs' in body)

    def packed(self):
        """The files of the page, and the answers of the program, are sent packed to a client that takes that."""
        for path in ('/index.html', '/style.css', '/words.js', '/report/1'):
            _, head, plain = self.ask(path, '-H', 'Atlantis-Pass: apple')
            self.checks.same(f'Content-Encoding of {path}', None, field(head, 'Content-Encoding'))
            _, head, text = self.ask(path, '-H', 'Atlantis-Pass: apple', '--compressed')
            self.checks.same(f'Content-Encoding of {path} for a browser', 'gzip', field(head, 'Content-Encoding'))
            self.checks.same(f'text of {path}', plain, text)

    def redirected(self):
        """Who asks without TLS is sent to the name of the host, whatever the request says of it."""
        status, head, _ = curl(f'http://127.0.0.1:{self.proxy.plain_port}/report/1?a', '-H', 'Host: evil.example')
        self.checks.same('where port 80 leads', (301, 'https://club.example.org/report/1?a'),
                         (status, field(head, 'Location')))

    def hosts(self):
        """Both versions of IP are listened to on both ports."""
        listens = re.findall(r'^  listen (.*);$', read('web/nginx.conf'), re.M)
        self.checks.same('lines of listen', ['80', '[::]:80', '443 ssl', '[::]:443 ssl'], listens)

    def close_is_denied(self):
        paths = ('/close/1', '/close', '/close/1?a', '//close/1', '/%63lose/1', '/orders/../close/1', '/./close/1',
                 '/report/%2e%2e/close/1', '/close%2f1')
        for path in paths:
            status = self.ask(path, '--path-as-is', '-X', 'POST', '-H', f'Atlantis-Pass: {PASS}')[0]
            self.checks.same(f'status of {path}', 403, status)
        for path in ('/CLOSE/1', '/x/close/1', '/report/close/1'):
            status = self.ask(path, '--path-as-is', '-X', 'POST', '-H', f'Atlantis-Pass: {PASS}')[0]
            self.checks.true(f'{path} closes nothing', status in (404, 405), status)
        self.month_is(0)

    def month_is(self, month):
        report = self.club.report(1, 'apple')
        self.checks.true(f'the month is {month}', report.startswith(f'Atlantis report, month {month}, '), report[:60])

    def other_sites(self):
        site = self.proxy.site
        host = site.removeprefix('http://')
        foreign = [['Origin: https://evil.example'], ['Origin: null'], ['Origin: http://127.0.0.1'], ['Origin: x'],
                   [f'Origin: {site}.evil.example'], [f'Origin: http://evil.example/{host}'],
                   [f'Origin: http://{host} {site}'], ['Sec-Fetch-Site: cross-site'], ['Sec-Fetch-Site: same-site'],
                   [f'Origin: {site}', 'Sec-Fetch-Site: cross-site'], ['Sec-Fetch-Site: x same-origin']]
        own = [[], [f'Origin: {site}'], [f'Origin: {site}', 'Sec-Fetch-Site: same-origin'], ['Sec-Fetch-Site: none'],
               [f'Origin: https://{host}']]
        routes = [['/orders/1', '-d', '#ATLANTIS 1'], ['/report/1']]
        for route in routes + [['/join', '-d', '{"name":"Evil","pass":"evil"}']]:
            for fields in foreign:
                status = self.site_status(route, fields)
                self.checks.same(f'status of {route[0]} with {fields}', 403, status)
        for route in routes:
            for fields in own:
                self.checks.same(f'status of {route[0]} with {fields}', 200, self.site_status(route, fields))
        self.checks.same('status of a faction that the other site might have founded', 404,
                         curl('-H', 'Atlantis-Pass: evil', f'{self.club.site}/report/3')[0])
        self.checks.same('status of a link from another site', 200,
                         self.ask('/', '-H', 'Sec-Fetch-Site: cross-site', '-H', 'Sec-Fetch-Mode: navigate')[0])

    def site_status(self, route, fields):
        path, *arguments = route
        heads = [word for value in fields + ['Atlantis-Pass: apple'] for word in ('-H', value)]
        return self.ask(path, *arguments, *heads)[0]

    def lengths(self):
        folder = self.proxy.folder
        for length, wanted in ((65536, 200), (65537, 413), (2000000, 413)):
            path = os.path.join(folder, 'mailing')
            with open(path, 'w') as file:
                file.write('#ATLANTIS 1\n;'.ljust(length, 'x'))
            for _ in range(5):
                status = self.ask('/orders/1', '-H', 'Atlantis-Pass: apple', '--data-binary', f'@{path}')[0]
                self.checks.same(f'status of {length} bytes', wanted, status)

    def odd(self):
        """Requests that `serve` alone would refuse: chunks, many fields, long cookies."""
        own = ['-H', 'Atlantis-Pass: apple']
        status, _, body = self.ask('/orders/1', *own, '-H', 'Transfer-Encoding: chunked', '-d', '#ATLANTIS 1')
        self.checks.same('answer to chunks', (200, '{"faults":[],"orders":0}'), (status, body))
        many = [word for number in range(40) for word in ('-H', f'X-{number}: a')]
        self.checks.same('status of 40 more fields', 200, self.ask('/report/1', *own, *many)[0])
        self.checks.same('status of a long cookie', 200, self.ask('/report/1', *own, '-H', 'Cookie: ' + 'a' * 7000)[0])
        status, _, body = self.ask('/report/1', '-H', 'Atlantis-Pass: pear')
        self.checks.same('answer to a wrong pass text', (403, '{"error":"WrongPass","number":6}'), (status, body))
        status, _, body = self.ask('/report/1')
        self.checks.same('answer without a pass text', (400, '{"error":"NoPass","number":0}'), (status, body))
        text = '!"#$%&\'()*+,-./:;<=>?@[\\]^_`{|}~aZ09'
        json = text.replace('\\', '\\\\').replace('"', '\\"')
        status, _, body = self.ask('/join', '--data-binary', f'{{"name":"Signs","pass":"{json}"}}')
        self.checks.same('joining with signs', (200, '{"faction":3,"unit":3}'), (status, body))
        self.checks.same('status with signs', 200, self.ask('/report/3', '-H', f'Atlantis-Pass: {text}')[0])

    def slow(self):
        """Five clients that send half a request and wait don't keep others waiting."""
        halves = [b'POST /orders/1 HTTP/1.1\r\nHost: x\r\nAtlantis-Pass: apple\r\nContent-Length: 99\r\n\r\n#ATL',
                  b'GET /report/1 HTTP/1.1\r\nHost: x\r\nAtl']
        clients = []
        for half in halves * 3:
            client = socket.create_connection(('127.0.0.1', self.proxy.port))
            client.sendall(half)
            clients.append(client)
        time.sleep(0.2)
        begun = time.monotonic()
        self.checks.same('status beside slow clients', 200, self.ask('/report/1', '-H', 'Atlantis-Pass: apple')[0])
        self.checks.true('the answer comes at once', time.monotonic() - begun < 3)
        for client in clients:
            client.close()

    def joining_closed(self):
        body = '{"name":"Late","pass":"late"}'
        self.checks.same('status of joining', 403, self.ask('/join', '-d', body)[0])
        self.checks.same('status of a report', 200, self.ask('/report/1', '-H', 'Atlantis-Pass: apple')[0])
        self.checks.same('status of the faction', 404,
                         curl('-H', 'Atlantis-Pass: late', f'{self.club.site}/report/4')[0])

    def limit(self):
        """With the lines as they are, one address has 21 requests, and then one every five seconds."""
        statuses = []

        def guess(number):
            statuses.append(self.ask('/report/1', '-H', f'Atlantis-Pass: guess{number}')[0])

        begun = time.monotonic()
        threads = [threading.Thread(target=guess, args=(number,)) for number in range(40)]
        for thread in threads:
            thread.start()
        for thread in threads:
            thread.join()
        more = int((time.monotonic() - begun) / 5)
        self.checks.true('21 of 40 guesses are let through', 21 <= statuses.count(403) <= 21 + more, *statuses)
        self.checks.same('the others', {429}, set(statuses) - {403})
        self.checks.same('statuses of the page then', [200] * 30, [self.ask('/')[0] for _ in range(30)])
        time.sleep(5.5)
        guess(40)
        self.checks.same('status of a guess five seconds later', 403, statuses[-1])
