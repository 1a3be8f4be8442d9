"""Cases of what a player writes: nothing is lost, and the page says only what is so of it."""
import contextlib
import os
import re
import shutil
import socket
import threading
from collections.abc import Iterator

from club import HERE, curl
from driver import until
from lines import FAST
from page import PageCases, one_line

APPLE = 'apple-Zq7'
HERE_SENT = """#ATLANTIS 1
UNIT 1
RECRUIT 5
STUDY smithing
NAME UNIT Old
TAX
#END
"""
SENT_ELSEWHERE = """#ATLANTIS 1
UNIT 1
RECRUIT 2
STUDY mining
NAME UNIT New
#END
"""
QUOTED = '#ATLANTIS 1\nUNIT 1\nNAME UNIT \u201cOld men\u201d\n#END\n'
FAULTY = """#ATLANTIS 1
UNIT 1
; the first
GAURD 1
WORK
STUDY swimming
; the last
#END
"""
# A report as docs/FORMATS.md, "Reports", says, and the mailing that it is on.
READ_REPORT = """Atlantis report, month 1, faction 1 "Avalon".
Orders:
Unit 1, line 3, FORM: done 2.
Unit 1, line 6, SELL: done 0.
Unit 1, line 7, BUY: done 2.
Unit 1, line 8, RECRUIT: done 3.
Unit 1, line 9, STUDY: done 30.
Unit 1: 7 starved.
Region 3 "Far", forest: 188 peasants, 288 money.
Exits: north 4.
* Unit 1 "Guards of Far": 5 men, 40 money.
"""
READ_MAILING = """#ATLANTIS 1
UNIT 1
FORM 1
NAME UNIT Ghosts
END
SELL 4 wood
BUY 5 iron
RECRUIT 3
STUDY sailing
"""
TONES = """return Object.fromEntries([...document.querySelectorAll("#report-read tr[data-line]")]
  .map((row) => [row.dataset.line, [row.className, row.innerText]]))"""


def quick_page(folder: str, milliseconds: int) -> None:
    """A copy of the page that waits for an answer for so long, in place of 30 seconds."""
    shutil.copytree(os.path.join(HERE, 'web'), folder)
    changed = 0
    for name in os.listdir(folder):
        if not name.endswith('.js'):
            continue
        path = os.path.join(folder, name)
        with open(path, encoding='utf-8') as file:
            text = file.read()
        text, count = re.subn(r'(const \w+ =) 30000;', rf'\1 {milliseconds};', text)
        changed += count
        with open(path, 'w', encoding='utf-8') as file:
            file.write(text)
    if changed != 1:
        raise RuntimeError(f'{changed} limits of 30 seconds')


@contextlib.contextmanager
def silent_server() -> Iterator[int]:
    """The port of a server that takes requests and answers none."""
    with socket.socket() as server:
        server.bind(('127.0.0.1', 0))
        server.listen(50)
        clients = []

        def take() -> None:
            with contextlib.suppress(OSError):
                while True:
                    clients.append(server.accept()[0])
        threading.Thread(target=take, daemon=True).start()
        yield server.getsockname()[1]
        server.shutdown(socket.SHUT_RDWR)
    for client in clients:
        client.close()


class Texts(PageCases):
    def all(self) -> None:
        self.proxy.start(self.club, [FAST])
        self.page.open()
        self.browser.run('localStorage.clear()')
        self.page.open()
        self.page.join('Avalon', APPLE)
        for name in ('template twice', 'accepted and edited', 'plain signs', 'marks', 'sent elsewhere', 'earlier month',
                     'unknown', 'silent', 'slow report', 'read header', 'outcomes', 'without faction', 'two tabs'):
            self.case(name)
        self.proxy.stop()

    def put(self, text: str) -> None:
        self.browser.put('#orders-text', text)

    def answer_now(self) -> str:
        return one_line(self.browser.shown('#orders-answer'))

    def fetch_first(self) -> None:
        self.page.fetch()
        self.page.tab('orders')

    def template_twice(self) -> None:
        """The player's text comes back after the template was taken twice, and after that was sent."""
        self.fetch_first()
        text = '#ATLANTIS 1\nUNIT 1\nWORK ; mine\n'
        self.put(text)
        self.browser.click('#orders-template')
        self.browser.click('#orders-template')
        self.browser.click('#orders-undo')
        self.checks.same('the text after two templates', text, self.browser.value('#orders-text'))
        self.browser.click('#orders-template')
        self.page.answer('orders')
        self.browser.click('#orders-undo')
        self.checks.same('the text after a template was sent', text, self.browser.value('#orders-text'))

    def accepted_and_edited(self) -> None:
        """What was accepted is said of that text alone."""
        self.says('the answer', r'accepted: 1 order', self.page.send('#ATLANTIS 1\nUNIT 1\nWORK\n'))
        self.browser.type('#orders-text', 'x')
        self.checks.same('the answer after an edit', '', self.answer_now())
        self.says('what was accepted last', r'accepted.*1 order', self.browser.shown('#orders-accepted'))
        self.browser.run('const list = document.querySelector("#orders-earlier-list");'
                         'list.selectedIndex = list.options.length - 1')
        self.browser.click('#orders-undo')
        self.checks.same('the accepted text, brought back', '#ATLANTIS 1\nUNIT 1\nWORK\n',
                         self.browser.value('#orders-text'))
        self.browser.type('#orders-text', 'x')
        self.says('the state', 'not sent', self.browser.shown('#orders-state'))

    def plain_signs(self) -> None:
        """Signs of a word processor can be replaced after the program found them, too."""
        self.says('the answer', '1 fault', self.page.send(QUOTED))
        press = ("const found = [...document.querySelectorAll('#panel-orders button')]"
                 ".find((e) => /^Replace quotes/.test(e.textContent) && e.checkVisibility());"
                 'if (found) found.click(); return Boolean(found)')
        self.checks.true('the page offers to replace the signs', self.browser.run(press))
        self.checks.same('the text', QUOTED.replace('\u201c', '"').replace('\u201d', '"'),
                         self.browser.value('#orders-text'))

    def marks(self) -> None:
        """Marks of faulty lines stay at their lines while the first and the last line change at once."""
        self.page.send(FAULTY)
        longer = FAULTY.replace('; the first', '; once more\n; the first line')
        self.put(longer.replace('; the last', '; the last line'))
        marked = self.browser.run('return [...document.querySelectorAll("#orders-lines .faulty")]'
                                  '.map((e) => Number(e.dataset.line))')
        self.checks.same('the marked lines', [5, 7], marked)
        self.put(FAULTY.replace('GAURD', 'GUARD'))
        self.checks.same('the mark of a line that was not changed', 1, self.browser.count('#orders-lines .faulty'))

    def sent_elsewhere(self) -> None:
        """Outcomes of orders from elsewhere aren't told of the orders that this browser sent."""
        self.says('the answer', '4 orders', self.page.send(HERE_SENT))
        status = curl('-H', f'Atlantis-Pass: {APPLE}', '--data-binary', SENT_ELSEWHERE, f'{self.club.site}/orders/1')[0]
        self.checks.same('status of the orders by curl', 200, status)
        self.club.close(1)
        self.page.fetch()
        read = one_line(self.browser.shown('#report-read'))
        self.checks.true('no order is told that did not count', 'smithing' not in read.split('Region')[0], read)
        self.says('the report', 'elsewhere', read)

    def earlier_month(self) -> None:
        """A month that is closed takes the answer away, and marks a draft that was begun before."""
        self.page.send('#ATLANTIS 1\nUNIT 1\nWORK\n')
        text = '#ATLANTIS 1\nUNIT 1\nWORK ; a draft of an earlier month\n'
        self.put(text)
        self.browser.run('document.querySelector("#orders-answer").replaceChildren("Accepted: 1 order, 0 faults.")')
        self.club.close(2)
        self.page.fetch()
        self.page.tab('orders')
        self.checks.same('the answer', '', self.answer_now())
        self.checks.same('the draft', text, self.browser.value('#orders-text'))
        self.says('the page', 'month 3', self.browser.shown('#orders-title'))
        self.says('the page', 'month was closed after this draft', one_line(self.browser.shown('#panel-orders')))
        self.page.reload()
        self.says('the page', 'month was closed after this draft', one_line(self.browser.shown('#panel-orders')))
        self.browser.click('#orders-old button')
        self.checks.same('the note', '', self.browser.shown('#orders-old'))
        self.browser.fill('#pass', APPLE)

    def unknown(self) -> None:
        """Without an answer it isn't known whether orders were taken. The page asks again by itself."""
        self.club.stop()
        said = self.page.send('#ATLANTIS 1\nUNIT 1\nWORK ; perhaps\n')
        self.one_truth(said)
        self.page.reload()
        self.checks.true('the state is known no better later', 'not sent' not in self.browser.shown('#orders-state'))
        self.browser.fill('#pass', APPLE)
        self.one_truth(self.page.answer('orders'))
        self.club.start()
        until('the page has asked again', lambda: re.match('Accepted: 1 order', self.answer_now()), 20)

    def one_truth(self, said: str) -> None:
        self.says('the answer', 'not known', said)
        state = self.browser.shown('#orders-state')
        self.checks.true('the page does not say that the orders are not sent', 'not sent' not in state, state)

    def silent(self) -> None:
        folder = os.path.join(self.proxy.folder, 'quick')
        quick_page(folder, 1500)
        own, self.proxy.root = self.proxy.root, folder
        with silent_server() as port:
            self.again(FAST, (r'proxy_pass http://[^;]*;', f'proxy_pass http://127.0.0.1:{port};'))
            self.page.open()
            self.browser.fill('#pass', APPLE)
            said = self.page.send('#ATLANTIS 1\nUNIT 1\nWORK ; into silence\n')
            self.says('the answer', 'silent', said)
            self.one_truth(said)
        self.proxy.root = own

    def slow_report(self) -> None:
        """A report that takes longer than the page waits arrives, as long as something of it comes."""
        own, self.proxy.root = self.proxy.root, os.path.join(self.proxy.folder, 'quick')
        slow = f'proxy_pass {self.club.site}; limit_rate_after 500; limit_rate 80;'
        self.again(FAST, (r'proxy_pass http://([^;]*);', slow), (r'gzip on;', 'gzip off;'))
        self.browser.run('localStorage.clear()')
        self.page.open()
        self.page.sign_in(1, APPLE)
        self.says('the report', 'month 2', self.page.fetch())
        self.checks.same('the report', self.club.report(1, APPLE), self.browser.text('#report-text'))
        self.proxy.root = own
        self.again(FAST)
        self.page.open()
        self.browser.fill('#pass', APPLE)

    def read_header(self) -> None:
        """The header is read as the program reads it."""
        self.page.tab('orders')
        for header in ('#atlant\u0131s 1', '#ATLANTI\u017f 1'):
            self.put(f'{header}\nUNIT 1\nWORK\n')
            self.says(header, 'no line begins with #ATLANTIS', self.browser.shown('#orders-notes'))
            self.says(f'the answer to {header}', 'NoHeader', self.page.answer('orders'))
        self.put('#ATLANTIS 10000\nUNIT 1\nWORK\n')
        self.says('#ATLANTIS 10000', 'from 1 to 9,999', self.browser.shown('#orders-notes'))
        self.says('the answer to #ATLANTIS 10000', 'BadHeader', self.page.answer('orders'))

    def outcomes(self) -> None:
        """What failed, and what brought less than was asked, looks so; who starved is first."""
        mailing = {'text': READ_MAILING, 'at': 1, 'orders': 6, 'faults': [], 'after': 0, 'month': 1}
        report = READ_REPORT.replace('Unit 1, line 6', 'Unit 2, line 4, NAME: done 0.\nUnit 1, line 6')
        self.browser.run('localStorage.clear(); localStorage["atlantis.faction"] = "1";'
                         'localStorage["atlantis.1.report.1"] = arguments[0];'
                         'localStorage["atlantis.1.mailings"] = JSON.stringify([arguments[1]])', report, mailing)
        self.page.open()
        self.page.tab('report')
        self.page.shot('16-outcomes')
        rows = self.browser.run(TONES)
        tones = {line: tone for line, (tone, _) in rows.items() if line in '6789'}
        self.checks.same('how the rows look', {'6': 'failed', '7': 'less', '8': 'done', '9': 'done'}, tones)
        self.says('the purchase', r'2 of 5', rows['7'][1])
        colours = {line: self.browser.run('return getComputedStyle(document.querySelector(arguments[0])).color',
                                          f'#report-read tr[data-line="{line}"] .outcome') for line in '678'}
        self.checks.same('colours', 3, len(set(colours.values())))
        first, second = (one_line(text) for text in self.browser.run(
            'return [...document.querySelectorAll("#report-read section > *")].slice(1, 3).map((e) => e.innerText)'))
        self.says('what comes first', '7 starved', first)
        self.says('what comes second', 'Unit 2.* is gone', second)
        self.browser.run('localStorage.clear()')
        self.page.open()

    def without_faction(self) -> None:
        """A text that was typed before a faction number is kept, and goes along to the faction."""
        text = 'Dear moderator\n'
        self.page.tab('orders')
        self.put(text)
        self.page.reload()
        self.checks.same('the text', text, self.browser.value('#orders-text'))
        self.page.sign_in(1, APPLE)
        self.page.tab('orders')
        self.checks.same('the text of the faction', text, self.browser.value('#orders-text'))
        self.page.reload()
        self.checks.same('the kept text of the faction', text, self.browser.value('#orders-text'))

    def two_tabs(self) -> None:
        """A second tab that writes for the same faction is told of, and takes nothing away."""
        mine, theirs = '#ATLANTIS 1\n; mine\n', '#ATLANTIS 1\n; theirs\n'
        first = self.browser.tabs()[0]
        self.put(mine)
        self.browser.open_tab()
        self.page.open()
        self.page.tab('orders')
        self.put(theirs)
        self.browser.close_tab(first)
        until('the first tab is warned', lambda: 'another tab' in self.browser.shown('#panel-orders').lower(), 5)
        self.checks.same('the text of the first tab', mine, self.browser.value('#orders-text'))
        self.page.reload()
        self.checks.same('the kept text', theirs, self.browser.value('#orders-text'))
        self.browser.click('#orders-undo')
        self.checks.same('the text that was brought back', mine, self.browser.value('#orders-text'))
