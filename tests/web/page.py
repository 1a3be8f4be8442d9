"""Cases of the page of web/ in a browser: what a player does on it, and what it must then show."""
import functools
import http.server
import os
import re
import threading
import time

from club import HERE, curl
from driver import until
from lines import CLOSED, FAST

APPLE, PONY = 'apple-Zq7', 'pony-Zq8'
FAULTY = '''Dear moderator, here are my orders.

#ATLANTIS 1
UNIT 1
GAURD 1
TAX
STUDY swimming
RECRUIT many ; a number
NAME UNIT "Caf\u00e9"
#END
'''
FAULTS = {5: 'UnknownOrder', 7: 'UnknownThing', 8: 'BadNumber', 9: 'BadByte'}
MENDED = '''#ATLANTIS 1
UNIT 1
NAME UNIT "Guards of Avalon"
GUARD 1
TAX
WORK
#END
'''
HOSTILE = ['<b>x</b>', '<img src=x onerror=alert(1)>', "Tom & 'Jerry' &lt;i&gt;",
           '</textarea><script>alert(2)</script>']
SIGNS = '<i>&"\'</i>'
# Types letters all over the text.
LETTERS_TYPED = 11
TYPED = """const box = document.querySelector('#orders-text');
for (let i = 0; i < arguments[0]; i += 1) {
  box.setRangeText('x', i * 1000, i * 1000, 'end');
  box.dispatchEvent(new InputEvent('input', {bubbles: true, inputType: 'insertText'}));
}"""
# Milliseconds of the processor.
MOST_OF_A_KEY = 20
KEPT = 'return JSON.stringify([Object.entries(localStorage), Object.entries(sessionStorage), document.cookie])'
CONTRAST = r'''
const rgb = (text) => (text.match(/[\d.]+/g) || []).map(Number);
const light = (c) => {
  const [r, g, b] = c.map((v) => v / 255).map((v) => v <= 0.04045 ? v / 12.92 : ((v + 0.055) / 1.055) ** 2.4);
  return 0.2126 * r + 0.7152 * g + 0.0722 * b;
};
const ground = (e) => {
  for (; e; e = e.parentElement) {
    const c = rgb(getComputedStyle(e).backgroundColor);
    if (c.length === 3 || c[3] === 1) return c.slice(0, 3);
  }
  return matchMedia('(prefers-color-scheme: dark)').matches ? [18, 18, 18] : [255, 255, 255];
};
const low = [];
const walker = document.createTreeWalker(document.body, NodeFilter.SHOW_TEXT);
while (walker.nextNode()) {
  const e = walker.currentNode.parentElement;
  if (!walker.currentNode.data.trim() || !e.checkVisibility() || e.closest('svg, :disabled, option')) continue;
  const a = light(rgb(getComputedStyle(e).color).slice(0, 3));
  const b = light(ground(e));
  const ratio = (Math.max(a, b) + 0.05) / (Math.min(a, b) + 0.05);
  if (ratio < 4.5) low.push(`${ratio.toFixed(1)}: ${walker.currentNode.data.trim().slice(0, 40)}`);
}
return low;
'''
OWN_UNIT = re.compile(r'^\* Unit (\d+) "([^"]*)": (\d+) men, (\d+) money', re.M)
REGION = re.compile(r'^Region (\d+) "([^"]*)", (.+): (\d+) peasants, (\d+) money\.\nExits: (.*)\.$', re.M)
MARKET = re.compile(r'^Market (.+): (\d+) in stock at (\d+), (\d+) wanted at (\d+)\.$', re.M)
EVENT = re.compile(r'^Unit (\d+), line (\d+), ([A-Z]+): (?:done (\d+)|fault (\d+) (\w+))\.$', re.M)


def one_line(text):
    return ' '.join(text.split())


def text_in(folder):
    """The text of the file that a download leaves in the folder, empty as long as the browser hasn't written it."""
    for name in os.listdir(folder):
        if name.endswith('.txt'):
            with open(os.path.join(folder, name), newline='') as file:
                return file.read()
    return ''


class Page:
    """The page in a browser, with what a player does there."""

    def __init__(self, browser, proxy, shots):
        self.browser, self.proxy, self.shots = browser, proxy, shots

    def open(self):
        self.browser.open(self.proxy.site + '/')
        until('the page is ready', lambda: self.browser.run(
            'return document.readyState === "complete" && !!document.querySelector("[role=tab][aria-selected=true]")'))

    def reload(self):
        self.browser.reload()
        until('the page is ready', lambda: self.browser.run('return document.readyState === "complete"'))

    def tab(self, name):
        self.browser.click(f'#tab-{name}')

    def shot(self, name):
        if self.shots:
            self.browser.shot(os.path.join(self.shots, name + '.png'))

    def answer(self, part, press=None):
        """Presses the part's button, and returns the words that are shown then."""
        css = f'#{part}-answer'
        control = {'join': '#join-send', 'orders': '#orders-send', 'report': '#report-fetch'}[part]
        self.browser.run('document.querySelector(arguments[0]).textContent = ""', css)
        (press or self.browser.click)(control)
        until(f'an answer in {css}', lambda: self.browser.shown(css).strip() and not self.browser.run(
            'return document.querySelector(arguments[0]).getAttribute("aria-busy")', control))
        return one_line(self.browser.shown(css))

    def sign_in(self, faction, text):
        self.browser.fill('#faction', str(faction))
        self.browser.fill('#pass', text)

    def join(self, name, text):
        self.tab('join')
        self.browser.fill('#join-name', name)
        self.browser.fill('#join-pass', text)
        return self.answer('join')

    def send(self, text):
        self.tab('orders')
        self.browser.put('#orders-text', text)
        return self.answer('orders')

    def fetch(self):
        self.tab('report')
        return self.answer('report')

    def kept(self):
        return self.browser.run(KEPT)


class PageCases:
    """Cases of one campaign, which are played on the page one after another."""

    def __init__(self, checks, page, club):
        self.checks, self.page, self.club = checks, page, club
        self.browser, self.proxy = page.browser, page.proxy

    def case(self, name):
        self.checks.run(f'page, {name}', self.watched, getattr(self, name.replace(' ', '_')))

    def watched(self, act):
        try:
            act()
        finally:
            errors = self.browser.errors()
            self.checks.true('the console has no errors', not errors, *errors)

    def says(self, what, words, text):
        self.checks.true(f'{what} says {words!r}', re.search(words, text, re.I), text)

    def again(self, *changes):
        """Starts nginx again with some lines changed."""
        self.proxy.stop()
        self.proxy.start(self.club, list(changes))


class Cases(PageCases):
    def __init__(self, checks, page, club, hostile):
        super().__init__(checks, page, club)
        self.hostile = hostile

    def all(self):
        self.proxy.start(self.club, [FAST])
        self.page.open()
        for name in ('joining', 'keeping', 'taken', 'faults', 'mending', 'drafts', 'closing', 'reading', 'events',
                     'saving', 'map', 'template', 'refusals', 'lengths', 'keyboard', 'remembering', 'down', 'closed',
                     'limit', 'other site', 'new unit', 'phone', 'schemes'):
            self.case(name)
        self.proxy.stop()
        self.proxy.start(self.hostile, [FAST])
        self.case('another campaign')
        self.case('hostile names')
        self.case('gone')
        self.proxy.stop()

    def joining(self):
        self.page.shot('1-join')
        answer = self.page.join('Avalon', APPLE)
        self.says('the answer', r'faction 1\b.*unit 1\b', answer)
        self.checks.same('the faction', '1', self.browser.value('#faction'))
        self.checks.same('the pass text', APPLE, self.browser.value('#pass'))
        self.page.shot('2-joined')
        self.checks.true('the faction is there', 'faction 1 "Avalon"' in self.club.report(1, APPLE))

    def keeping(self):
        self.checks.true('the pass text is not kept', APPLE not in self.page.kept(), self.page.kept())
        self.page.reload()
        self.checks.same('the faction', '1', self.browser.value('#faction'))
        self.checks.same('the pass text', '', self.browser.value('#pass'))
        self.checks.same('the pass text for a joining', '', self.browser.value('#join-pass'))
        self.browser.fill('#pass', APPLE)

    def taken(self):
        self.says('the answer', 'NameTaken.*already', self.page.join('Avalon', PONY))
        self.says('the answer to a bad name', 'BadName.*no "', self.page.join('A"b', PONY))
        self.says('the answer to a bad pass text', 'BadPassText.*space', self.page.join('Bree', 'two words'))
        self.checks.same('status of a second faction', 404,
                         curl('-H', f'Atlantis-Pass: {PONY}', f'{self.club.site}/report/2')[0])
        self.page.sign_in(1, APPLE)

    def faults(self):
        answer = self.page.send(FAULTY)
        self.says('the answer', r'\b1 order\b.*\b4 (faulty|faults|lines)', answer)
        lines = self.browser.run('return [...document.querySelectorAll("#orders-faults li[data-line]")]'
                                 '.map((e) => [Number(e.dataset.line), e.textContent])')
        self.checks.same('the faulty lines', list(FAULTS), [line for line, _ in lines])
        for line, words in lines:
            self.says(f'line {line}', rf'\b{line}\b.*{FAULTS.get(line)}\W.*\w+ \w+ \w+', words)
        marked = self.browser.run('return [...document.querySelectorAll("#orders-lines [data-line].faulty")]'
                                  '.map((e) => Number(e.dataset.line))')
        self.checks.same('the marked lines', list(FAULTS), marked)
        self.page.shot('3-faults')

    def mending(self):
        answer = self.page.send(MENDED)
        self.says('the answer', r'\b4 orders\b', answer)
        self.checks.same('the faulty lines', 0, self.browser.count('#orders-faults li'))
        self.checks.same('the marked lines', 0, self.browser.count('#orders-lines .faulty'))
        self.says('what is accepted', r'\b4 orders\b', one_line(self.browser.shown('#orders-accepted')))
        self.page.shot('4-accepted')

    def drafts(self):
        text = MENDED.replace('WORK', 'WORK ; a draft')
        self.browser.put('#orders-text', text)
        self.page.reload()
        self.checks.same('the draft', text, self.browser.value('#orders-text'))
        self.says('what is accepted', r'\b4 orders\b', one_line(self.browser.text('#orders-accepted')))
        self.browser.fill('#faction', '2')
        until('another faction has no draft', lambda: 'a draft' not in self.browser.value('#orders-text'))
        self.page.sign_in(1, APPLE)
        until('the draft is back', lambda: self.browser.value('#orders-text') == text)
        self.browser.put('#orders-text', MENDED)

    def closing(self):
        self.says('the first report', r'month 0\b', self.page.fetch())
        self.checks.same('the report', self.club.report(1, APPLE), self.browser.text('#report-text'))
        self.club.close(1)
        self.says('the second report', r'month 1\b', self.page.fetch())

    def reading(self):
        text = self.club.report(1, APPLE)
        self.checks.same('the report', text, self.browser.text('#report-text'))
        self.page.tab('units')
        for number, name, men, money in OWN_UNIT.findall(text):
            self.read_as(f'unit {number}', 400, number, name, men, money, part='#units')
        self.page.tab('report')
        for number, name, terrain, peasants, money, exits in REGION.findall(text):
            self.read_as(f'region {number}', 1000, number, name, terrain, peasants, money, *exits.split(', '))
        for market in MARKET.findall(text):
            self.read_as(f'the market for {market[0]}', 400, *market)
        self.checks.same('the kept months', ['0', '1'], self.months())
        self.browser.run('const list = document.querySelector("#report-month"); list.value = "0";'
                         'list.dispatchEvent(new Event("change", {bubbles: true}))')
        until('the older report is shown', lambda: self.browser.text('#report-text').startswith(
            'Atlantis report, month 0, '))
        self.page.fetch()
        self.checks.same('the report once more', text, self.browser.text('#report-text'))
        self.page.shot('5-report')

    def read_as(self, what, most, *parts, part='#report-read'):
        """Some element of the report, of at most so many letters, has all these words and numbers."""
        texts = self.browser.run('return [...document.querySelectorAll(arguments[0])].map((e) => e.innerText)',
                                 f'{part} *')
        forms = [re.compile(rf'(?<![\w,]){words_of(part)}(?![\w,]*\d)') for part in parts]
        near = [text for text in texts if len(text) <= most and all(form.search(one_line(text)) for form in forms)]
        self.checks.true(f'the report shows {what}', near, parts, *[one_line(text) for text in texts[:1]])

    def months(self):
        return self.browser.run('return [...document.querySelector("#report-month").options]'
                                '.map((o) => o.value).sort()')

    def events(self):
        """The events of the month are shown next to the orders that were accepted."""
        wanted = [(line, fault) for _, line, _, _, _, fault in EVENT.findall(self.club.report(1, APPLE)) if fault]
        self.checks.same('what the report has', [('5', 'NotGuarding')], wanted)
        read = one_line(self.browser.shown('#report-read'))
        self.says('the order and its event', r'TAX\b.*NotGuarding.*\w+ \w+ \w+', read)
        self.says('the order and its event', r'NAME UNIT "Guards of Avalon"', read)

    def saving(self):
        folder = os.path.join(self.proxy.folder, 'saved')
        os.mkdir(folder)
        self.browser.devtools('Browser.setDownloadBehavior', behavior='allow', downloadPath=folder)
        self.browser.click('#report-save')
        self.checks.same('the file', self.club.report(1, APPLE), until('a text is saved', lambda: text_in(folder)))

    def map(self):
        self.page.tab('map')
        number, name, terrain, _, _, exits = REGION.search(self.club.report(1, APPLE)).groups()
        wanted = sorted({int(number)} | {int(way.split()[1]) for way in exits.split(', ') if exits != 'none'})
        shown = self.browser.run('return [...document.querySelectorAll("#map [data-region]")]'
                                 '.map((e) => Number(e.dataset.region))')
        self.checks.same('the regions', wanted, sorted(shown))
        places = {place: self.browser.run(
            'const r = document.querySelector(`#map [data-region="${arguments[0]}"]`).getBoundingClientRect();'
            'return [r.x + r.width / 2, r.y + r.height / 2]', place) for place in wanted}
        for way in exits.split(', '):
            if exits == 'none':
                break
            side, other = way.split()
            x, y = (b - a for a, b in zip(places[int(number)], places[int(other)]))
            right = {'north': y < 0 and abs(x) < abs(y), 'south': y > 0 and abs(x) < abs(y),
                     'east': x > 0 and abs(y) < abs(x), 'west': x < 0 and abs(y) < abs(x)}
            self.checks.true(f'region {other} is {side} of region {number}', right[side], x, y)
        self.says('the map', re.escape(name), self.browser.text('#map'))
        self.browser.click(f'#map [data-region="{number}"]')
        self.says('the panel of the map', re.escape(name), until(
            'the region is shown', lambda: one_line(self.browser.shown('#panel-map'))))
        self.page.shot('6-map')

    def template(self):
        self.page.tab('orders')
        self.browser.click('#orders-template')
        text = until('the template is there', lambda: self.browser.value('#orders-text'))
        self.says('its header', r'^#ATLANTIS 1$', text.splitlines()[0])
        for number, *_ in OWN_UNIT.findall(self.club.report(1, APPLE)):
            self.checks.true(f'it has unit {number}', re.search(rf'^UNIT {number}\b', text, re.M), text)
        self.page.shot('7-template')
        answer = self.page.answer('orders')
        self.says('the answer', r'\b0 orders\b|\bno orders\b', answer)
        self.checks.same('the faulty lines', 0, self.browser.count('#orders-faults li'))

    def refusals(self):
        self.page.sign_in(1, 'pear')
        self.says('the report', 'WrongPass.*pass text', self.page.fetch())
        self.says('the orders', 'WrongPass.*pass text', self.page.send(MENDED))
        self.checks.same('the text', MENDED, self.browser.value('#orders-text'))
        self.page.shot('8-refused')
        self.page.sign_in(77, APPLE)
        self.says('the report', 'NoFaction.*number', self.page.fetch())
        self.says('the orders', 'NoFaction.*number', self.page.send('#ATLANTIS 77\n'))
        self.page.sign_in(1, APPLE)
        self.says('the orders', 'WrongFaction.*#ATLANTIS', self.page.send('#ATLANTIS 2\n'))
        self.says('the orders', 'NoHeader.*#ATLANTIS', self.page.send('WORK\n'))
        self.page.send(MENDED)

    def lengths(self):
        text = '#ATLANTIS 1\n;'.ljust(65536, 'x')
        self.says('the longest text', r'\b0 orders\b|\bno orders\b', self.page.send(text))
        for length in (65537, 70000):
            self.says(f'{length} bytes', r'65,536', self.page.send(text.ljust(length, 'x')))
        self.says('signs of two bytes', r'65,536', self.page.send(text[:-1] + '\u00e9'))
        self.says('many lines', r'\b10,?000 orders\b', self.page.send('#ATLANTIS 1\nUNIT 1\n' + 'WORK\n' * 10000))
        spent = self.browser.script_time(TYPED, LETTERS_TYPED) / LETTERS_TYPED
        self.checks.true('a key in many lines is handled at once', spent < MOST_OF_A_KEY, spent)
        begun = time.monotonic()
        self.browser.type('#orders-text', 'work')
        self.checks.true('typing in many lines ends', time.monotonic() - begun < 60, time.monotonic() - begun)
        self.page.send(MENDED)

    def keyboard(self):
        self.page.open()
        self.page.sign_in(1, APPLE)
        self.page.tab('orders')
        self.browser.put('#orders-text', MENDED)
        self.browser.run('document.activeElement.blur(); document.querySelector("#faction").focus()')
        reached = [self.browser.focused()]
        while reached[-1] != 'orders-send' and len(reached) < 40:
            self.browser.press('Tab')
            reached.append(self.browser.focused())
        order = [name for name in reached if name in ('faction', 'pass', 'remember', 'tab-orders', 'orders-template',
                                                      'orders-text', 'orders-send')]
        self.checks.same('the order of the fields', ['faction', 'pass', 'remember', 'tab-orders', 'orders-template',
                                                     'orders-text', 'orders-send'], order)
        outline = self.browser.run('const s = getComputedStyle(document.activeElement);'
                                   'return s.outlineStyle !== "none" || s.boxShadow !== "none"')
        self.checks.true('the focus is seen', outline)
        for key in ('Enter', 'Space'):
            answer = self.page.answer('orders', lambda _: self.browser.press(key))
            self.says(f'the answer to {key}', r'\b4 orders\b', answer)

    def remembering(self):
        self.page.open()
        self.browser.fill('#pass', APPLE)
        self.browser.click('#remember')
        self.page.fetch()
        self.checks.true('the pass text is kept', APPLE in self.page.kept())
        self.page.reload()
        self.checks.same('the pass text', APPLE, self.browser.value('#pass'))
        self.browser.click('#remember')
        self.checks.true('the pass text is forgotten', APPLE not in self.page.kept(), self.page.kept())
        self.page.reload()
        self.checks.same('the pass text', '', self.browser.value('#pass'))
        self.page.sign_in(1, APPLE)

    def down(self):
        text = MENDED.replace('WORK', 'WORK ; while it is down')
        self.club.stop()
        self.says('the orders', r'502.*\w+ \w+ \w+', self.page.send(text))
        self.page.shot('9-down')
        self.says('the report', r'502.*\w+ \w+ \w+', self.page.fetch())
        self.page.reload()
        self.page.tab('orders')
        self.checks.same('the draft', text, self.browser.value('#orders-text'))
        self.proxy.stop()
        self.page.sign_in(1, APPLE)
        self.says('the orders without nginx', r'\w+ \w+ \w+', self.page.send(text))
        self.checks.same('the draft', text, self.browser.value('#orders-text'))
        self.club.start()
        self.again(FAST)
        self.says('the orders afterwards', r'\b4 orders\b', self.page.send(text))

    def closed(self):
        self.again(FAST, CLOSED)
        self.says('the answer', r'clos', self.page.join('Late', PONY))
        self.page.shot('10-closed')
        self.says('the report', r'month 1\b', self.page.fetch())
        self.again(FAST)

    def limit(self):
        self.again(FAST, (r'client_max_body_size 64k;', 'client_max_body_size 1k;'))
        self.says('the orders', r'413.*65,536', self.page.send('#ATLANTIS 1\n;'.ljust(1025, 'x')))
        self.again((r'rate=12r/m;', 'rate=1r/m;'), (r'burst=20 ', 'burst=1 '))
        self.page.fetch()
        self.page.fetch()
        self.says('the third report', r'429.*\w+ \w+ \w+', self.page.fetch())
        self.says('the orders', r'429.*\w+ \w+ \w+', self.page.send(MENDED))
        self.says('joining', r'429.*\w+ \w+ \w+', self.page.join('Bree', PONY))
        self.again(FAST)

    def other_site(self):
        """A page of another site makes the browser ask, and shows the page in a frame."""
        folder = os.path.join(self.proxy.folder, 'other')
        os.mkdir(folder)
        with open(os.path.join(folder, 'index.html'), 'w') as file:
            file.write(f'<!doctype html><iframe src="{self.proxy.site}/"></iframe>')
        handler = functools.partial(Quiet, directory=folder)
        server = http.server.ThreadingHTTPServer(('127.0.0.1', 0), handler)
        threading.Thread(target=server.serve_forever, daemon=True).start()
        try:
            self.browser.open(f'http://127.0.0.1:{server.server_port}/')
            log = os.path.join(self.proxy.folder, 'access.log')
            with open(log) as file:
                before = len(file.readlines())
            self.browser.run('''
                const ask = (path, how) => fetch(arguments[0] + path, how).catch(() => 0);
                ask("/join", {method: "POST", mode: "no-cors", body: arguments[1]});
                ask("/orders/1", {method: "POST", mode: "no-cors", body: "#ATLANTIS 1"});
                ask("/report/1", {headers: {"Atlantis-Pass": arguments[2]}});
                ''', self.proxy.site, '{"name":"Evil","pass":"evil"}', APPLE)

            def asked():
                with open(log) as file:
                    return [line.split('"')[1:3] for line in file.readlines()[before:]]
            until('three requests came', lambda: len(asked()) >= 3)
            for request, status in asked():
                self.checks.same(f'status of {request}', '403', status.split()[0])
            self.checks.same('status of a faction that the other site might have founded', 404,
                             curl('-H', 'Atlantis-Pass: evil', f'{self.club.site}/report/2')[0])
            frame = self.browser.run('try { return document.querySelector("iframe").contentDocument !== null }'
                                     'catch { return false }')
            self.checks.true('the frame is empty', not frame)
        finally:
            server.shutdown()
            server.server_close()
            self.browser.errors()
            self.page.open()
            self.page.sign_in(1, APPLE)

    def new_unit(self):
        """A block of FORM: its orders and what came of them, and the unit in the next template."""
        with open(os.path.join(HERE, 'worlds', 'coast.toml')) as file:
            price = re.search(r'^recruit_price = (\d+)', file.read(), re.M)[1]
        mailing = (f'#ATLANTIS 1\nUNIT 1\nFORM 5\n  NAME UNIT "New people"\n  RECRUIT 1\nEND\nPAY NEW 5 {price}\n'
                   'MOVE north\nWORK\n#END\n')
        self.says('the orders', r'\b6 orders\b', self.page.send(mailing))
        self.club.close(2)
        self.says('the report', r'month 2\b', self.page.fetch())
        text = self.club.report(1, APPLE)
        self.checks.same('the units', ['1', '2'], [unit[0] for unit in OWN_UNIT.findall(text)])
        rows = self.browser.run('return [...document.querySelectorAll("#report-read tr")].map((e) => e.innerText)')
        for line, words in ((3, r'FORM 5.*unit 2\b'), (4, 'New people"'), (5, r'RECRUIT 1.*\b1\b'),
                            (7, rf'PAY NEW 5.*{price}\b'), (8, 'MOVE north.*later order'), (9, r'WORK.*\d')):
            row = [one_line(row) for row in rows if re.match(rf'{line}\b', row.strip())]
            self.says(f'line {line}', words, ' '.join(row))
        self.page.shot('10-new-unit')
        self.page.tab('orders')
        self.browser.click('#orders-template')
        template = self.browser.value('#orders-text')
        self.checks.same('the units of the template', ['1', '2'], re.findall(r'^UNIT (\d+)', template, re.M))

    def each_tab(self, act):
        for name in ('join', 'units', 'orders', 'report', 'map'):
            self.page.tab(name)
            act(name)

    def phone(self):
        self.browser.size(360, 740, mobile=True)
        self.page.open()
        self.page.sign_in(1, APPLE)
        self.page.fetch()
        self.page.send(FAULTY)

        def narrow(name):
            self.browser.run('document.querySelectorAll("details").forEach((e) => { e.open = true })')
            width, inner = self.browser.run('return [document.scrollingElement.scrollWidth, innerWidth]')
            self.checks.same(f'width of the page at {name}', (360, True), (inner, width <= inner))
            self.page.shot(f'11-phone-{name}')
        self.each_tab(narrow)
        self.browser.size(1100, 900)
        self.page.open()

    def schemes(self):
        grounds = {}
        for scheme in ('light', 'dark'):
            self.browser.scheme(scheme)
            self.page.open()
            self.page.sign_in(1, APPLE)
            self.page.fetch()
            self.page.send(FAULTY)

            def readable(name):
                low = self.browser.run(CONTRAST)
                self.checks.true(f'text is readable at {name} in {scheme}', not low, *low)
                self.page.shot(f'12-{scheme}-{name}')
            self.each_tab(readable)
            grounds[scheme] = self.browser.run(
                'return [document.documentElement, document.body].map((e) => getComputedStyle(e).backgroundColor)')
        self.checks.true('dark and light differ', grounds['light'] != grounds['dark'], grounds)
        self.browser.scheme('light')

    def another_campaign(self):
        """The browser keeps months of another campaign under the number of the faction that joins."""
        self.checks.same('the kept months', ['0', '1', '2'], self.months())
        self.says('joining', r'faction 1\b', self.page.join(HOSTILE[0], SIGNS))
        self.says('the answer', 'another\\s+campaign', self.page.fetch())
        self.checks.same('the report', self.hostile.report(1, SIGNS), self.browser.text('#report-text'))
        self.browser.run('[...document.querySelectorAll("#report-answer button")].pop().click()')
        self.checks.same('the kept months then', ['0'], self.months())
        self.checks.true('the draft of the other campaign is gone', 'Avalon' not in self.browser.value('#orders-text'))
        self.browser.run('localStorage.clear()')
        self.page.open()

    def hostile_names(self):
        """Names and texts with signs of HTML are shown as they are written, and nothing of them runs."""
        self.browser.run('window.ran = []; window.alert = (text) => window.ran.push(text)')
        for name in HOSTILE[1:]:
            self.says(f'joining as {name}', r'faction \d+\b', self.page.join(name, SIGNS))
        self.says('joining again', 'NameTaken', self.page.join(HOSTILE[0], '<i>'))
        mailing = '#ATLANTIS 1\nUNIT 1\n' + ''.join(f'NAME UNIT "{name}"\n' for name in HOSTILE) + \
            '<img src=x onerror=alert(3)>\n<b>x</b> &amp; "\nTAX\n'
        self.page.sign_in(1, SIGNS)
        self.says('the orders', r'\b5 orders\b', self.page.send(mailing))
        self.harmless('the orders')
        self.page.shot('13-hostile-orders')
        self.hostile.close(1)
        self.page.fetch()
        text = self.hostile.report(1, SIGNS)
        self.checks.same('the report', text, self.browser.text('#report-text'))
        read = self.browser.text('#report-read')
        for name in [match[1] for match in REGION.findall(text)]:
            self.checks.true(f'the report shows {name}', name in read, read)
        self.checks.true('the name of the faction is shown', HOSTILE[0] in read, read)
        self.harmless('the report')
        self.page.shot('14-hostile-report')
        self.page.tab('units')
        for name in [match[1] for match in OWN_UNIT.findall(text)]:
            self.checks.true(f'the table shows {name}', name in self.browser.text('#units'))
        self.harmless('the table of units')
        self.page.tab('map')
        self.browser.click('#map [data-region]')
        self.checks.true('the map shows the region', REGION.search(text)[2] in self.browser.text('#panel-map'))
        self.harmless('the map')
        self.page.shot('15-hostile-map')
        self.page.tab('orders')
        self.browser.click('#orders-template')
        self.harmless('the template')
        self.browser.put('#orders-text', mailing)
        self.page.reload()
        self.checks.same('the draft', mailing, self.browser.value('#orders-text'))
        self.harmless('the draft')

    def gone(self):
        """A faction that leaves the game."""
        self.page.sign_in(2, SIGNS)
        self.says('the orders', r'\b1 order\b', self.page.send('#ATLANTIS 2\nUNIT 2\nQUIT 2\n'))
        self.hostile.close(2)
        self.says('the report', r'month 2\b', self.page.fetch())
        self.checks.same('the report', self.hostile.report(2, SIGNS), self.browser.text('#report-text'))
        self.says('the orders', 'Gone.*no unit', self.page.send('#ATLANTIS 2\nUNIT 2\nWORK\n'))
        self.page.tab('map')
        self.checks.same('regions of the map', 0, self.browser.count('#map [data-region]'))

    def harmless(self, what):
        self.checks.true(f'{what} ran nothing', not self.browser.has_alert() and not self.browser.run(
            'return (window.ran || []).length'))
        self.checks.same(f'elements made by {what}', 0, self.browser.count(
            'img, body script, body i, #report-read b, #units b, #map b, #orders-lines b, #orders-faults b,'
            '#orders-answer b'))


def words_of(part):
    """A form of the words, in which a number may have commas."""
    return rf'({part}|{int(part):,})' if part.isdigit() else re.escape(part)


class Quiet(http.server.SimpleHTTPRequestHandler):
    def log_message(self, *_):
        pass


def hostile_world(folder):
    """worlds/coast.toml with signs of HTML in the names of its regions."""
    with open(os.path.join(HERE, 'worlds', 'coast.toml')) as file:
        text = file.read()
    names = iter(HOSTILE * 10000)
    text = re.sub(r'(\[\[region\]\]\nnumber = (\d+)\nname = )"[^"]*"',
                  lambda found: f'{found[1]}"{next(names)[:34]} {found[2]}"', text)
    path = os.path.join(folder, 'hostile.toml')
    with open(path, 'w') as file:
        file.write(text)
    return path
