"""Cases of the page with the world beside it: names that complete, faults that are foreseen, the table of units, orders
by click, and what changed."""
import json
import os
import re
import shutil

from club import HERE
from driver import until
from lines import FAST
from page import CONTRAST, PageCases, one_line
from page_world import page_world
from texts import APPLE

FIRST = """#ATLANTIS 1
UNIT 1
FORM 1
RECRUIT 4
STUDY smithing
END
FORM 2
RECRUIT 3
GUARD 1
STUDY mining
END
PAY NEW 1 300
PAY NEW 2 200
RECRUIT 8
STUDY lumberjack
TAX
#END
"""
# Lines that the program reads, and faulty ones, of which one depends on the world.
FORESEEN = """#ATLANTIS 1
UNIT 1
STUDY swimming
STUDY SMITHING
GAURD 1
FORM x
TAX
END
SELL 5 "wood"
SELL many wood
WORK
#END
"""
FORESEEN_LINES = [3, 5, 6, 7, 10]
ROWS = """return [...document.querySelectorAll("#units tbody tr")]
  .map((e) => [...e.children].map((cell) => cell.textContent))"""
SORTED_BY = """return [...document.querySelectorAll("#units [aria-sort]")].map((e) => [e.textContent, e.ariaSort])
  .find((e) => e[1] !== "none")"""
MANY = 200
# Milliseconds of the processor.
MOST_MILLISECONDS = {'draw': 100, 'keystroke': 20}


def many_units():
    """A report of 200 units in ten regions, as docs/FORMATS.md, "Reports", says."""
    lines = ['Atlantis report, month 900, faction 1 "Avalon".', 'Orders:']
    numbers = range(1, MANY + 1)
    lines += [f'Unit {unit}, line {unit}, STUDY: ' + ('fault 23 NoFee.' if unit % 40 == 0 else 'done 30.')
              for unit in numbers]
    for region in range(1, 11):
        lines += [f'Region {region} "Fell", mountain: 100 peasants, 50 money.', 'Exits: south 5, east 2.',
                  'Market iron: 5 in stock at 25, 900 wanted at 18.']
        lines += [f'* Unit {unit} "Woodcutters of Far {unit}": {unit} men, {10 * unit} money, guard, {unit} wood, '
                  f'3 iron, lumberjack 1 ({30 * unit}), sailing 2 ({90 * unit}).'
                  for unit in numbers if unit % 10 == region % 10]
    return '\n'.join(lines) + '\n'


class World(PageCases):
    def all(self):
        self.proxy.root = self.with_world()
        self.proxy.start(self.club, [FAST])
        self.fresh()
        for name in ('names', 'undo of a name', 'foreseen', 'upkeep', 'table', 'jump', 'click', 'undo', 'contrast',
                     'map', 'changes', 'closed month', 'many units', 'keystroke'):
            self.case(name)
        self.proxy.stop()
        self.proxy.root = os.path.join(HERE, 'web')
        self.proxy.start(self.club, [FAST])
        self.case('without world')
        self.proxy.stop()

    def with_world(self):
        """A copy of the page with a world.json beside it."""
        root = os.path.join(self.proxy.folder, 'with_world')
        shutil.copytree(os.path.join(HERE, 'web'), root)
        with open(os.path.join(HERE, 'worlds', 'coast.toml'), encoding='utf-8') as file:
            value = page_world('coast', file.read())
        with open(os.path.join(root, 'world.json'), 'w', encoding='utf-8') as file:
            json.dump(value, file)
        return root

    def fresh(self):
        """A faction with three units of its own, after one month."""
        self.page.open()
        self.browser.run('localStorage.clear()')
        self.page.open()
        self.says('joining', r'faction 1\b', self.page.join('Avalon', APPLE))
        self.page.fetch()
        self.page.send(FIRST)
        self.club.close(1)
        self.page.fetch()

    def rows(self):
        return self.browser.run(ROWS)

    def names_shown(self):
        return self.browser.run('return [...document.querySelectorAll("#orders-names [role=option]")]'
                                '.map((e) => e.textContent)')

    # ---- names and faults

    def write(self, text):
        self.page.tab('orders')
        self.browser.put('#orders-text', text)

    def names(self):
        self.write('#ATLANTIS 1\nUNIT 1\n')
        self.browser.type('#orders-text', 'st')
        until('a keyword fits', lambda: self.names_shown() == ['STUDY'])
        self.browser.type('#orders-text', 'udy sh')
        until('a skill fits', lambda: self.names_shown() == ['shipbuilding (fee 20)'])
        self.browser.press('Tab')
        self.checks.same('the focus', 'orders-names', self.browser.focused())
        self.checks.same('the option that is chosen', ['orders-name-0', 'true'], self.browser.run(
            'const list = document.activeElement;'
            'return [list.getAttribute("aria-activedescendant"), list.firstChild.ariaSelected]'))
        self.page.shot('20-names')
        self.browser.press('Enter')
        self.checks.same('the text', '#ATLANTIS 1\nUNIT 1\nstudy shipbuilding', self.browser.value('#orders-text'))
        self.checks.same('the focus', 'orders-text', self.browser.focused())
        self.browser.type('#orders-text', '\nGIVE ')
        until('units fit', lambda: '2 (Unit 2)' in self.names_shown())
        self.browser.click('#orders-names li:nth-child(2)')
        self.checks.same('the text', 'GIVE 2 ', self.browser.value('#orders-text').split('\n')[-1])
        self.browser.type('#orders-text', '5 ca')
        self.browser.press('Tab', 'Escape')
        self.checks.same('the focus', 'orders-text', self.browser.focused())

    def undo_of_a_name(self):
        self.write('#ATLANTIS 1\nUNIT 1\n')
        self.browser.type('#orders-text', 'MOVE no')
        self.browser.press('Tab', 'Enter')
        self.checks.same('the text', 'MOVE NORTH', self.browser.value('#orders-text').split('\n')[-1])
        self.browser.run('document.execCommand("undo")')
        self.checks.same('the text', 'MOVE no', self.browser.value('#orders-text').split('\n')[-1])

    def foreseen(self):
        self.write(FORESEEN)
        self.browser.run('document.activeElement.blur()')
        shown = self.browser.run('return [...document.querySelectorAll("#orders-notes li")].map((e) => e.textContent)')
        self.checks.same('the lines', FORESEEN_LINES, [int(re.search(r'line (\d+)', words)[1]) for words in shown])
        self.says('the first', 'UnknownThing.*STUDY swimming', shown[0])
        self.checks.same('the marks', FORESEEN_LINES, self.browser.run(
            'return [...document.querySelectorAll("#orders-lines .warned")].map((e) => Number(e.dataset.line))'))
        self.says('what the program will read', '3 orders, 5 faults', self.browser.text('#orders-count'))
        self.page.shot('21-foreseen')
        self.says('the answer', '3 orders, 5 faults', self.page.answer('orders'))
        self.checks.same('the faulty lines', FORESEEN_LINES, self.browser.run(
            'return [...document.querySelectorAll("#orders-faults li")].map((e) => Number(e.dataset.line))'))
        self.checks.same('what is still foreseen', '', self.browser.text('#orders-notes'))
        self.browser.type('#orders-text', 'x')
        self.checks.same('the line being typed is left out', '', self.browser.text('#orders-notes'))

    def upkeep(self):
        """16 men owe ten each. Their money is that of the report."""
        text = self.club.report(1, APPLE)
        men, money = (sum(int(found) for found in re.findall(form, text, re.M)) for form in (
            r'^\* Unit .*: (\d+) men', r'^\* Unit .*: \d+ men, (\d+) money'))
        self.page.tab('report')
        self.says('the region', f'Upkeep {10 * men:,}, you have {money:,}', self.browser.text('#report-read'))

    # ---- the table

    def table(self):
        self.page.tab('units')
        rows = self.rows()
        self.checks.same('the units', ['1', '2', '3'], [row[0] for row in rows])
        self.says('the skills of unit 2', 'smithing 1', rows[1][5])
        self.says('what failed', 'TAX: NotGuarding', rows[0][7])
        self.says('what is told first', 'Unit 1: TAX: NotGuarding', self.browser.shown('#units-news'))
        self.browser.click('#units thead th:nth-child(3) button')
        self.checks.same('sorted by men', ['3', '2', '1'], [row[0] for row in self.rows()])
        self.browser.click('#units thead th:nth-child(3) button')
        self.checks.same('the other way', ['1', '2', '3'], [row[0] for row in self.rows()])
        self.checks.same('the column', ['Men', 'descending'], self.browser.run(SORTED_BY))
        self.browser.fill('#units-find', 'MINING')
        self.checks.same('found', ['3'], [row[0] for row in self.rows()])
        self.says('how many', '1 of 3 units', self.browser.text('#units-count'))
        self.browser.fill('#units-find', '')
        self.says('where unit 3 is', 'on guard', rows[2][1])
        self.browser.click('#units thead th:first-child button')
        self.page.shot('22-units')

    def jump(self):
        self.write('#ATLANTIS 1\nUNIT 1\nWORK\n\nUNIT 3\nSTUDY mining\n#END\n')
        self.page.tab('units')
        self.says('the orders of unit 3', 'STUDY mining', self.rows()[2][6])
        self.browser.click('#units tbody tr:nth-child(3) td:nth-child(7) button')
        self.checks.same('the focus', 'orders-text', self.browser.focused())
        self.checks.same('the caret', 'UNIT 3', self.browser.run(
            'const box = document.activeElement; return box.value.slice(box.selectionStart, box.selectionEnd)'))

    # ---- orders by click

    def press(self, words):
        self.browser.run('[...document.querySelectorAll("#click-orders button")]'
                         '.find((e) => e.textContent.startsWith(arguments[0])).click()', words)

    def open_unit(self, number):
        self.page.tab('units')
        self.browser.click(f'#units tbody tr:nth-child({number}) th button')

    def click(self):
        text = '#ATLANTIS 1\nUNIT 1 ; the first\n  STUDY smithing ; 90\n\nUNIT 2\n#END\nBye\n'
        self.write(text)
        self.open_unit(1)
        self.says('the window', r'Unit 1\b.*STUDY smithing', one_line(self.browser.shown('#click')))
        self.page.shot('23-click')
        self.press('MOVE south')
        self.says('the answer', 'line 3: MOVE south', self.browser.shown('#click-answer'))
        self.checks.same('the text', text.replace('STUDY smithing', 'MOVE south'), self.browser.value('#orders-text'))
        self.browser.fill('#click-amount', '3.9')
        self.press('RECRUIT')
        self.checks.same('the text', text.replace('STUDY smithing ; 90\n', 'MOVE south ; 90\n  RECRUIT 3\n'),
                         self.browser.value('#orders-text'))
        self.browser.click('#click-undo')
        self.browser.click('#click-undo')
        self.checks.same('the text', text, self.browser.value('#orders-text'))
        self.checks.true('nothing is left to undo', not self.browser.shown('#click-undo'))
        self.press('TAX')
        self.browser.click('#click-close')
        until('the table has the order', lambda: self.rows()[0][6] == 'STUDY smithing; TAX')
        self.checks.same('the focus is on the unit again', '1', self.browser.run(
            'return document.activeElement.textContent'))

    def undo(self):
        """A click is not undone over what was typed since."""
        self.write('#ATLANTIS 1\nUNIT 1\n')
        self.open_unit(1)
        self.press('WORK')
        self.browser.click('#click-text')
        self.browser.type('#orders-text', ' ; mine')
        self.open_unit(1)
        self.checks.true('undo is gone', not self.browser.shown('#click-undo'))
        self.browser.click('#click-close')
        self.says('the text', '; mine', self.browser.value('#orders-text'))

    def contrast(self):
        for scheme in ('light', 'dark'):
            self.browser.scheme(scheme)
            self.open_unit(1)
            self.checks.same(f'text of low contrast, {scheme}', [], self.browser.run(CONTRAST))
            self.page.shot(f'25-click-{scheme}')
            self.browser.click('#click-close')
        self.browser.scheme('light')

    def map(self):
        """A region next to a unit is chosen, and the unit is sent there."""
        self.write('#ATLANTIS 1\nUNIT 1\n')
        region, exits = re.search(r'^Region (\d+).*\nExits: (.*)\.$', self.club.report(1, APPLE), re.M).groups()
        way, to = exits.split(', ')[0].split()
        self.page.tab('map')
        self.browser.click(f'#map [data-region="{to}"]')
        self.says('the region', f'Unit 1: MOVE {way}', self.browser.text('#map-region'))
        self.browser.click('#map-region button')
        self.says('the text', f'MOVE {way}', self.browser.value('#orders-text'))
        self.browser.click('#click-close')
        self.browser.click(f'#map [data-region="{region}"]')
        self.says('its own region', 'Orders for Unit 1', self.browser.text('#map-region'))

    # ---- what changed

    def changes(self):
        self.page.tab('units')
        self.browser.click('#units-changes summary')
        told = one_line(self.browser.shown('#units-changes'))
        self.says('the faction', r'month 0.*\+15 men \(now 16\)', told)
        self.says('the units', 'Unit 2: is new', told)

    def closed_month(self):
        """A month that is closed is told as the page is seen again, and not more often than once a minute."""
        self.page.tab('units')
        self.page.send(FIRST)
        self.club.close(2)
        seen = 'document.dispatchEvent(new Event("visibilitychange"))'
        self.browser.run(seen)
        self.browser.run(f'const now = Date.now() + 61000; Date.now = () => now; {seen}')
        self.says('what is told', 'month 2 is closed', until('it is told', lambda: re.search(
            'closed', self.browser.shown('#sign-in-answer')) and self.browser.shown('#sign-in-answer')))
        self.checks.true('the month is kept', '2' in self.page.kept())
        self.page.tab('units')
        self.says('what changed', 'since month 1', self.browser.shown('#units-changes'))

    # ---- how fast it is

    def many_units(self):
        self.browser.run('localStorage.setItem("atlantis.1.report.900", arguments[0])', many_units())
        for width, height, mobile in ((390, 844, True), (1280, 900, False)):
            self.browser.size(width, height, mobile)
            self.page.reload()
            self.page.tab('units')
            until('all rows are there', lambda: self.browser.count('#units tbody tr') == MANY)
            took = min(self.browser.script_time('document.dispatchEvent(new CustomEvent("tab"))', layout=True)
                       for _ in range(3))
            self.checks.true(f'{MANY} units are drawn in time at {width} wide', took < MOST_MILLISECONDS['draw'], took)
            print(f'web: {MANY} units are drawn in {took:.0f} ms at {width} wide', flush=True)
            wide, inner = self.browser.run('return [document.scrollingElement.scrollWidth, innerWidth]')
            self.checks.true(f'the page is not wider than {width}', wide <= inner, wide)
            left = self.browser.run('const box = document.querySelector(".table-box"); box.scrollLeft = 300;'
                                    'return document.querySelector("#units tbody th").getBoundingClientRect().left')
            self.checks.true('the first column stays', 0 <= left < width / 2, left)
            self.page.shot(f'24-many-{width}')
        self.says('what is told first', 'Units 40, 80, 120, 160, 200: STUDY: NoFee', self.browser.shown('#units-news'))

    def keystroke(self):
        """A letter is typed into a mailing as long as one may be."""
        unit = 'UNIT {} ; Woodcutters of the far north\nTAX\nSTUDY sailing  ; 10 each\nGIVE NEW 1 5 wood\n'
        text = '#ATLANTIS 1\n' + ''.join(unit.format(number) for number in range(1, 1000))
        self.write(text[:65530] + '\nSTU')
        self.checks.same('the length', 65534, len(self.browser.value('#orders-text')))
        self.browser.run('const box = document.querySelector("#orders-text"); box.focus();'
                         'box.setSelectionRange(65534, 65534)')
        took = sorted(self.browser.script_time('document.execCommand("insertText", false, arguments[0])', letter,
                                               layout=True) for letter in 'DY sm')
        print(f'web: a letter in a long mailing takes {took[0]:.0f} to {took[-1]:.0f} ms', flush=True)
        self.checks.true('a letter is fast', took[0] < MOST_MILLISECONDS['keystroke'], took)
        self.checks.same('names fit', ['smithing (fee 10)'], self.names_shown())

    # ---- without the world

    def without_world(self):
        self.page.open()
        self.write(FORESEEN)
        self.browser.run('document.activeElement.blur()')
        self.checks.same('what is foreseen', '', self.browser.text('#orders-notes'))
        self.checks.same('the marks', 0, self.browser.count('#orders-lines .warned'))
        self.write('#ATLANTIS 1\nUNIT 1\n')
        self.browser.type('#orders-text', 'STUDY s')
        self.checks.same('the names', [], self.names_shown())
        self.page.tab('units')
        self.checks.true('no upkeep is told', 'pkeep' not in self.browser.text('#panel-units'))
        self.browser.errors()
