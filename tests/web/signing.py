"""Cases of signing in, of the focus, and of a page that doesn't load whole."""
import os
import re
import shutil
import time

from club import HERE
from driver import until
from lines import FAST
from page import PageCases, one_line
from texts import APPLE, FAULTY

KEPT_PASS = 'return Object.entries(localStorage).filter(([key]) => key.endsWith(".pass"))'
IN_PANEL = 'return document.activeElement.closest("[role=tabpanel]")?.id ?? document.activeElement.tagName'
HEARD = """return [...document.querySelectorAll("[role=status], [aria-live]")].map((e) => e.textContent).join(" ")"""


class Signing(PageCases):
    def all(self) -> None:
        self.proxy.start(self.club, [FAST])
        self.fresh()
        for name in ('signing in', 'password managers', 'keeping', 'focus', 'map is heard', 'caret', 'missing part',
                     'order of starts'):
            self.case(name)
        self.proxy.stop()

    def fresh(self) -> None:
        self.page.open()
        self.browser.run('localStorage.clear()')
        self.page.open()

    def signed(self) -> str:
        return one_line(self.browser.shown('#sign-in-answer'))

    def signing_in(self) -> None:
        """Enter in the form asks for the report, and says whether the pass text is right."""
        for text, words in (('pear', 'WrongPass'), (APPLE, 'signed in.*Avalon.*month 2')):
            self.browser.fill('#faction', '1')
            self.browser.fill('#pass', text)
            self.browser.press('Enter')
            until('an answer', lambda: self.signed() not in ('', 'Signing in ..'), 10)
            self.says(f'signing in with {text}', words, self.signed())
        self.checks.same('the report', self.club.report(1, APPLE), self.browser.text('#report-text'))
        self.browser.type('#pass', 'x')
        self.checks.same('what is said of another pass text', '', self.signed())

    def password_managers(self) -> None:
        fields = self.browser.run('return ["faction", "pass", "join-pass"].map((id) => document.getElementById(id))'
                                  '.map((e) => [e.autocomplete, e.type, e.form && e.form.id])')
        self.checks.same('the fields', [['username', 'text', 'sign-in'], ['current-password', 'password', 'sign-in'],
                                        ['new-password', 'text', 'join-form']], fields)
        self.checks.true('the form has a button that sends it',
                         self.browser.count('#sign-in button[type=submit]') == 1)

    def keeping(self) -> None:
        """The pass text is kept only as the program takes it, and only if that is asked for."""
        self.fresh()
        self.browser.fill('#pass', APPLE)
        self.browser.click('#remember')
        for digit in '12':
            self.browser.type('#faction', digit)
            time.sleep(1)
        self.browser.press('Tab')
        self.checks.same('kept pass texts of a number that is typed slowly', [], self.browser.run(KEPT_PASS))
        self.page.sign_in(1, 'pear')
        self.page.fetch()
        self.checks.same('kept pass texts after a wrong one', [], self.browser.run(KEPT_PASS))
        self.page.sign_in(1, APPLE)
        self.page.fetch()
        self.checks.same('kept pass texts', [['atlantis.1.pass', APPLE]], self.browser.run(KEPT_PASS))
        self.browser.click('#remember')
        self.checks.same('kept pass texts without the tick', [], self.browser.run(KEPT_PASS))

    def focus(self) -> None:
        """The focus goes along to the part that a button shows."""
        self.fresh()
        self.page.join('Bree', APPLE)
        self.browser.click('#join-answer button')
        self.checks.same('where the focus is', 'panel-report', self.browser.run(IN_PANEL))
        self.checks.same('the part that is shown', 'true',
                         self.browser.run('return document.querySelector("#tab-report").ariaSelected'))

    def map_is_heard(self) -> None:
        """A region that is chosen on the map is told to a screen reader, and so are those next to it by key."""
        self.page.fetch()
        self.page.tab('map')
        for act in (lambda: self.browser.click('#map .region:not(.unseen)'), lambda: self.browser.press('Right')):
            act()
            label = self.browser.run('return document.querySelector("#map [aria-pressed=true]").ariaLabel')
            heard = self.browser.run(HEARD)
            self.checks.true('the chosen region is heard', label in heard, label, heard)

    def caret(self) -> None:
        """The caret is below the first unit of the template, where its orders go."""
        self.page.tab('orders')
        self.browser.click('#orders-template')
        before = self.browser.run('const e = document.querySelector("#orders-text");'
                                  'return [document.activeElement === e, e.value.slice(0, e.selectionStart)]')
        self.checks.true('the text has the focus', before[0])
        last = before[1].splitlines()[-1:] or ['']
        self.checks.true('the caret is below the first unit', last[0].startswith('UNIT ')
                         and before[1].count('UNIT ') == 1 and before[1].endswith('\n'), before[1])

    def order_of_starts(self) -> None:
        """The parts of the page may start in any order."""
        folder = os.path.join(self.proxy.folder, 'reversed')
        shutil.copytree(os.path.join(HERE, 'web'), folder)
        path = os.path.join(folder, 'main.js')
        with open(path, encoding='utf-8') as file:
            text = file.read()
        starts = re.findall(r'^start(?!Tabs)\w+\(.*\);$', text, re.M)
        self.checks.true('main.js starts the parts', len(starts) > 4, starts)
        in_turn = iter(reversed(starts))
        text = re.sub(r'^start(?!Tabs)\w+\(.*\);$', lambda _: next(in_turn), text, flags=re.M)
        with open(path, 'w', encoding='utf-8') as file:
            file.write(text)
        self.page.sign_in(1, APPLE)
        self.page.fetch()
        self.browser.put('#orders-text', FAULTY)
        read = self.browser.shown('#report-read')
        own, self.proxy.root = self.proxy.root, folder
        self.again(FAST)
        self.page.open()
        self.checks.same('the draft', FAULTY, self.browser.value('#orders-text'))
        self.page.tab('report')
        self.checks.same('the report', read, self.browser.shown('#report-read'))
        self.proxy.root = own
        self.again(FAST)
        self.page.open()

    def missing_part(self) -> None:
        """A page of which a script is missing says so."""
        folder = os.path.join(self.proxy.folder, 'missing')
        shutil.copytree(os.path.join(HERE, 'web'), folder)
        os.remove(os.path.join(folder, 'words.js'))
        own, self.proxy.root = self.proxy.root, folder
        self.again(FAST)
        self.browser.open(self.proxy.site + '/')
        until('the page says that it has not started',
              lambda: 'not started' in self.browser.run('return document.querySelector("main").innerText'), 10)
        self.proxy.root = own
        self.again(FAST)
        self.page.open()
        self.checks.same('what a page that starts says of it', 0, self.browser.count('#not-started'))
