"""Cases of the file that has all that the browser keeps of a faction, out and in again."""
import json
import os

from driver import until
from lines import FAST
from page import PageCases, one_line
from texts import APPLE

KEPT = """return Object.fromEntries(Object.entries(localStorage).filter(([key]) => key.startsWith('atlantis.1.')))"""
DRAFT = '#ATLANTIS 1\nUNIT 1\nWORK ; the draft of the file\n'
OTHER_DRAFT = '#ATLANTIS 1\nUNIT 1\nWORK ; another draft\n'


class Files(PageCases):
    def all(self) -> None:
        self.proxy.start(self.club, [FAST])
        self.folder = os.path.join(self.proxy.folder, 'files')
        os.mkdir(self.folder)
        self.path = os.path.join(self.folder, 'faction-1.json')
        for name in ('out', 'into an empty browser', 'beside others', 'hostile files', 'removed'):
            self.case(name)
        self.proxy.stop()

    def open_kept(self) -> None:
        self.page.tab('report')
        self.browser.run('document.querySelector("#report-kept").open = true')

    def take_in(self, path: str) -> str:
        """Takes the file in, and returns what the page says."""
        self.open_kept()
        self.browser.run('document.querySelector("#report-answer").replaceChildren()')
        self.browser.type('#archive-file', path)
        return one_line(until('an answer', lambda: self.browser.shown('#report-answer')))

    def out(self) -> None:
        self.page.open()
        self.browser.run('localStorage.clear()')
        self.page.open()
        self.page.sign_in(1, APPLE)
        self.browser.click('#remember')
        self.page.fetch()
        self.page.send('#ATLANTIS 1\nUNIT 1\nWORK ; sent\n')
        self.browser.put('#orders-text', OTHER_DRAFT)
        self.browser.click('#orders-template')
        self.browser.put('#orders-text', DRAFT)
        self.kept = self.browser.run(KEPT)
        self.browser.devtools('Browser.setDownloadBehavior', behavior='allow', downloadPath=self.folder)
        self.open_kept()
        self.browser.click('#archive-save')
        until('the file is saved', lambda: os.path.exists(self.path) and os.path.getsize(self.path) > 0)
        with open(self.path, encoding='utf-8') as file:
            text = file.read()
        self.checks.same('version of the file', 1, json.loads(text)['version'])
        self.checks.true('the pass text is not in the file', APPLE not in text)

    def into_an_empty_browser(self) -> None:
        self.browser.run('localStorage.clear()')
        self.page.open()
        self.says('the page', 'faction 1 was taken in', self.take_in(self.path))
        found = self.browser.run(KEPT)
        self.kept.pop('atlantis.1.pass')
        self.checks.same('what is kept', self.kept, found)
        self.checks.same('the draft', DRAFT, self.browser.value('#orders-text'))
        self.checks.same('the report', self.club.report(1, APPLE), self.browser.text('#report-text'))

    def beside_others(self) -> None:
        """What is here and differs is replaced only if the player says so."""
        self.browser.put('#orders-text', OTHER_DRAFT)
        before = self.browser.run(KEPT)
        self.says('the page', 'the draft of faction 1 differ', self.take_in(self.path))
        self.checks.same('what is kept before an answer', before, self.browser.run(KEPT))
        self.browser.run('document.querySelectorAll("#report-answer button")[0].click()')
        self.checks.same('the draft', OTHER_DRAFT, self.browser.value('#orders-text'))
        self.take_in(self.path)
        self.browser.run('document.querySelectorAll("#report-answer button")[1].click()')
        self.checks.same('the draft of the file', DRAFT, self.browser.value('#orders-text'))
        self.page.tab('orders')
        earlier = [entry['text'] for entry in json.loads(self.browser.run(KEPT)['atlantis.1.texts'])]
        self.checks.true('the other draft is kept, too', OTHER_DRAFT in earlier, earlier)

    def hostile_files(self) -> None:
        before = self.browser.run(KEPT)
        path = os.path.join(self.folder, 'hostile.json')
        with open(self.path, encoding='utf-8') as file:
            good = json.load(file)
        report = next(iter(good['reports'].values()))
        for change in ({'faction': '<img src=x onerror=alert(1)>'}, {'version': 2}, {'reports': {'9': report}},
                       {'mailings': [{'text': '<b>'}]}, {'draft': 7}):
            with open(path, 'w', encoding='utf-8') as file:
                json.dump(good | change, file)
            self.says(f'a file with {change}', 'nothing was taken', self.take_in(path))
            self.checks.same(f'what is kept after a file with {change}', before, self.browser.run(KEPT))
        with open(path, 'wb') as file:
            file.write(b'\xff\x00{')
        self.says('a file that is no text', 'nothing was taken', self.take_in(path))
        self.checks.same('what such a file ran', 0, self.browser.count('img'))

    def removed(self) -> None:
        """What is kept is removed only once the player says so."""
        self.open_kept()
        before = self.browser.run(KEPT)
        for button in ('#report-drop', '#report-forget'):
            self.browser.click(button)
            self.browser.call('POST', '/alert/dismiss')
            self.checks.same(f'what is kept after no to {button}', before, self.browser.run(KEPT))
        self.browser.click('#report-drop')
        self.browser.call('POST', '/alert/accept')
        months = [key for key in self.browser.run(KEPT) if key.startswith('atlantis.1.report.')]
        self.checks.same('months that are kept', len(months) + 1, sum('.report.' in key for key in before))
        self.browser.click('#report-forget')
        self.browser.call('POST', '/alert/accept')
        self.checks.same('what is kept of the faction', {}, self.browser.run(KEPT))
