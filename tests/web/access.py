"""Cases for players who use a keyboard, a screen reader, a narrow screen or paper."""
import base64
from collections.abc import Callable

from lines import FAST
from page import CONTRAST, PageCases
from texts import APPLE, FAULTY

CONTROLS = {'button', 'tab', 'textbox', 'checkbox', 'combobox', 'link', 'DisclosureTriangle', 'listbox', 'searchbox'}
VIEWS = ('join', 'units', 'orders', 'report', 'map')
WIDE, NARROW = 1280, 320
LEAST_TARGET = 24
REFERENCES = r"""
const ids = [...document.querySelectorAll('[id]')].map((e) => e.id);
const wrong = ids.filter((id, i) => ids.indexOf(id) !== i).map((id) => `twice: ${id}`);
for (const e of document.querySelectorAll('[for], [aria-controls], [aria-labelledby], [aria-describedby]')) {
  for (const name of ['for', 'aria-controls', 'aria-labelledby', 'aria-describedby']) {
    for (const id of (e.getAttribute(name) ?? '').split(' ')) {
      if (id && !ids.includes(id)) wrong.push(`${name} ${id} of ${e.tagName} leads nowhere`);
    }
  }
}
for (const e of document.querySelectorAll('[tabindex]')) if (e.tabIndex > 0) wrong.push(`tabindex of ${e.id}`);
return wrong;
"""
HEADINGS = """return [...document.querySelectorAll('h1, h2, h3, h4, h5, h6')].filter((e) => e.checkVisibility())
  .map((e) => Number(e.tagName[1]))"""
SMALL = """return [...document.querySelectorAll('button:not(.link), select, input, summary')]
  .filter((e) => e.checkVisibility())
  .map((e) => [e.id || e.textContent, (e.closest('label') ?? e).getBoundingClientRect()])
  .filter(([, r]) => r.width < arguments[0] && r.height < arguments[0]).map(([name]) => name)"""
# Where the focus is: its number among all elements, what it is, and whether it is seen.
FOCUS = """const e = document.activeElement, s = getComputedStyle(e), box = e.closest('.editor') ?? e;
const b = getComputedStyle(box), rect = e.querySelector?.('rect');
return [[...document.querySelectorAll('*')].indexOf(e), e.id || e.outerHTML.slice(0, 60),
  s.outlineStyle !== 'none' || b.outlineStyle !== 'none' || (rect && getComputedStyle(rect).strokeWidth === '4px')]"""
MOST_STEPS = 60


class Access(PageCases):
    def all(self) -> None:
        self.proxy.start(self.club, [FAST])
        self.page.open()
        self.browser.run('localStorage.clear()')
        self.page.open()
        self.page.sign_in(1, APPLE)
        self.page.fetch()
        self.page.send(FAULTY + 'WORK ; changed\n')
        self.browser.put('#orders-text', FAULTY + '; a draft\n')
        self.browser.click('#orders-template')
        self.browser.click('#orders-undo')
        for name in ('names', 'references', 'headings', 'sizes', 'contrast', 'order of the focus', 'narrow', 'print'):
            self.case(name)
        self.proxy.stop()

    def each_view(self, act: Callable[[str], None]) -> None:
        for name in VIEWS:
            self.page.tab(name)
            if name == 'map':
                self.browser.click('#map .region:not(.unseen)')
            self.browser.run('document.querySelectorAll("details").forEach((e) => { e.open = true })')
            act(name)

    def names(self) -> None:
        """Each control has a name in the tree that the browser gives to a screen reader."""
        self.browser.devtools('Accessibility.enable')

        def named(view: str) -> None:
            nodes = [node for node in self.browser.devtools('Accessibility.getFullAXTree')['nodes']
                     if not node['ignored'] and node['role']['value'] in CONTROLS]
            self.checks.true(f'{view} has controls', len(nodes) > 8, len(nodes))
            bare = [node['role']['value'] for node in nodes if not node.get('name', {}).get('value', '').strip()]
            self.checks.same(f'controls without a name at {view}', [], bare)
        self.each_view(named)
        self.browser.devtools('Accessibility.disable')

    def references(self) -> None:
        self.each_view(lambda view: self.checks.same(f'references at {view}', [], self.browser.run(REFERENCES)))

    def headings(self) -> None:
        """No level of headings is left out."""
        def stepped(view: str) -> None:
            levels = self.browser.run(HEADINGS)
            self.checks.same(f'first headings at {view}', [1, 2], levels[:2])
            jumps = [pair for pair in zip(levels, levels[1:]) if pair[1] > pair[0] + 1]
            self.checks.same(f'levels left out at {view}', [], jumps)
        self.each_view(stepped)

    def sizes(self) -> None:
        self.each_view(lambda view: self.checks.same(f'small controls at {view}', [],
                                                     self.browser.run(SMALL, LEAST_TARGET)))

    def contrast(self) -> None:
        for scheme in ('light', 'dark'):
            self.browser.scheme(scheme)
            self.each_view(lambda view: self.checks.same(f'text of low contrast at {view}, {scheme}', [],
                                                         self.browser.run(CONTRAST)))
        self.browser.scheme('light')

    def order_of_the_focus(self) -> None:
        """Tab goes through the page from top to bottom, and the focus is always seen."""
        def walked(view: str) -> None:
            self.browser.run('document.activeElement.blur(); document.querySelector("#faction").focus()')
            places: list[int] = []
            for _ in range(MOST_STEPS):
                place, what, is_seen = self.browser.run(FOCUS)
                if places and place <= places[-1]:
                    break
                places.append(place)
                self.checks.true(f'the focus is seen on {what} at {view}', is_seen)
                self.browser.press('Tab')
            self.checks.true(f'Tab goes on at {view}', len(places) > 6, places)
        self.each_view(walked)

    def narrow(self) -> None:
        """Nothing is wider than a screen of 320 pixels."""
        self.browser.size(NARROW, 640, mobile=True)

        def fits(view: str) -> None:
            width, inner = self.browser.run('return [document.scrollingElement.scrollWidth, innerWidth]')
            self.checks.same(f'width at {view}', (NARROW, NARROW), (width, inner))
            self.page.shot(f'17-narrow-{view}')
        self.each_view(fits)
        self.browser.size(WIDE, 900)

    def print(self) -> None:
        """The report on paper has no controls."""
        self.page.tab('report')
        self.browser.devtools('Emulation.setEmulatedMedia', media='print')
        seen = self.browser.run('return [...document.querySelectorAll("button, input, select, summary")]'
                                '.filter((e) => e.checkVisibility()).map((e) => e.id || e.textContent)')
        self.checks.same('controls on paper', [], seen)
        self.checks.true('the report is on paper', 'Region' in self.browser.shown('#report-read'))
        self.browser.devtools('Emulation.setEmulatedMedia', media='')
        pages = base64.b64decode(self.browser.devtools('Page.printToPDF')['data'])
        self.checks.true('the report can be printed', pages.startswith(b'%PDF-'))
