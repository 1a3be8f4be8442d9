"""A headless Chromium, driven over the WebDriver protocol by Debian's chromedriver."""
import base64
import json
import os
import re
import signal
import subprocess
import time
import urllib.error
import urllib.request

ELEMENT = 'element-6066-11e4-a52e-4f735466cecf'
KEYS = {'Tab': '\ue004', 'Enter': '\ue007', 'Space': ' ', 'Shift': '\ue008', 'Control': '\ue009', 'Down': '\ue015',
        'Right': '\ue014', 'Escape': '\ue00c'}
ARGUMENTS = ['--headless=new', '--disable-gpu', '--disable-dev-shm-usage', '--no-first-run', '--no-proxy-server',
             '--disable-background-networking', '--disable-component-update', '--disable-sync',
             '--host-resolver-rules=MAP * ~NOTFOUND, EXCLUDE 127.0.0.1', '--window-size=1100,900']


class Refused(Exception):
    """The driver answers with an error, whose name is `name`."""

    def __init__(self, name, message):
        super().__init__(f'{name}: {message.splitlines()[0] if message else ""}')
        self.name = name


class Unmet(Exception):
    """What was waited for did not come."""


def until(what, condition, seconds=30):
    """The first true value of `condition`, which is asked again until the seconds are over."""
    end = time.monotonic() + seconds
    while True:
        value = condition()
        if value:
            return value
        if time.monotonic() > end:
            raise Unmet(f'in {seconds} s not so: {what}')
        time.sleep(0.05)


class Driver:
    """A chromedriver of its own, with all its files in `folder`."""

    def __init__(self, folder):
        self.folder = folder
        self.log = open(os.path.join(folder, 'chromedriver.log'), 'w')
        environment = dict(os.environ, HOME=folder, TMPDIR=folder)
        self.process = subprocess.Popen(['chromedriver', '--port=0'], stdout=subprocess.PIPE, stderr=self.log,
                                        env=environment, text=True, start_new_session=True)
        for line in self.process.stdout:
            found = re.search(r'started successfully on port (\d+)', line)
            if found:
                self.site = f'http://127.0.0.1:{found[1]}'
                break
        else:
            raise Unmet('chromedriver does not start')
        self.opener = urllib.request.build_opener(urllib.request.ProxyHandler({}))

    def call(self, method, path, body=None):
        data = None if body is None else json.dumps(body).encode()
        request = urllib.request.Request(self.site + path, data, {'Content-Type': 'application/json'}, method=method)
        try:
            with self.opener.open(request, timeout=60) as reply:
                return json.load(reply)['value']
        except urllib.error.HTTPError as error:
            value = json.load(error)['value']
            raise Refused(value['error'], value['message']) from None

    def stop(self):
        """Ends chromedriver, and what it started."""
        try:
            os.killpg(self.process.pid, signal.SIGKILL)
        except ProcessLookupError:
            pass
        self.process.wait()
        self.process.stdout.close()
        self.log.close()


class Browser:
    """A browser with an empty profile."""

    def __init__(self, driver):
        self.driver = driver
        arguments = ARGUMENTS + (['--no-sandbox'] if os.geteuid() == 0 else [])
        wanted = {
            'browserName': 'chrome',
            'goog:chromeOptions': {'args': arguments},
            'goog:loggingPrefs': {'browser': 'ALL'},
            'unhandledPromptBehavior': 'ignore',
        }
        session = driver.call('POST', '/session', {'capabilities': {'alwaysMatch': wanted}})
        self.path = '/session/' + session['sessionId']

    def call(self, method, path, body=None):
        if method == 'POST' and body is None:
            body = {}
        return self.driver.call(method, self.path + path, body)

    def quit(self):
        self.call('DELETE', '')

    def open(self, url):
        self.call('POST', '/url', {'url': url})

    def reload(self):
        self.call('POST', '/refresh')

    def run(self, script, *arguments):
        """What the script returns; it has its arguments in `arguments`."""
        return self.call('POST', '/execute/sync', {'script': script, 'args': list(arguments)})

    def find(self, css):
        element = self.call('POST', '/element', {'using': 'css selector', 'value': css})
        return '/element/' + element[ELEMENT]

    def click(self, css):
        self.call('POST', self.find(css) + '/click')

    def type(self, css, text):
        self.call('POST', self.find(css) + '/value', {'text': text})

    def fill(self, css, text):
        """Types the text in the place of what the field holds."""
        element = self.find(css)
        self.call('POST', element + '/clear')
        self.call('POST', element + '/value', {'text': text})

    def put(self, css, text):
        """Sets what the field holds at once, as pasting does."""
        self.run('const field = document.querySelector(arguments[0]); field.focus(); field.value = arguments[1];'
                 'field.dispatchEvent(new InputEvent("input", {bubbles: true, inputType: "insertFromPaste"}))',
                 css, text)

    def press(self, *keys):
        """Presses the keys one after another."""
        actions = []
        for key in keys:
            for kind in ('keyDown', 'keyUp'):
                actions.append({'type': kind, 'value': KEYS.get(key, key)})
        self.call('POST', '/actions', {'actions': [{'type': 'key', 'id': 'keyboard', 'actions': actions}]})

    def text(self, css):
        """The text of the element as it is in the page, shown or not."""
        return self.run('return document.querySelector(arguments[0]).textContent', css)

    def shown(self, css):
        """The text of the element as a reader sees it, empty where the element is hidden."""
        return self.run('const e = document.querySelector(arguments[0]);'
                        'return e.checkVisibility() ? e.innerText : ""', css)

    def value(self, css):
        return self.run('return document.querySelector(arguments[0]).value', css)

    def focused(self):
        """The id of the element that has the focus."""
        return self.run('return document.activeElement.id')

    def count(self, css):
        return self.run('return document.querySelectorAll(arguments[0]).length', css)

    def tabs(self):
        """The handles of the tabs of the browser."""
        return self.call('GET', '/window/handles')

    def open_tab(self):
        """Opens a tab, and goes to it. Returns its handle."""
        handle = self.call('POST', '/window/new', {'type': 'tab'})['handle']
        self.go_to_tab(handle)
        return handle

    def go_to_tab(self, handle):
        self.call('POST', '/window', {'handle': handle})

    def close_tab(self, back):
        """Closes the tab, and goes to another one."""
        self.call('DELETE', '/window')
        self.go_to_tab(back)

    def has_alert(self):
        try:
            self.call('GET', '/alert/text')
            return True
        except Refused as refused:
            if refused.name != 'no such alert':
                raise
            return False

    def errors(self):
        """What the console has got since the last call that is an error, but for replies with an error's status."""
        entries = self.call('POST', '/se/log', {'type': 'browser'})
        return [entry['message'] for entry in entries
                if entry['level'] == 'SEVERE' and 'Failed to load resource' not in entry['message']]

    def devtools(self, command, **parameters):
        return self.call('POST', '/goog/cdp/execute', {'cmd': command, 'params': parameters})

    def script_time(self, script, *arguments, layout=False):
        """The milliseconds of the processor that the script takes, whatever else the machine does. With `layout` those
        that the page takes then to be laid out are added."""
        wanted = ('ScriptDuration', 'LayoutDuration', 'RecalcStyleDuration') if layout else ('ScriptDuration',)

        def spent():
            metrics = self.devtools('Performance.getMetrics')['metrics']
            return sum(metric['value'] for metric in metrics if metric['name'] in wanted)
        self.devtools('Performance.enable', timeDomain='threadTicks')
        before = spent()
        self.run(script + ('; document.body.offsetHeight' if layout else ''), *arguments)
        after = spent()
        self.devtools('Performance.disable')
        return (after - before) * 1000

    def size(self, width, height, mobile=False):
        self.devtools('Emulation.setDeviceMetricsOverride', width=width, height=height, deviceScaleFactor=1,
                      mobile=mobile)

    def scheme(self, name):
        """Makes the browser prefer the scheme `dark` or `light`."""
        self.devtools('Emulation.setEmulatedMedia', features=[{'name': 'prefers-color-scheme', 'value': name}])

    def shot(self, path):
        """A picture of the whole page."""
        size = self.devtools('Page.getLayoutMetrics')['cssContentSize']
        clip = {'x': 0, 'y': 0, 'width': size['width'], 'height': size['height'], 'scale': 1}
        picture = self.devtools('Page.captureScreenshot', format='png', captureBeyondViewport=True, clip=clip)
        with open(path, 'wb') as file:
            file.write(base64.b64decode(picture['data']))
