"""Chromium without a window, driven over a pipe (the DevTools protocol), for `page`."""
import base64
import contextlib
import fcntl
import json
import os
import select
import shutil
import subprocess
import time

from .harness import write

CHROMIUM = shutil.which('chromium')
WORDS = ['--headless=new', '--no-sandbox', '--disable-gpu', '--no-first-run', '--disable-extensions',
         '--disable-sync', '--disable-background-networking', '--disable-component-update', '--hide-scrollbars',
         '--remote-debugging-pipe', '--force-color-profile=srgb', '--lang=en']


class Browser:
    """A browser that ends with its `with`. Its profile and what it downloads are in a folder."""

    def __init__(self, folder):
        self.events, self.waiting, self.number, self.downloads = [], b'', 0, f'{folder}/downloads'
        os.makedirs(self.downloads)
        theirs, self.sink = os.pipe()
        self.source, back = os.pipe()
        # (the browser reads from descriptor 3 and writes to 4)
        ends = [fcntl.fcntl(end, fcntl.F_DUPFD, 10) for end in (theirs, back)]
        words = ['bash', '-c', f'exec "$@" 3<&{ends[0]} 4>&{ends[1]}', 'bash', CHROMIUM, *WORDS]
        words += [f'--user-data-dir={folder}/profile']
        environment = {**os.environ, 'HOME': folder, 'XDG_CONFIG_HOME': folder, 'XDG_CACHE_HOME': folder}
        self.process = subprocess.Popen(words, pass_fds=ends, env=environment, stdin=subprocess.DEVNULL,
                                        stdout=subprocess.DEVNULL, stderr=subprocess.DEVNULL, start_new_session=True)
        for end in (theirs, back, *ends):
            os.close(end)

    def __enter__(self):
        return self

    def __exit__(self, *_):
        with contextlib.suppress(ProcessLookupError):
            os.killpg(self.process.pid, 9)
        self.process.wait()

    def call(self, method, session=None, seconds=120, **given):
        """What a call of the protocol returns. Events that come meanwhile are kept."""
        self.number += 1
        message = {'id': self.number, 'method': method, 'params': given}
        message |= {'sessionId': session} if session else {}
        os.write(self.sink, json.dumps(message).encode() + b'\0')
        end = time.monotonic() + seconds
        while True:
            answer = self.receive(end)
            if answer.get('id') == self.number:
                if 'error' in answer:
                    raise AssertionError(f'{method}: {answer["error"]}')
                return answer['result']
            self.events.append(answer)

    def receive(self, end):
        """The next message of the browser."""
        while b'\0' not in self.waiting:
            ready, _, _ = select.select([self.source], [], [], max(0, end - time.monotonic()))
            piece = os.read(self.source, 1 << 20) if ready else b''
            if not piece:
                raise AssertionError('the browser answers nothing')
            self.waiting += piece
        message, _, self.waiting = self.waiting.partition(b'\0')
        return json.loads(message)

    def page(self):
        """A new page."""
        target = self.call('Target.createTarget', url='about:blank')['targetId']
        self.call('Browser.setDownloadBehavior', behavior='allow', downloadPath=self.downloads, eventsEnabled=False)
        return Page(self, self.call('Target.attachToTarget', targetId=target, flatten=True)['sessionId'])


class Page:
    """A page of the browser."""

    def __init__(self, browser, session):
        self.browser, self.session = browser, session
        for domain in ('Page', 'Runtime', 'Network', 'DOM'):
            self.call(f'{domain}.enable')

    def call(self, method, **given):
        return self.browser.call(method, self.session, **given)

    def show(self, width, height, dark=False):
        """Sets the size of the window, and whether the system is dark."""
        self.call('Emulation.setDeviceMetricsOverride', width=width, height=height, deviceScaleFactor=1, mobile=False)
        scheme = 'dark' if dark else 'light'
        self.call('Emulation.setEmulatedMedia', features=[{'name': 'prefers-color-scheme', 'value': scheme}])

    def open(self, address):
        self.call('Page.navigate', url=address)
        self.until('document.readyState === "complete" && location.href !== "about:blank"')

    def value(self, script):
        """The value of an expression, or of what it promises."""
        how = {'returnByValue': True, 'awaitPromise': True, 'userGesture': True}
        done = self.call('Runtime.evaluate', expression=script, **how)
        if 'exceptionDetails' in done:
            raise AssertionError(f'{script}: {done["exceptionDetails"]}')
        return done['result'].get('value')

    def until(self, script, seconds=60):
        """Waits until an expression is true: whether that came in time."""
        end = time.monotonic() + seconds
        while not self.value(script):
            if time.monotonic() > end:
                return False
            time.sleep(0.05)
        return True

    def text(self, name):
        """What an element shows, by its id, and an empty text if it is hidden."""
        found = f'document.getElementById({json.dumps(name)})'
        return self.value(f'{found}.checkVisibility() ? {found}.innerText : ""')

    def kind(self, name):
        return self.value(f'document.getElementById({json.dumps(name)}).className')

    def click(self, name):
        self.value(f'document.getElementById({json.dumps(name)}).click()')

    def fill(self, name, content):
        self.value(f'document.getElementById({json.dumps(name)}).value = {json.dumps(content)}')

    def choose(self, name, *paths):
        """Chooses files, as by the system's dialog."""
        found = self.call('Runtime.evaluate', expression=f'document.getElementById({json.dumps(name)})')
        paths = [os.path.abspath(path) for path in paths]
        self.call('DOM.setFileInputFiles', files=paths, objectId=found['result']['objectId'])

    def press(self, key, code=0):
        """Presses a key."""
        given = {'key': key, 'windowsVirtualKeyCode': code or ord(key.upper())}
        given |= {'text': '\r' if key == 'Enter' else key} if len(key) == 1 or key == 'Enter' else {}
        self.call('Input.dispatchKeyEvent', type='keyDown', **given)
        self.call('Input.dispatchKeyEvent', type='keyUp', **given)

    def before_each(self, script):
        """Runs a script before those of each page that is opened: what takes it away again."""
        return self.call('Page.addScriptToEvaluateOnNewDocument', source=script)['identifier']

    def requests(self):
        """The addresses that were asked for, since this was called last."""
        self.value('1')
        found = [it['params'] for it in self.browser.events if it.get('method') == 'Network.requestWillBeSent']
        self.browser.events.clear()
        return [it['request']['url'] for it in found]

    def picture(self, path):
        """Keeps a picture of the whole page."""
        height = self.value('document.documentElement.scrollHeight')
        clip = {'x': 0, 'y': 0, 'width': self.value('innerWidth'), 'height': height, 'scale': 1}
        done = self.call('Page.captureScreenshot', format='png', captureBeyondViewport=True, clip=clip)
        write(path, base64.b64decode(done['data']))
