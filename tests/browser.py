"""Drives Debian's chromium without a window, by pipes: no port is opened, and no name of a host is looked up.

All that a browser starts ends with it, and each answer of it is awaited for a bounded time.
"""

import base64
import contextlib
import json
import os
import select
import shutil
import signal
import subprocess
import tempfile
import time

NAMES = ('chromium', 'chromium-browser', 'google-chrome')
# What a call may take on a busy machine, and how long a browser may take to end by itself.
SECONDS, SECONDS_TO_END = 120, 10
WORDS = ['--headless=new', '--remote-debugging-pipe', '--no-first-run', '--disable-gpu', '--disable-dev-shm-usage',
         '--disable-background-networking', '--disable-component-update', '--disable-extensions', '--disable-sync',
         '--disable-breakpad', '--hide-scrollbars', '--mute-audio', '--force-device-scale-factor=1',
         '--host-resolver-rules=MAP * ~NOTFOUND']
KEYS = {' ': ('Space', 32), 'Enter': ('Enter', 13), 'Escape': ('Escape', 27), 'PageUp': ('PageUp', 33),
        'PageDown': ('PageDown', 34), 'End': ('End', 35), 'Home': ('Home', 36), 'ArrowLeft': ('ArrowLeft', 37),
        'ArrowRight': ('ArrowRight', 39), 'Tab': ('Tab', 9)}
TEXTS = {' ': ' ', 'Enter': '\r'}


def program():
    """The browser's path, or None where there is none."""
    return next(filter(None, map(shutil.which, NAMES)), None)


class Failed(Exception):
    """The browser ended, did not answer in time, or refused what was asked."""


class Browser:
    """A browser with one page. `events` is what it told of its own accord."""

    def __init__(self, width=1200, height=760):
        self.place = tempfile.mkdtemp(prefix='c104-browser-')
        self.number, self.session, self.rest, self.events = 0, None, b'', []
        (near, self.to), (self.of, far) = os.pipe(), os.pipe()
        words = [program(), *WORDS, *['--no-sandbox'] * (os.geteuid() == 0), '--user-data-dir=' + self.place, 'about:blank']
        # the browser reads from 3 and writes to 4
        os.set_inheritable(near, True)
        os.set_inheritable(far, True)
        words = ['bash', '-c', 'exec "$@" 3<&%d 4>&%d' % (near, far), 'browser', *words]
        self.process = subprocess.Popen(words, pass_fds=(near, far), stdin=subprocess.DEVNULL, stdout=subprocess.DEVNULL,
                                        stderr=subprocess.DEVNULL, env={**os.environ, 'HOME': self.place}, start_new_session=True)
        os.close(near)
        os.close(far)
        try:
            self.attach(width, height)
        except BaseException:
            self.end()
            raise

    def attach(self, width, height):
        target = self.call('Target.createTarget', url='about:blank')['targetId']
        self.session = self.call('Target.attachToTarget', targetId=target, flatten=True)['sessionId']
        for domain in ('Page', 'Runtime', 'Log', 'Network'):
            self.call(domain + '.enable')
        self.call('Emulation.setDeviceMetricsOverride', width=width, height=height, deviceScaleFactor=1, mobile=False)

    def __enter__(self):
        return self

    def __exit__(self, *_):
        self.end()

    def end(self):
        """Ends the browser and all that it started."""
        with contextlib.suppress(Failed, OSError):
            self.session = None
            self.call('Browser.close', seconds=SECONDS_TO_END)
        with contextlib.suppress(subprocess.TimeoutExpired):
            self.process.wait(SECONDS_TO_END)
        with contextlib.suppress(ProcessLookupError):
            os.killpg(self.process.pid, signal.SIGKILL)
        self.process.wait()
        for file in (self.to, self.of):
            os.close(file)
        for number in filter(str.isdigit, os.listdir('/proc')):
            self.end_left_over(int(number))
        shutil.rmtree(self.place, ignore_errors=True)

    def end_left_over(self, number):
        """Ends a process that works in this browser's own folder."""
        with contextlib.suppress(OSError):
            with open('/proc/%d/cmdline' % number, 'rb') as file:
                if self.place.encode() in file.read() and number != os.getpid():
                    os.kill(number, signal.SIGKILL)

    def call(self, method, seconds=SECONDS, **fields):
        """What the browser answers."""
        self.number += 1
        message = {'id': self.number, 'method': method, 'params': fields, **({'sessionId': self.session} if self.session else {})}
        try:
            os.write(self.to, json.dumps(message).encode() + b'\0')
        except BrokenPipeError:
            raise Failed('the browser has ended, before ' + method) from None
        until = time.monotonic() + seconds
        while True:
            told = self.read(until, method)
            if told.get('id') != self.number:
                self.events.append((told.get('method'), told.get('params', {})))
            elif 'error' in told:
                raise Failed('%s: %s' % (method, told['error'].get('message')))
            else:
                return told['result']

    def read(self, until, method):
        while b'\0' not in self.rest:
            if not select.select([self.of], [], [], max(0, until - time.monotonic()))[0]:
                raise Failed('no answer in time: ' + method)
            more = os.read(self.of, 1 << 20)
            if not more:
                raise Failed('the browser has ended, at ' + method)
            self.rest += more
        message, _, self.rest = self.rest.partition(b'\0')
        return json.loads(message)

    def evaluate(self, expression):
        """The value of an expression in the page."""
        told = self.call('Runtime.evaluate', expression=expression, returnByValue=True, awaitPromise=True)
        if 'exceptionDetails' in told:
            raise Failed('%s: %s' % (expression[:80], told['exceptionDetails'].get('exception', {}).get('description')))
        return told['result'].get('value')

    def open(self, url):
        """Opens a page, and waits until it has loaded."""
        self.events.clear()
        told = self.call('Page.navigate', url=url)
        if told.get('errorText'):
            raise Failed('%s: %s' % (url, told['errorText']))
        self.wait_for("document.readyState === 'complete'")

    def wait_for(self, expression, seconds=SECONDS):
        """Waits until an expression holds, and says whether it does."""
        until = time.monotonic() + seconds
        while not self.evaluate(expression):
            if time.monotonic() > until:
                return False
            time.sleep(0.05)
        return True

    def press(self, *keys):
        for key in keys:
            code, number = KEYS[key]
            fields = {'key': key, 'code': code, 'windowsVirtualKeyCode': number}
            text = {'text': TEXTS[key]} if key in TEXTS else {}
            self.call('Input.dispatchKeyEvent', type='keyDown' if text else 'rawKeyDown', **fields, **text)
            self.call('Input.dispatchKeyEvent', type='keyUp', **fields)

    def shade(self, shade, motion='no-preference'):
        """Has pages be light or dark."""
        self.call('Emulation.setEmulatedMedia', features=[{'name': 'prefers-color-scheme', 'value': shade},
                                                          {'name': 'prefers-reduced-motion', 'value': motion}])

    def picture(self):
        """What the page looks like, as a PNG."""
        return base64.b64decode(self.call('Page.captureScreenshot', format='png')['data'])

    def loaded(self):
        """The URLs that the page asked for."""
        return [fields['request']['url'] for name, fields in self.events if name == 'Network.requestWillBeSent']

    def errors(self):
        """What the page told of errors."""
        found = []
        for name, fields in self.events:
            if name == 'Runtime.exceptionThrown':
                found.append(fields['exceptionDetails'].get('exception', {}).get('description', '?'))
            elif name == 'Log.entryAdded' and fields['entry']['level'] in ('error', 'warning'):
                found.append(fields['entry']['text'])
            elif name == 'Runtime.consoleAPICalled' and fields['type'] in ('error', 'warning', 'assert'):
                found.append('%s' % [it.get('value') for it in fields['args']])
        return found
