"""A headless Chromium, driven by its own protocol: what a person does and sees."""
import base64, json, os, pathlib, shutil, subprocess, tempfile, time, urllib.request
from typing import Optional

from .websocket import Websocket

NAMES = ('chromium', 'chromium-browser', 'google-chrome', 'chromium-headless-shell')
SECONDS = 240
KEYS = {'Tab': 9, 'Enter': 13, 'Escape': 27, 'Space': 32, 'ArrowLeft': 37, 'ArrowUp': 38, 'ArrowRight': 39, 'ArrowDown': 40, 'Backspace': 8,
        'Delete': 46, 'Home': 36, 'End': 35, 'F8': 119}
# An expression that may not hold yet; an element is taken for true.
TRIED = '(() => { try { const found = %s; return found instanceof Node || found } catch { return null } })()'
ALT, CONTROL, SHIFT = 1, 2, 8


class Failure(Exception):
    """What a test has seen in place of what it wants."""


def found() -> Optional[str]:
    """The browser of this machine; nothing where there is none."""
    return os.environ.get('CHROMIUM') or next((path for path in map(shutil.which, NAMES) if path), None)


class Browser:
    """A browser with one page at a time."""

    def __init__(self, path: str):
        self.folder = tempfile.mkdtemp(prefix='catala-browser-')
        words = [path, '--headless=new', '--remote-debugging-port=0', '--user-data-dir=' + self.folder, '--no-first-run',
                 '--disable-gpu', '--disable-background-networking', '--disable-component-update', '--disable-dev-shm-usage',
                 '--disable-extensions', '--hide-scrollbars', '--force-color-profile=srgb', '--no-sandbox', 'about:blank']
        self.process = subprocess.Popen(words, stdout=subprocess.DEVNULL, stderr=subprocess.DEVNULL)
        self.port = self.asked_port()

    def asked_port(self) -> str:
        told, ends = pathlib.Path(self.folder) / 'DevToolsActivePort', time.monotonic() + SECONDS
        while not (told.exists() and '\n' in told.read_text()):
            if self.process.poll() is not None or time.monotonic() > ends:
                raise OSError('the browser has not begun')
            time.sleep(0.1)
        return told.read_text().split('\n')[0]

    def page(self) -> 'Page':
        request = urllib.request.Request('http://127.0.0.1:%s/json/new?about:blank' % self.port, method='PUT')
        with urllib.request.urlopen(request, timeout=SECONDS) as answer:
            told = json.load(answer)
        return Page(told['webSocketDebuggerUrl'], 'http://127.0.0.1:%s/json/close/%s' % (self.port, told['id']))

    def end(self) -> None:
        self.process.terminate()
        try:
            self.process.wait(10)
        except subprocess.TimeoutExpired:
            self.process.kill()
            self.process.wait()
        shutil.rmtree(self.folder, ignore_errors=True)


class Page:
    """A page of the browser. `said` is what it has written to the console, and `refused` what its rules have kept from it."""

    def __init__(self, address: str, closing: str):
        self.socket, self.closing, self.number, self.said = Websocket(address, SECONDS), closing, 0, []
        for part in ('Page', 'Runtime', 'Log'):
            self.call(part + '.enable')

    def call(self, method: str, **words) -> dict:
        self.number += 1
        number = self.number
        self.socket.send(json.dumps({'id': number, 'method': method, 'params': words}).encode())
        while True:
            told = json.loads(self.socket.message())
            if told.get('id') == number:
                if 'error' in told:
                    raise Failure('%s: %s' % (method, told['error']))
                return told['result']
            self.hear(told)

    def hear(self, told: dict) -> None:
        """Keeps what goes wrong on the page."""
        if told.get('method') == 'Runtime.exceptionThrown':
            self.said.append(json.dumps(told['params']['exceptionDetails'])[:600])
        elif told.get('method') == 'Log.entryAdded' and told['params']['entry']['level'] in ('error', 'warning'):
            self.said.append(told['params']['entry']['text'] + ' ' + told['params']['entry'].get('url', ''))
        elif told.get('method') == 'Runtime.consoleAPICalled' and told['params']['type'] in ('error', 'warning', 'assert'):
            self.said.append(json.dumps(told['params']['args'])[:600])
        elif told.get('method') == 'Page.javascriptDialogOpening':
            self.socket.send(json.dumps({'id': 0, 'method': 'Page.handleJavaScriptDialog', 'params': {'accept': True}}).encode())

    def value(self, expression: str):
        """What an expression of JavaScript comes to on the page."""
        told = self.call('Runtime.evaluate', expression=expression, returnByValue=True, awaitPromise=True)
        if 'exceptionDetails' in told:
            raise Failure('%s: %s' % (expression, json.dumps(told['exceptionDetails'])[:600]))
        return told['result'].get('value')

    def wait(self, expression: str, what: str = '', seconds: float = SECONDS):
        """Waits until an expression holds, and gives what it comes to."""
        ends = time.monotonic() + seconds
        while True:
            value = self.value(TRIED % expression)
            if value:
                return value
            if time.monotonic() > ends:
                raise Failure('not seen within %d s: %s' % (seconds, what or expression))
            time.sleep(0.03)

    # ---- what a person does

    def size(self, width: int, height: int, is_dark: bool = False) -> None:
        self.call('Emulation.setDeviceMetricsOverride', width=width, height=height, deviceScaleFactor=1, mobile=False)
        scheme = 'dark' if is_dark else 'light'
        self.call('Emulation.setEmulatedMedia', features=[{'name': 'prefers-color-scheme', 'value': scheme}])

    def open(self, address: str, shown: str = 'window.page') -> None:
        self.said = []
        self.call('Page.navigate', url=address)
        self.wait('document.readyState === "complete" && !!(%s)' % shown, 'the page at its beginning')

    def press(self, key: str, modifiers: int = 0) -> None:
        code = KEYS.get(key) or ord(key.upper())
        text = {'Enter': '\r', 'Space': ' '}.get(key, key if len(key) == 1 and not modifiers & (ALT | CONTROL) else '')
        name = ' ' if key == 'Space' else key
        place = name if len(name) > 1 else 'Key' + name.upper()
        common = {'key': name, 'code': place, 'windowsVirtualKeyCode': code, 'modifiers': modifiers}
        self.call('Input.dispatchKeyEvent', type='keyDown', **common, **({'text': text} if text else {}))
        self.call('Input.dispatchKeyEvent', type='keyUp', **common)

    def write(self, text: str) -> None:
        """Writes where the cursor stands."""
        self.call('Input.insertText', text=text)

    def click(self, selector: str) -> None:
        """Clicks at the middle of what is seen of an element."""
        x, y = self.wait('''(() => { const found = document.querySelector(%s); found.scrollIntoView({ block: "center" });
            const { x, y, width, height } = found.getBoundingClientRect();
            return width && [x + Math.min(width / 2, 40), y + height / 2]; })()''' % json.dumps(selector), selector)
        for kind in ('mousePressed', 'mouseReleased'):
            self.call('Input.dispatchMouseEvent', type=kind, x=x, y=y, button='left', clickCount=1)

    def shot(self, file: pathlib.Path) -> None:
        """A picture of what is seen."""
        file.write_bytes(base64.b64decode(self.call('Page.captureScreenshot', format='png')['data']))

    def close(self) -> None:
        self.socket.close()
        urllib.request.urlopen(self.closing, timeout=SECONDS).close()
