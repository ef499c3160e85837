"""Chromium without a window, spoken to over pipes by its DevTools protocol, so that tests press real keys and click real places."""

import base64
import fcntl
import json
import os
import shutil
import struct
import subprocess
import tempfile
import unittest
import zlib
from pathlib import Path
from typing import Any, Dict, Iterator, List, Optional, Sequence, Tuple

WORDS = ('--headless', '--no-sandbox', '--disable-extensions', '--hide-scrollbars', '--disable-background-timer-throttling',
         '--disable-renderer-backgrounding', '--remote-debugging-pipe')
# How Chromium draws where there is no GPU.
SOFTWARE = ('--use-angle=swiftshader', '--enable-unsafe-swiftshader')
CODES = {'Enter': 13, 'Escape': 27, ' ': 32, 'ArrowLeft': 37, 'ArrowUp': 38, 'ArrowRight': 39, 'ArrowDown': 40, 'Tab': 9, 'Home': 36, 'End': 35}
TEXTS = {'Enter': '\r', ' ': ' '}


def browser() -> str:
    """Chromium; the test is left out where none is installed."""
    found = next(filter(None, map(shutil.which, ('chromium', 'chromium-browser', 'google-chrome'))), None)
    if found is None:
        raise unittest.SkipTest('needs Chromium, which is not installed')
    return found


class Image:
    """A PNG of eight bits a colour, as the browser makes it: its colours by place."""

    def __init__(self, data: bytes) -> None:
        self.width, self.height, _, kind = struct.unpack('>IIBB', data[16:26])
        self._each = {2: 3, 6: 4}[kind]
        raw, step = zlib.decompress(b''.join(self._parts(data))), self.width * self._each + 1
        self._rows: List[bytes] = []
        before = bytes(step - 1)
        for start in range(0, len(raw), step):
            before = self._unfiltered(raw[start], raw[start + 1:start + step], before)
            self._rows.append(before)

    @staticmethod
    def _parts(data: bytes) -> Iterator[bytes]:
        place = 8
        while place < len(data):
            size, kind = struct.unpack('>I4s', data[place:place + 8])
            if kind == b'IDAT':
                yield data[place + 8:place + 8 + size]
            place += 12 + size

    def _unfiltered(self, kind: int, line: bytes, before: bytes) -> bytes:
        """A line as it was before its filter (PNG, section 9.2)."""
        made = bytearray(line)
        for i, part in enumerate(line if kind else b''):
            left, up, corner = (made[i - self._each], before[i], before[i - self._each]) if i >= self._each else (0, before[i], 0)
            paeth = min((left, up, corner), key=lambda value: abs(left + up - corner - value))
            made[i] = (part + (0, left, up, (left + up) // 2, paeth)[kind]) & 255
        return bytes(made)

    def at(self, x: float, y: float) -> Tuple[int, int, int]:
        """The red, green and blue at a place."""
        row, place = self._rows[int(y)], int(x) * self._each
        return row[place], row[place + 1], row[place + 2]

    def colours(self, step: int = 2) -> Iterator[Tuple[int, int, int]]:
        """The colours at every so many places of every so many rows."""
        for y in range(0, self.height, step):
            for x in range(0, self.width, step):
                yield self.at(x, y)


class Told(Exception):
    """The browser answered with an error, or a script in the page failed."""


class Chromium:
    """A running browser. Its messages go over two pipes, which it has as its files 3 and 4, each ended by a zero byte."""

    def __init__(self, program: Optional[str] = None, drawing: Sequence[str] = SOFTWARE) -> None:
        self._folder = tempfile.TemporaryDirectory(ignore_cleanup_errors=True)
        (theirs_in, to), (back, theirs_out) = os.pipe(), os.pipe()
        # Ends above 4, so that neither is overwritten when they are moved to 3 and 4.
        ends = [fcntl.fcntl(end, fcntl.F_DUPFD, 10) for end in (theirs_in, theirs_out)]
        words = [program or browser(), *WORDS, *drawing, f'--user-data-dir={self._folder.name}', 'about:blank']
        self.process = subprocess.Popen(words, pass_fds=(3, 4), preexec_fn=lambda: [os.dup2(end, place) for place, end in enumerate(ends, 3)],
                                        stdout=subprocess.DEVNULL, stderr=subprocess.DEVNULL)
        for end in (theirs_in, theirs_out, *ends):
            os.close(end)
        self._to, self._from = os.fdopen(to, 'wb', 0), os.fdopen(back, 'rb', 0)
        self._asked, self._rest = 0, b''
        self.events: List[Dict[str, Any]] = []

    def ask(self, method: str, session: Optional[str] = None, **parameters: Any) -> Dict[str, Any]:
        """What the browser answers; events that come before are kept."""
        self._asked += 1
        message = {'id': self._asked, 'method': method, 'params': parameters, **({'sessionId': session} if session else {})}
        self._to.write(json.dumps(message).encode() + b'\0')
        while True:
            answer = self._next()
            if answer.get('id') == self._asked:
                break
            self.events.append(answer)
        if 'error' in answer:
            raise Told(f'{method}: {answer["error"]["message"]}')
        result: Dict[str, Any] = answer['result']
        return result

    def _next(self) -> Dict[str, Any]:
        while b'\0' not in self._rest:
            more = self._from.read(1 << 20)
            if not more:
                raise Told('the browser has ended')
            self._rest += more
        text, self._rest = self._rest.split(b'\0', 1)
        message: Dict[str, Any] = json.loads(text)
        return message

    def open(self, page: str, size: Tuple[int, int] = (620, 470), words: str = '', *, dark: bool = False, calm: bool = False,
             touch: bool = False, before: str = '') -> 'Tab':
        """A tab with the page, in a window of this size; `words` follow the # in its address, and `before` is a script that runs first."""
        return Tab(self, Path(self._folder.name), page, size, words, {'dark': dark, 'calm': calm, 'touch': touch}, before)

    def close(self) -> None:
        """Ends the browser."""
        try:
            self.ask('Browser.close')
        except (Told, OSError):
            self.process.kill()
        self.process.wait(20)
        self._to.close()
        self._from.close()
        self._folder.cleanup()


class Tab:
    """A page that is shown."""

    def __init__(self, chromium: Chromium, folder: Path, page: str, size: Tuple[int, int], words: str,
                 wishes: Dict[str, bool], before: str) -> None:
        self._chromium = chromium
        self._target = chromium.ask('Target.createTarget', url='about:blank')['targetId']
        self._session = chromium.ask('Target.attachToTarget', targetId=self._target, flatten=True)['sessionId']
        self._path = folder / f'{self._target}.html'
        self._path.write_text(page, encoding='utf-8')
        self.resize(*size, touch=wishes['touch'])
        self.ask('Emulation.setEmulatedMedia', features=[
            {'name': 'prefers-color-scheme', 'value': 'dark' if wishes['dark'] else 'light'},
            {'name': 'prefers-reduced-motion', 'value': 'reduce' if wishes['calm'] else 'no-preference'}])
        self.ask('Emulation.setFocusEmulationEnabled', enabled=True)
        for part in ('Page', 'Runtime', 'Network', 'Log', 'Accessibility'):
            self.ask(f'{part}.enable')
        if before:
            self.ask('Page.addScriptToEvaluateOnNewDocument', source=before)
        self.go(words)

    def ask(self, method: str, **parameters: Any) -> Dict[str, Any]:
        """What the browser answers about this page."""
        return self._chromium.ask(method, self._session, **parameters)

    def go(self, words: str = '') -> None:
        """Loads the page, with words after the # in its address, and waits until it stands."""
        self.ask('Page.navigate', url='about:blank')
        self.ask('Page.navigate', url=f'{self._path.as_uri()}#{words}' if words else self._path.as_uri())
        self.value("""new Promise(done => { const look = () => document.readyState === 'complete' && location.protocol === 'file:'
            ? done(1) : setTimeout(look, 5); look(); })""")

    def resize(self, width: int, height: int, touch: bool = False) -> None:
        """Gives the window another size."""
        self.ask('Emulation.setDeviceMetricsOverride', width=width, height=height, deviceScaleFactor=1, mobile=touch)
        self.ask('Emulation.setTouchEmulationEnabled', enabled=touch)

    def value(self, expression: str) -> Any:
        """What an expression, or a promise that it makes, comes to in the page."""
        told = self.ask('Runtime.evaluate', expression=expression, returnByValue=True, awaitPromise=True)
        if 'exceptionDetails' in told:
            about = told['exceptionDetails']
            raise Told(about.get('exception', {}).get('description', about['text']))
        return told['result'].get('value')

    def until(self, expression: str, seconds: float = 180) -> Any:
        """What the expression comes to when it is true for the first time, or at last."""
        return self.value(f"""new Promise(done => {{ const end = Date.now() + {1000 * seconds};
            const look = () => {{ const found = ({expression}); if (found || Date.now() > end) done(found); else setTimeout(look, 10); }}; look(); }})""")

    def settle(self) -> None:
        """Waits until two frames have been drawn."""
        self.value('new Promise(done => requestAnimationFrame(() => requestAnimationFrame(() => done(1))))')

    def move(self, x: float, y: float) -> None:
        """Moves the pointer."""
        self._mouse('mouseMoved', x, y)

    def click(self, x: float, y: float) -> None:
        """Clicks at a place."""
        for kind in ('mousePressed', 'mouseReleased'):
            self._mouse(kind, x, y, button='left', clickCount=1)

    def drag(self, places: Sequence[Tuple[float, float]]) -> None:
        """Drags the pointer through places, its left button down."""
        self._mouse('mousePressed', *places[0], button='left', buttons=1, clickCount=1)
        for place in places[1:]:
            self._mouse('mouseMoved', *place, button='left', buttons=1)
        self._mouse('mouseReleased', *places[-1], button='left', clickCount=1)

    def wheel(self, x: float, y: float, way: float) -> None:
        """Turns the wheel."""
        self._mouse('mouseWheel', x, y, deltaX=0, deltaY=way)

    def _mouse(self, kind: str, x: float, y: float, **more: Any) -> None:
        self.ask('Input.dispatchMouseEvent', type=kind, x=x, y=y, **more)

    def tap(self, x: float, y: float) -> None:
        """Touches a place with a finger."""
        self.ask('Input.dispatchTouchEvent', type='touchStart', touchPoints=[{'x': x, 'y': y}])
        self.ask('Input.dispatchTouchEvent', type='touchEnd', touchPoints=[])

    def press(self, *keys: str) -> None:
        """Presses keys, one after another; `Shift+Tab` is Tab with the shift key."""
        for word in keys:
            shift, key = word.startswith('Shift+'), word.replace('Shift+', '')
            about: Dict[str, Any] = {'key': key, 'windowsVirtualKeyCode': CODES.get(key, ord(key[0].upper())), 'modifiers': 8 if shift else 0}
            text = TEXTS.get(key, key if len(key) == 1 else '')
            self.ask('Input.dispatchKeyEvent', type='keyDown' if text else 'rawKeyDown', **about, **({'text': text} if text else {}))
            self.ask('Input.dispatchKeyEvent', type='keyUp', **about)

    def middle(self, selector: str) -> Tuple[float, float]:
        """The middle of an element on the screen."""
        box = self.value(f'(b => [b.x + b.width / 2, b.y + b.height / 2, b.width])(document.querySelector({json.dumps(selector)}).getBoundingClientRect())')
        if not box[2]:
            raise Told(f'{selector} is not shown')
        return box[0], box[1]

    def click_on(self, selector: str) -> None:
        """Clicks in the middle of an element, once it is drawn where it stands."""
        self.settle()
        self.click(*self.middle(selector))

    def screenshot(self, clip: Optional[Tuple[float, float, float, float]] = None) -> bytes:
        """The window, or a part of it (left, top, width, height), as a PNG."""
        part = {'clip': dict(zip(('x', 'y', 'width', 'height'), clip), scale=1)} if clip else {}
        return base64.b64decode(self.ask('Page.captureScreenshot', format='png', **part)['data'])

    def colours(self, x: float, y: float, width: int = 1, height: int = 1) -> List[Tuple[int, int, int]]:
        """The colours of a part of the window about a place."""
        image = Image(self.screenshot((round(x) - width // 2, round(y) - height // 2, width, height)))
        return list(image.colours(1))

    def events(self, *methods: str) -> List[Dict[str, Any]]:
        """What the browser has told of this page by events of these names."""
        return [event['params'] for event in self._chromium.events
                if event.get('sessionId') == self._session and event['method'] in methods]

    def close(self) -> None:
        """Closes the tab."""
        self._chromium.ask('Target.closeTarget', targetId=self._target)
        self._path.unlink()
