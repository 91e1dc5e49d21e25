"""A headless Chromium that is driven by its DevTools protocol, over two pipes (--remote-debugging-pipe)."""
from __future__ import annotations

import base64
import json
import os
import select
import shutil
import subprocess
import tempfile
import time
import unittest
from collections.abc import Iterator
from pathlib import Path
from types import TracebackType
from typing import Any

CHROMIUM = shutil.which('chromium') or shutil.which('chromium-browser')
needs_chromium = unittest.skipUnless(CHROMIUM, 'there is no chromium (apt-get install chromium)')
SECONDS = 120
"""So long one waits for an answer, on a machine that is busy."""
OPTIONS = (
    '--headless=new',
    '--no-sandbox',
    '--disable-gpu',
    '--disable-extensions',
    '--disable-background-networking',
    '--no-first-run',
    '--hide-scrollbars',
    '--remote-debugging-pipe',
)
PIECE = 1 << 16
Answer = dict[str, Any]


class Browser:
    """A browser with one page. What the page says of errors is kept in `errors`."""

    def __init__(self) -> None:
        asks, self.asking = os.pipe()
        self.answering, answers = os.pipe()
        self.folder = tempfile.TemporaryDirectory(ignore_cleanup_errors=True)
        words = [CHROMIUM, *OPTIONS, f'--user-data-dir={self.folder.name}', 'about:blank']
        self.process = subprocess.Popen(
            ['sh', '-c', f'exec "$@" 3<&{asks} 4>&{answers}', 'sh', *map(str, words)],
            pass_fds=(asks, answers),
            stdin=subprocess.DEVNULL,
            stdout=subprocess.DEVNULL,
            stderr=subprocess.DEVNULL,
        )
        os.close(asks)
        os.close(answers)
        self.left = b''
        self.number = 0
        self.session = ''
        self.errors: list[str] = []
        self.attach()

    def __enter__(self) -> Browser:
        return self

    def __exit__(self, kind: type[BaseException] | None, error: BaseException | None, trace: TracebackType | None) -> None:
        self.process.kill()
        self.process.wait()
        os.close(self.asking)
        os.close(self.answering)
        self.folder.cleanup()

    def attach(self) -> None:
        """Takes the page that is there."""
        pages = [one for one in self.ask('Target.getTargets')['targetInfos'] if one['type'] == 'page']
        found = self.ask('Target.attachToTarget', targetId=pages[0]['targetId'], flatten=True)
        self.session = found['sessionId']
        for domain in ('Page', 'Runtime', 'Log'):
            self.ask(f'{domain}.enable')

    def ask(self, method: str, **words: object) -> Answer:
        """What the browser answers."""
        self.number += 1
        asked = {'id': self.number, 'method': method, 'params': words}
        if self.session:
            asked['sessionId'] = self.session
        os.write(self.asking, json.dumps(asked).encode() + b'\0')
        for message in self.messages():
            if message.get('id') == self.number:
                if 'error' in message:
                    raise RuntimeError(f'{method}: {message["error"]}')
                return dict(message['result'])
        raise RuntimeError(f'{method}: the browser has ended')

    def messages(self) -> Iterator[Answer]:
        """The messages of the browser, as they come."""
        end = time.monotonic() + SECONDS
        while True:
            while b'\0' in self.left:
                text, _, self.left = self.left.partition(b'\0')
                message = json.loads(text)
                self.note(message)
                yield message
            if not select.select([self.answering], [], [], max(0, end - time.monotonic()))[0]:
                raise TimeoutError(f'the browser said nothing for {SECONDS} seconds')
            piece = os.read(self.answering, PIECE)
            if not piece:
                return
            self.left += piece

    def note(self, message: Answer) -> None:
        """Keeps what a message says of an error."""
        match message:
            case {'method': 'Runtime.exceptionThrown', 'params': {'exceptionDetails': details}}:
                self.errors.append(str(details.get('exception', {}).get('description', details['text'])))
            case {'method': 'Log.entryAdded', 'params': {'entry': {'level': 'error', 'text': text}}}:
                self.errors.append(str(text))

    def open(self, file: Path, name: str = '') -> None:
        """Opens a file, and waits until it is loaded."""
        self.errors.clear()
        self.ask('Page.navigate', url='about:blank')
        self.ask('Page.navigate', url=f'{file.resolve().as_uri()}{name}')
        self.run('new Promise(done => document.readyState === "complete" ? done() : addEventListener("load", done))')

    def run(self, script: str) -> Any:
        """What an expression comes to in the page."""
        found = self.ask('Runtime.evaluate', expression=script, returnByValue=True, awaitPromise=True)
        if 'exceptionDetails' in found:
            raise RuntimeError(f'{script}: {found["exceptionDetails"]}')
        return found['result'].get('value')

    def press(self, key: str, shift: bool = False) -> None:
        """Presses a key."""
        words = {'key': key, 'code': key, 'windowsVirtualKeyCode': KEYS[key], 'modifiers': 8 * shift}
        self.ask('Input.dispatchKeyEvent', type='keyDown', **words)
        self.ask('Input.dispatchKeyEvent', type='keyUp', **words)

    def click(self, across: float, down: float) -> None:
        for kind in ('mousePressed', 'mouseReleased'):
            self.ask('Input.dispatchMouseEvent', type=kind, x=across, y=down, button='left', clickCount=1)

    def picture(self, file: Path, width: int, height: int, theme: str) -> None:
        """Writes a picture of the page as it is then, in a window of this size."""
        self.size(width, height)
        self.ask('Emulation.setEmulatedMedia', features=[{'name': 'prefers-color-scheme', 'value': theme}])
        found = self.ask('Page.captureScreenshot', format='png')
        file.write_bytes(base64.b64decode(found['data']))

    def size(self, width: int, height: int) -> None:
        self.ask('Emulation.setDeviceMetricsOverride', width=width, height=height, deviceScaleFactor=1, mobile=False)


KEYS = {'ArrowLeft': 37, 'ArrowRight': 39, 'Home': 36, 'End': 35, 'Enter': 13, 'Tab': 9}
