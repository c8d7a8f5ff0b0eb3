"""Chromium without a window, by its driver's protocol (W3C WebDriver): a page is opened, clicked,
typed into and looked at. It needs Debian's `chromium` and `chromium-driver`, and nothing of Python
beside the standard library."""
from __future__ import annotations

import base64
import contextlib
import http.client
import json
import os
import shutil
import signal
import subprocess
import time
from typing import Any

from tests.support.programs import PATIENCE, free_port, until

ELEMENT = 'element-6066-11e4-a52e-4f735466cecf'  # the protocol's name of an element
FIRST = 'return document.querySelector(arguments[0])'
# What the driver answers where a page is still on its way to what is asked for.
NOT_YET = (
    'no such element',
    'stale element reference',
    'element not interactable',
    'element click intercepted',
)
KEYS = {
    'ENTER': '\ue007',
    'ESCAPE': '\ue00c',
    'RIGHT': '\ue014',
    'TAB': '\ue004',
    'BACKSPACE': '\ue003',
}


def missing() -> str | None:
    """What of a browser isn't there; None where all is."""
    lacking = [name for name in ('chromium', 'chromedriver') if shutil.which(name) is None]
    return (
        f'no {", no ".join(lacking)} here: apt install chromium chromium-driver'
        if lacking
        else None
    )


def children(number: int) -> list[int]:
    """The processes that a process has started, and those that these have started."""
    parents: dict[int, list[int]] = {}
    for name in os.listdir('/proc'):
        with contextlib.suppress(OSError, ValueError):
            with open(f'/proc/{int(name)}/stat') as file:
                parents.setdefault(int(file.read().rsplit(')', 1)[1].split()[1]), []).append(
                    int(name)
                )
    found = [number]
    for one in found:
        found += parents.get(one, [])
    return found[1:]


class Failed(AssertionError):
    """What the driver answers that is no success."""

    def __init__(self, name: str, words: str) -> None:
        super().__init__(f'{name}: {words}')
        self.name = name


class Browser:
    """A browser with one page, in colours for light or dark. `names` says where names of hosts
    lead, as Chromium's `--host-resolver-rules`."""

    def __init__(
        self,
        width: int = 1280,
        height: int = 800,
        dark: bool = False,
        mobile: bool = False,
        names: str = '',
    ) -> None:
        self.port = free_port()
        self.driver = subprocess.Popen(
            ['chromedriver', f'--port={self.port}'],
            stdout=subprocess.DEVNULL,
            stderr=subprocess.DEVNULL,
        )
        try:
            until(self._is_ready, 'the driver of the browser answers')
            arguments = [
                '--headless=new',
                '--no-sandbox',
                '--disable-gpu',
                '--disable-dev-shm-usage',
                '--hide-scrollbars',
                f'--host-resolver-rules={names}',
            ]
            options = {'args': [*arguments, f'--window-size={width},{height}']}
            wanted: dict[str, Any] = {'goog:chromeOptions': options}
            wanted |= {'goog:loggingPrefs': {'browser': 'ALL'}, 'acceptInsecureCerts': True}
            self.session = '/session/' + until(lambda: self._begin(wanted), 'the browser starts')
        except BaseException:
            self.driver.kill()
            self.driver.wait()
            raise
        milliseconds = int(1000 * PATIENCE)
        self._ask(
            'POST', self.session + '/timeouts', {'script': milliseconds, 'pageLoad': milliseconds}
        )
        size = {
            'width': width,
            'height': height,
            'deviceScaleFactor': 2 if mobile else 1,
            'mobile': mobile,
        }
        self._command('Emulation.setDeviceMetricsOverride', size)
        scheme = {'name': 'prefers-color-scheme', 'value': 'dark' if dark else 'light'}
        self._command('Emulation.setEmulatedMedia', {'features': [scheme]})

    def _is_ready(self) -> bool:
        if self.driver.poll() is not None:
            raise Failed('ended', 'the driver of the browser has ended')
        try:
            return bool(self._ask('GET', '/status')['ready'])
        except (OSError, http.client.HTTPException):
            return False

    def _begin(self, wanted: dict[str, Any]) -> str:
        """The name of a session, or nothing where the browser did not start in the time that its
        driver gives it."""
        try:
            return str(
                self._ask('POST', '/session', {'capabilities': {'alwaysMatch': wanted}})[
                    'sessionId'
                ]
            )
        except Failed as failed:
            if failed.name not in ('session not created', 'timeout'):
                raise
            return ''

    def _ask(self, method: str, path: str, body: object = None) -> Any:
        connection = http.client.HTTPConnection('127.0.0.1', self.port, timeout=600)
        try:
            data = None if body is None else json.dumps(body)
            connection.request(method, path, data, {'Content-Type': 'application/json'})
            answer = connection.getresponse()
            told = json.loads(answer.read())['value']
        finally:
            connection.close()
        if answer.status != 200:
            raise Failed(told['error'], told['message'])
        return told

    def _command(self, name: str, values: dict[str, Any]) -> None:
        self._ask('POST', self.session + '/goog/cdp/execute', {'cmd': name, 'params': values})

    def kill(self) -> None:
        """Ends the browser and its driver at once, as a crash does."""
        for number in [*children(self.driver.pid), self.driver.pid]:
            with contextlib.suppress(ProcessLookupError):
                os.kill(number, signal.SIGKILL)
        self.driver.wait(300)

    def close(self) -> None:
        """Ends the browser and its driver."""
        if self.driver.poll() is not None:
            return
        try:
            self._ask('DELETE', self.session)
        finally:
            self.driver.terminate()
            self.driver.wait(300)

    def open(self, address: str) -> None:
        """Opens a page."""
        self._ask('POST', self.session + '/url', {'url': address})

    def run(self, script: str, *values: object) -> Any:
        """What a script answers, a body of a function whose arguments are these."""
        return self._ask(
            'POST', self.session + '/execute/sync', {'script': script, 'args': list(values)}
        )

    def text(self, css: str) -> str:
        """The texts of all that is seen of what a selector names, one after the other."""
        script = (
            'return [...document.querySelectorAll(arguments[0])].filter((one) =>'
            ' one.getClientRects().length)'
        )
        return str(self.run(script + '.map((one) => one.textContent).join(" | ")', css))

    def value(self, css: str, name: str) -> str | None:
        """An attribute of the first that a selector names."""
        found: str | None = self.run(
            'return document.querySelector(arguments[0])?.getAttribute(arguments[1])', css, name
        )
        return found

    def _do(self, what: str, act: str, body: dict[str, Any], script: str, *values: object) -> None:
        """Does something with what a script answers. It is waited for, and asked for again where
        the page has put another one in its place, or does not let it be done yet."""
        ends = time.monotonic() + PATIENCE
        while True:
            try:
                found = self.run(script, *values)
                if found is None:
                    raise Failed('no such element', what)
                self._ask('POST', f'{self.session}/element/{found[ELEMENT]}/{act}', body)
                return
            except Failed as failed:
                if failed.name not in NOT_YET or time.monotonic() > ends:
                    raise
                time.sleep(0.05)

    def click(self, css: str) -> None:
        """Clicks the first that a selector names, where it is seen."""
        self._do(css, 'click', {}, FIRST, css)

    def press(self, text: str, words: str) -> None:
        """Clicks the button with a text that is seen within what a selector names."""
        script = (
            'return [...document.querySelectorAll(`${arguments[0]} button`)].find((one) =>'
            ' one.getClientRects()'
        )
        script += '.length && one.textContent.trim() === arguments[1]) ?? null'
        self._do(f'{text} in {words}', 'click', {}, script, words, text)

    def press_row(self, title: str) -> None:
        """Clicks the row of a list whose title is this."""
        script = (
            'return [...document.querySelectorAll(".rowhead")].find((one) =>'
            ' one.querySelector(".title")'
        )
        self._do(title, 'click', {}, script + '.textContent === arguments[0]) ?? null', title)

    def write(self, css: str, text: str) -> None:
        """Writes a text into a field, in place of what is there, or gives a file to it."""
        until(lambda: self.run('return document.querySelector(arguments[0]) !== null', css), css)
        if self.value(css, 'type') != 'file':
            self._do(css, 'clear', {}, FIRST, css)
        self._do(css, 'value', {'text': text}, FIRST, css)

    def keys(self, *keys: str) -> None:
        """Presses keys, each a character or a name of `KEYS`, wherever the focus is."""
        actions = []
        for key in keys:
            value = KEYS.get(key, key)
            actions += [{'type': 'keyDown', 'value': value}, {'type': 'keyUp', 'value': value}]
        body = {'actions': [{'type': 'key', 'id': 'keyboard', 'actions': actions}]}
        self._ask('POST', self.session + '/actions', body)

    def picture(self, path: str) -> bytes:
        """A picture of what is seen, as PNG, kept in a file."""
        data = base64.b64decode(self._ask('GET', self.session + '/screenshot'))
        os.makedirs(os.path.dirname(os.path.abspath(path)), exist_ok=True)
        with open(path, 'wb') as file:
            file.write(data)
        return data

    def console(self) -> list[str]:
        """The lines of the console since it was last asked, each with its level."""
        lines = self._ask('POST', self.session + '/se/log', {'type': 'browser'})
        return [f'{line["level"]} {line["message"]}' for line in lines]
