"""Opens the page in a headless Firefox, which it controls with the Marionette protocol, and
checks the page:

    tests/web/page_firefox.py [PAGE]

The test is not part of the gate. It needs Debian's firefox-esr and python3. It prints a line for
each check. The status is 1 if a check fails.
"""

import contextlib
import json
import pathlib
import socket
import subprocess
import sys
import tempfile
import time
from typing import Any, Iterator

TOP = pathlib.Path(__file__).resolve().parents[2]
SECONDS = 120


class Firefox:
    """A browser that answers requests. Requests and answers are JSON messages, each preceded by
    its size.
    """

    def __init__(self, port: int) -> None:
        self.stream = connected(port)
        self.rest, self.number = b"", 0
        self.read()
        self.asks("WebDriver:NewSession")

    def read(self) -> Any:
        while b":" not in self.rest:
            self.rest += self.stream.recv(4096)
        size, _, self.rest = self.rest.partition(b":")
        while len(self.rest) < int(size):
            self.rest += self.stream.recv(65536)
        text, self.rest = self.rest[: int(size)], self.rest[int(size) :]
        return json.loads(text)

    def asks(self, name: str, **parameters: object) -> Any:
        self.number += 1
        text = json.dumps([0, self.number, name, parameters]).encode()
        self.stream.sendall(b"%d:%s" % (len(text), text))
        _, _, fault, value = self.read()
        if fault:
            raise RuntimeError(f"{name}: {fault['message']}")
        return value

    def value(self, script: str) -> Any:
        """Returns the value of a script that runs in the page, or the value of its promise."""
        words = "const done = arguments[arguments.length - 1]; Promise.resolve().then(async () => {"
        text = f"{words} {script} }}).then(done, (fault) => done(`fault: ${{fault}}`));"
        return self.asks("WebDriver:ExecuteAsyncScript", script=text, args=[])["value"]


def connected(port: int) -> socket.socket:
    """Connects as soon as the browser accepts a connection."""
    until = time.monotonic() + SECONDS
    while True:
        try:
            return socket.create_connection(("127.0.0.1", port), SECONDS)
        except ConnectionRefusedError:
            if time.monotonic() > until:
                raise
            time.sleep(0.2)


def free_port() -> int:
    with socket.create_server(("127.0.0.1", 0)) as listener:
        port: int = listener.getsockname()[1]
        return port


@contextlib.contextmanager
def browser() -> Iterator[Firefox]:
    with tempfile.TemporaryDirectory() as folder:
        port = free_port()
        preferences = pathlib.Path(folder, "user.js")
        preferences.write_text(f'user_pref("marionette.port", {port});\n')
        words = ["firefox-esr", "--headless", "--marionette", "--profile", folder]
        quiet = subprocess.DEVNULL
        with subprocess.Popen(words, stdout=quiet, stderr=quiet) as process:
            try:
                yield Firefox(port)
            finally:
                process.kill()


NOTE = "return document.getElementById('note').textContent"
PLAYED = "document.documentElement.dataset.played"
WRITTEN = """
const area = document.getElementById("text");
delete document.documentElement.dataset.played;
area.value = TEXT;
area.dispatchEvent(new Event("input"));
while (!document.documentElement.dataset.played) await new Promise((go) => setTimeout(go, 20));
"""


def written(text: str) -> str:
    return WRITTEN.replace("TEXT", json.dumps(text))


def checks(page: Firefox) -> Iterator[tuple[str, bool]]:
    ready = "while (!document.documentElement.dataset.ready) await new Promise((go) => setTimeout(go, 50));"
    yield "the device is made", page.value(f"{ready} return true") is True
    yield "an example plays", int(page.value(f"return {PLAYED} ?? 0") or 0) > 0
    note = page.value(written("do Startup 0\ndo Startup 0") + NOTE)
    yield "a script plays, and a refusal is counted", note.startswith("2 steps, 1 refused")
    fault = page.value(written("do GetRandom x") + NOTE)
    yield "a fault of a line is told", "1 line that cannot be read" in fault
    wide = "document.documentElement.scrollWidth > innerWidth"
    yield "nothing is wider than the window", page.value(f"return {wide}") is False


def main() -> int:
    address = pathlib.Path(sys.argv[1] if len(sys.argv) > 1 else TOP / "dist" / "tpmsim.html")
    is_good = True
    with browser() as page:
        page.asks("WebDriver:SetTimeouts", script=SECONDS * 1000)
        page.asks("WebDriver:Navigate", url=address.resolve().as_uri())
        for name, holds in checks(page):
            print(f"{'yes' if holds else 'NO'}: {name}")
            is_good = is_good and holds
    return 0 if is_good else 1


if __name__ == "__main__":
    sys.exit(main())
