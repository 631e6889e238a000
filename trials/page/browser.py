"""A headless Chromium, driven by its DevTools protocol over a websocket, with the standard library alone."""

import base64
import json
import os
import re
import secrets
import socket
import struct
import subprocess
import time

BUSY = max(1.0, os.getloadavg()[0] / (os.cpu_count() or 1))  # programs that wait for a processor
SECONDS = 30.0 * BUSY  # that anything may take
FLAGS = """--headless=new --no-sandbox --disable-gpu --disable-dev-shm-usage --no-first-run --no-default-browser-check
 --disable-extensions --disable-background-networking --disable-component-update --disable-sync --hide-scrollbars --mute-audio
 --remote-debugging-port=0 --window-size=1280,900""".split()
KEYS = {"Tab": 9, "Enter": 13, "Space": 32, "ArrowRight": 39, "ArrowDown": 40}
TEXT, CLOSE, PING, PONG = 1, 8, 9, 10


class Websocket:
    """A connection whose messages are texts."""

    def __init__(self, port, path):
        self._socket = socket.create_connection(("127.0.0.1", port), SECONDS)
        key = base64.b64encode(secrets.token_bytes(16)).decode()
        lines = [f"GET {path} HTTP/1.1", f"Host: 127.0.0.1:{port}", "Upgrade: websocket", "Connection: Upgrade"]
        lines += [f"Sec-WebSocket-Key: {key}", "Sec-WebSocket-Version: 13", "", ""]
        self._socket.sendall("\r\n".join(lines).encode())
        self._rest = b""
        while b"\r\n\r\n" not in self._rest:
            self._rest += self._socket.recv(1 << 16)
        head, _, self._rest = self._rest.partition(b"\r\n\r\n")
        if b" 101 " not in head.split(b"\r\n")[0]:
            raise OSError(f"no websocket: {head[:80]!r}")

    def send(self, text):
        self._frame(TEXT, text.encode())

    def _frame(self, kind, data):
        size = len(data)
        head = bytes([0x80 | kind, 0x80 | (size if size < 126 else 126 if size < 65536 else 127)])
        head += b"" if size < 126 else struct.pack(">H" if size < 65536 else ">Q", size)
        mask = secrets.token_bytes(4)
        masks = mask * (size // 4 + 1)
        masked = int.from_bytes(data, "big") ^ int.from_bytes(masks[:size], "big")
        self._socket.sendall(head + mask + masked.to_bytes(size, "big"))

    def receive(self):
        """The next message."""
        whole = b""
        while True:
            last, kind, data = self._next()
            if kind == PING:
                self._frame(PONG, data)
            elif kind == CLOSE:
                raise OSError("the browser ended the connection")
            else:
                whole += data
                if last:
                    return whole.decode()

    def _next(self):
        first, second = self._take(2)
        size = second & 127
        if size > 125:
            size = int.from_bytes(self._take(2 if size == 126 else 8), "big")
        return first & 128, first & 15, self._take(size)

    def _take(self, size):
        parts, have = [self._rest], len(self._rest)
        while have < size:
            parts.append(self._socket.recv(1 << 20))
            have += len(parts[-1])
            if not parts[-1]:
                raise OSError("the browser is gone")
        data = b"".join(parts)
        self._rest = data[size:]
        return data[:size]

    def close(self):
        self._socket.close()


class Browser:
    """A browser, whose files are in a folder. `tab` opens a tab."""

    def __init__(self, program, folder):
        self.folder = os.path.join(folder, "browser")
        words = [program, *FLAGS, f"--user-data-dir={self.folder}", "about:blank"]
        self._process = subprocess.Popen(words, stdout=subprocess.DEVNULL, stderr=subprocess.DEVNULL)
        port, path = self._port()
        self._talk = Websocket(port, path)
        self._count = 0
        self.heard = []  # what was told without being asked for

    def _port(self):
        path = os.path.join(self.folder, "DevToolsActivePort")
        until = time.monotonic() + SECONDS
        while time.monotonic() < until:
            if os.path.exists(path):
                with open(path, encoding="utf-8") as file:
                    lines = file.read().split("\n")
                if len(lines) > 1:
                    return int(lines[0]), lines[1]
            if self._process.poll() is not None:
                break
            time.sleep(0.05)
        raise OSError("the browser did not start")

    def do(self, method, session=None, **parameters):
        """Does a command of the protocol, and gives its result."""
        self._count += 1
        message = {"id": self._count, "method": method, "params": parameters}
        self._talk.send(json.dumps({**message, "sessionId": session} if session else message))
        while True:
            told = json.loads(self._talk.receive())
            if told.get("id") == self._count:
                if "error" in told:
                    raise OSError(f"{method}: {told['error'].get('message')}")
                return told["result"]
            self.heard.append(told)

    def tab(self):
        target = self.do("Target.createTarget", url="about:blank")["targetId"]
        return Tab(self, target, self.do("Target.attachToTarget", targetId=target, flatten=True)["sessionId"])

    def close(self):
        self._talk.close()
        self._process.terminate()
        try:
            self._process.wait(10)
        except subprocess.TimeoutExpired:
            self._process.kill()
            self._process.wait()


class Tab:
    """A tab of a browser."""

    def __init__(self, browser, target, session):
        self.browser, self.target, self.session = browser, target, session
        self.size(1280, 900)
        for domain in ("Page", "Runtime", "Log", "Network"):
            self.do(f"{domain}.enable")

    def do(self, method, **parameters):
        return self.browser.do(method, self.session, **parameters)

    def close(self):
        self.browser.do("Target.closeTarget", targetId=self.target)

    def open(self, link, ready="document.body && document.body.dataset.ready"):
        """Opens a link, and waits until the page is ready."""
        self.do("Page.navigate", url="about:blank")
        self.do("Page.navigate", url=link)
        self.wait(ready)

    def value(self, expression):
        """The value of an expression in the page; of a promise, what it becomes."""
        done = self.do("Runtime.evaluate", expression=expression, awaitPromise=True, returnByValue=True)
        if "exceptionDetails" in done:
            raise OSError(f"{expression[:80]}: {done['exceptionDetails'].get('exception', {}).get('description')}")
        return done["result"].get("value")

    def wait(self, expression, seconds=SECONDS):
        """Waits until an expression holds."""
        until = time.monotonic() + seconds
        while time.monotonic() < until:
            try:
                if self.value(f"Boolean({expression})"):
                    return True
            except OSError:
                pass  # the page is being replaced
            time.sleep(0.02)
        return False

    def text(self, selector):
        """The text that is shown of the first element of a selector."""
        return self.value(f"(document.querySelector({json.dumps(selector)}) || {{}}).innerText || ''")

    def middle(self, selector):
        """Where the middle of an element is, once it is in view."""
        found = self.value(
            f"(() => {{ const it = document.querySelector({json.dumps(selector)}); if (!it) return null;"
            " it.scrollIntoView({block: 'center', inline: 'center'}); const box = it.getBoundingClientRect();"
            " return [box.x + box.width / 2, box.y + box.height / 2]; })()"
        )
        if not found:
            raise OSError(f"there is no {selector}")
        return found

    def click(self, selector):
        """Clicks on an element as a person does."""
        x, y = self.middle(selector)
        for kind in ("mousePressed", "mouseReleased"):
            self.do("Input.dispatchMouseEvent", type=kind, x=x, y=y, button="left", clickCount=1)

    def press(self, key, shift=False):
        """Presses a key."""
        code = {"key": " " if key == "Space" else key, "code": key, "windowsVirtualKeyCode": KEYS[key], "modifiers": 8 if shift else 0}
        text = {"Enter": "\r", "Space": " "}.get(key)
        self.do("Input.dispatchKeyEvent", type="keyDown", **code, **({"text": text} if text else {}))
        self.do("Input.dispatchKeyEvent", type="keyUp", **code)

    def write(self, selector, text):
        """Puts a text into a field, in the place of what it has, as if it were pasted."""
        self.value(f"(() => {{ const it = document.querySelector({json.dumps(selector)}); it.focus(); it.select(); }})()")
        self.do("Input.insertText", text=text)

    def choose(self, selector, value):
        """Chooses an option of a list."""
        self.value(
            f"(() => {{ const it = document.querySelector({json.dumps(selector)}); it.value = {json.dumps(value)};"
            " it.dispatchEvent(new Event('change', {bubbles: true})); })()"
        )

    def size(self, width, height):
        self.width, self.height = width, height
        self.do("Emulation.setDeviceMetricsOverride", width=width, height=height, deviceScaleFactor=1, mobile=False)

    def colours(self, scheme):
        self.do("Emulation.setEmulatedMedia", features=[{"name": "prefers-color-scheme", "value": scheme}])

    def picture(self, path, whole=True):
        """Takes a screenshot, of the whole page if it is to."""
        width, height = self.width, self.height
        if whole:
            self.size(width, min(8000, self.value("document.documentElement.scrollHeight")))
        self.value("new Promise(done => requestAnimationFrame(() => requestAnimationFrame(() => done(0))))")
        data = self.do("Page.captureScreenshot", format="png")["data"]
        self.size(width, height)
        with open(path, "wb") as file:
            file.write(base64.b64decode(data))

    def complaints(self):
        """What the page's console was told of errors, and what was asked of other hosts."""
        self.value("1")
        own = [it for it in self.browser.heard if it.get("sessionId") == self.session]
        said = [it["params"]["exceptionDetails"]["text"] for it in own if it["method"] == "Runtime.exceptionThrown"]
        said += [it["params"]["entry"]["text"] for it in own if it["method"] == "Log.entryAdded" and it["params"]["entry"]["level"] == "error"]
        return said

    def asked(self):
        """All addresses that the page asked for."""
        own = [it for it in self.browser.heard if it.get("sessionId") == self.session]
        return [it["params"]["request"]["url"] for it in own if it["method"] == "Network.requestWillBeSent"]


def is_here(link, address):
    """Whether a link leads to an address."""
    return bool(re.match(re.escape(f"http://{address}/"), link)) or link.startswith(("about:", "blob:", "data:"))
