"""A page in a browser: Debian's chromium without a window, driven by its remote debugging protocol over a WebSocket
(RFC 6455) that is opened to the loopback."""

import base64
import json
import os
import re
import shutil
import socket
import struct
import subprocess
import tempfile
import time
import urllib.request

from testing.network import Broken, Skipped

# How long the browser may take for one thing, in seconds.
PATIENCE = 30
STARTED = re.compile(rb"ws://127\.0\.0\.1:(\d+)(/\S+)")


class WebSocket:
    """A connection that sends and receives texts."""

    def __init__(self, port, path):
        self.socket = socket.create_connection(("127.0.0.1", port), PATIENCE)
        key = base64.b64encode(os.urandom(16)).decode()
        lines = (
            f"GET {path} HTTP/1.1",
            f"Host: 127.0.0.1:{port}",
            "Upgrade: websocket",
            "Connection: Upgrade",
            f"Sec-WebSocket-Key: {key}",
            "Sec-WebSocket-Version: 13",
            "",
            "",
        )
        self.socket.sendall("\r\n".join(lines).encode())
        self.stream = self.socket.makefile("rb")
        if b" 101 " not in self.stream.readline():
            raise Broken("the browser opens no WebSocket")
        while self.stream.readline() not in (b"\r\n", b""):
            pass

    def send(self, text):
        """Sends a text in one frame, masked as a client must."""
        data, mask = text.encode(), os.urandom(4)
        count = len(data)
        head = (
            bytes([0x81, 0x80 | count])
            if count < 126
            else (struct.pack(">BBH", 0x81, 0xFE, count) if count < 65_536 else struct.pack(">BBQ", 0x81, 0xFF, count))
        )
        self.socket.sendall(head + mask + bytes(byte ^ mask[place % 4] for place, byte in enumerate(data)))

    def receive(self):
        """The next text."""
        text = b""
        while True:
            first, second = self.stream.read(2)
            count = second & 127
            if count >= 126:
                count = int.from_bytes(self.stream.read(2 if count == 126 else 8), "big")
            data = self.stream.read(count)
            text += data if first & 15 in (0, 1) else b""
            if first & 0x80 and first & 15 in (0, 1):
                return text.decode()

    def close(self):
        self.stream.close()
        self.socket.close()


class Browser:
    """A browser with one page, to be used in a `with`."""

    def __init__(self, width=1280, height=900):
        program = shutil.which("chromium")
        if program is None:
            raise Skipped("chromium isn't installed")
        self.folder, self.size, self.number, self.events = (
            tempfile.mkdtemp(prefix="coap-proxyd-browser-"),
            (width, height),
            0,
            [],
        )
        words = [
            program,
            "--headless=new",
            "--no-sandbox",
            "--disable-gpu",
            "--remote-debugging-port=0",
            "--no-first-run",
            "--disable-background-networking",
            "--disable-dev-shm-usage",
            f"--user-data-dir={self.folder}",
            f"--window-size={width},{height}",
            "about:blank",
        ]
        self.errors = open(os.path.join(self.folder, "errors"), "w+b")
        self.process = subprocess.Popen(words, stdout=subprocess.DEVNULL, stderr=self.errors, start_new_session=True)

    def __enter__(self):
        port = self.port()
        straight = urllib.request.build_opener(urllib.request.ProxyHandler({}))
        with straight.open(f"http://127.0.0.1:{port}/json/list", timeout=PATIENCE) as answer:
            pages = json.load(answer)
        page = next(it for it in pages if it["type"] == "page")
        self.web_socket = WebSocket(port, page["webSocketDebuggerUrl"].split(str(port), 1)[1])
        for name in ("Page.enable", "Runtime.enable", "Network.enable", "Log.enable"):
            self.ask(name)
        return self

    def __exit__(self, *_):
        self.web_socket.close()
        self.process.terminate()
        try:
            self.process.wait(PATIENCE)
        except subprocess.TimeoutExpired:
            self.process.kill()
            self.process.wait()
        self.errors.close()
        shutil.rmtree(self.folder, ignore_errors=True)

    def port(self):
        """The port at which the browser is debugged."""
        until = time.monotonic() + PATIENCE
        while time.monotonic() < until and self.process.poll() is None:
            with open(self.errors.name, "rb") as file:
                found = STARTED.search(file.read())
            if found:
                return int(found.group(1))
            time.sleep(0.05)
        raise Broken("the browser doesn't start")

    def ask(self, method, **parameters):
        """Has the browser do something, and returns its answer. What it says meanwhile is kept."""
        self.number += 1
        self.web_socket.send(json.dumps({"id": self.number, "method": method, "params": parameters}))
        while True:
            message = json.loads(self.web_socket.receive())
            if message.get("id") == self.number:
                if "error" in message:
                    raise Broken(f"{method}: {message['error']['message']}")
                return message["result"]
            self.events.append(message)

    def open(self, path, fragment=""):
        """Opens a file, and returns after how many seconds it was loaded and drawn."""
        started = time.monotonic()
        self.ask("Page.navigate", url=f"file://{os.path.abspath(path)}{fragment}")
        self.evaluate(
            "new Promise(done => document.readyState === 'complete' ? done() : addEventListener('load', done))"
        )
        self.evaluate("new Promise(done => requestAnimationFrame(() => setTimeout(done)))")
        return time.monotonic() - started

    def evaluate(self, expression):
        """The value of an expression in the page, once it is there."""
        result = self.ask("Runtime.evaluate", expression=expression, returnByValue=True, awaitPromise=True)
        if "exceptionDetails" in result:
            raise Broken(f"{expression}: {result['exceptionDetails']}")
        return result["result"].get("value")

    def key(self, name, text=None):
        """Presses a key."""
        more = {"text": text} if text else {}
        self.ask("Input.dispatchKeyEvent", type="keyDown", key=name, **more)
        self.ask("Input.dispatchKeyEvent", type="keyUp", key=name)

    def point(self, x, y):
        """Points at a place."""
        self.ask("Input.dispatchMouseEvent", type="mouseMoved", x=x, y=y)

    def middle(self, selector):
        """Where the middle of an element is."""
        box = f"document.querySelector({json.dumps(selector)}).getBoundingClientRect()"
        return self.evaluate(f"(it => [it.x + it.width / 2, it.y + it.height / 2])({box})")

    def click(self, selector):
        """Clicks the middle of an element."""
        x, y = self.middle(selector)
        for kind in ("mousePressed", "mouseReleased"):
            self.ask("Input.dispatchMouseEvent", type=kind, x=x, y=y, button="left", clickCount=1)

    def media(self, scheme):
        """Has the reader prefer light or dark."""
        self.ask("Emulation.setEmulatedMedia", features=[{"name": "prefers-color-scheme", "value": scheme}])

    def resize(self, width, height, is_phone=False):
        """Gives the page another size."""
        self.ask("Emulation.setDeviceMetricsOverride", width=width, height=height, deviceScaleFactor=1, mobile=is_phone)

    def picture(self, path):
        """Takes a picture of what is seen."""
        data = self.ask("Page.captureScreenshot", format="png")["data"]
        with open(path, "wb") as file:
            file.write(base64.b64decode(data))

    def faults(self):
        """What the page threw, and what its policy refused."""
        self.evaluate("0")
        found = [it for it in self.events if it["method"] == "Runtime.exceptionThrown"]
        found += [
            it for it in self.events if it["method"] == "Log.entryAdded" and it["params"]["entry"]["level"] == "error"
        ]
        return found

    def requests(self):
        """The addresses of all that the page asked for."""
        names = [it["params"]["request"]["url"] for it in self.events if it["method"] == "Network.requestWillBeSent"]
        return [name for name in names if not name.startswith("file://")]
