"""Drives Chromium by its DevTools protocol, over a websocket: Python's own library is all that it needs."""

import base64
import json
import os
import shutil
import socket
import struct
import subprocess
import tempfile
import time

SECONDS = 120
KEYS = {
    "Enter": ("Enter", 13, "\r"),
    "Tab": ("Tab", 9, None),
    "Escape": ("Escape", 27, None),
    "ArrowDown": ("ArrowDown", 40, None),
    "ArrowUp": ("ArrowUp", 38, None),
    "ArrowRight": ("ArrowRight", 39, None),
    "ArrowLeft": ("ArrowLeft", 37, None),
    "a": ("KeyA", 65, None),
}
CONTROL = 2
SHIFT = 8


class Socket:
    """A websocket, whose messages are texts."""

    def __init__(self, port, path):
        self.socket = socket.create_connection(("127.0.0.1", port), SECONDS)
        key = base64.b64encode(os.urandom(16)).decode()
        head = f"GET {path} HTTP/1.1\r\nHost: 127.0.0.1:{port}\r\nUpgrade: websocket\r\nConnection: Upgrade\r\n"
        self.socket.sendall(f"{head}Sec-WebSocket-Key: {key}\r\nSec-WebSocket-Version: 13\r\n\r\n".encode())
        self.stream = self.socket.makefile("rb")
        while self.stream.readline().strip():
            pass

    def send(self, text):
        data, mask = text.encode(), os.urandom(4)
        length = len(data)
        if length < 126:
            head = struct.pack("!BB", 0x81, 0x80 | length)
        elif length < 65536:
            head = struct.pack("!BBH", 0x81, 0xFE, length)
        else:
            head = struct.pack("!BBQ", 0x81, 0xFF, length)
        masks = (mask * (length // 4 + 1))[:length]
        masked = (int.from_bytes(data, "big") ^ int.from_bytes(masks, "big")).to_bytes(length, "big") if length else b""
        self.socket.sendall(head + mask + masked)

    def receive(self):
        text = b""
        while True:
            first, second = self.stream.read(2)
            length = second & 127
            if length == 126:
                (length,) = struct.unpack("!H", self.stream.read(2))
            elif length == 127:
                (length,) = struct.unpack("!Q", self.stream.read(8))
            part = self.stream.read(length)
            if first & 15 < 8:
                text += part
                if first & 128:
                    return text.decode()

    def close(self):
        self.socket.close()


class Browser:
    """A Chromium without a window, in a folder of its own."""

    def __init__(self):
        program = shutil.which("chromium") or shutil.which("chromium-browser") or shutil.which("google-chrome")
        if not program:
            raise SystemExit("there is no Chromium: apt-get install -y chromium")
        self.folder = tempfile.mkdtemp(prefix="browser-")
        words = [program, "--headless=new", "--no-sandbox", "--disable-gpu", "--hide-scrollbars", "--disable-dev-shm-usage"]
        words += ["--remote-debugging-port=0", f"--user-data-dir={self.folder}", "--no-first-run", "about:blank"]
        self.process = subprocess.Popen(words, stdout=subprocess.DEVNULL, stderr=subprocess.DEVNULL)
        port, path = self.address()
        self.socket, self.number, self.events = Socket(port, path), 0, []
        self.version = self.call("Browser.getVersion")["product"]

    def address(self):
        file = f"{self.folder}/DevToolsActivePort"
        for _ in range(10 * SECONDS):
            if os.path.exists(file):
                with open(file, encoding="utf-8") as text:
                    lines = text.read().split("\n")
                if len(lines) == 2:
                    return int(lines[0]), lines[1]
            time.sleep(0.1)
        raise SystemExit("Chromium does not start")

    def call(self, method, tab=None, **words):
        self.number += 1
        message = {"id": self.number, "method": method, "params": words}
        if tab:
            message["sessionId"] = tab
        self.socket.send(json.dumps(message))
        while True:
            answer = json.loads(self.socket.receive())
            if answer.get("id") == self.number:
                if "error" in answer:
                    raise RuntimeError(f"{method}: {answer['error']['message']}")
                return answer["result"]
            if "method" in answer:
                self.events.append(answer)

    def open(self, address):
        return Page(self, address)

    def close(self):
        self.socket.close()
        self.process.terminate()
        self.process.wait()
        shutil.rmtree(self.folder, ignore_errors=True)


class Page:
    """A page of a browser, with what a person does to it."""

    def __init__(self, browser, address):
        self.browser = browser
        self.target = browser.call("Target.createTarget", url="about:blank")["targetId"]
        self.tab = browser.call("Target.attachToTarget", targetId=self.target, flatten=True)["sessionId"]
        for domain in ("Page", "Runtime", "Log", "Network", "DOM"):
            self.call(f"{domain}.enable")
        self.call("Page.navigate", url=address)

    def call(self, method, **words):
        return self.browser.call(method, self.tab, **words)

    def value(self, expression):
        """What an expression comes to, once it is settled."""
        how = {"awaitPromise": True, "returnByValue": True, "allowUnsafeEvalBlockedByCSP": False}
        answer = self.call("Runtime.evaluate", expression=expression, **how)
        if "exceptionDetails" in answer:
            details = answer["exceptionDetails"]
            raise RuntimeError(details.get("exception", {}).get("description") or details["text"])
        return answer["result"].get("value")

    def wait(self, expression, seconds=SECONDS):
        """Waits until an expression is true, and gives whether it came to that."""
        end = time.monotonic() + seconds
        while time.monotonic() < end:
            if self.value(f"Boolean({expression})"):
                return True
            time.sleep(0.05)
        return False

    def size(self, width, height, dark=False):
        mobile = width < 600
        self.call("Emulation.setDeviceMetricsOverride", width=width, height=height, deviceScaleFactor=2 if mobile else 1, mobile=mobile)
        scheme = "dark" if dark else "light"
        self.call("Emulation.setEmulatedMedia", features=[{"name": "prefers-color-scheme", "value": scheme}])

    def picture(self, file):
        data = self.call("Page.captureScreenshot", format="png")["data"]
        with open(file, "wb") as image:
            image.write(base64.b64decode(data))

    def press(self, key, modifiers=0):
        code, number, text = KEYS[key]
        words = {"key": key, "code": code, "windowsVirtualKeyCode": number, "modifiers": modifiers}
        commands = ["selectAll"] if key == "a" and modifiers == CONTROL else []
        given = {"text": text} if text and not modifiers else {}
        self.call("Input.dispatchKeyEvent", type="keyDown", commands=commands, **words, **given)
        self.call("Input.dispatchKeyEvent", type="keyUp", **words)

    def write(self, text):
        self.call("Input.insertText", text=text)

    def click(self, place):
        """Clicks in the middle of what an expression gives."""
        shown = f"const it = {place}; it.scrollIntoView({{block: 'center', inline: 'center'}}); const box = it.getBoundingClientRect();"
        x, y = self.value(f"(() => {{ {shown} return [box.left + box.width / 2, box.top + box.height / 2]; }})()")
        for kind in ("mousePressed", "mouseReleased"):
            self.call("Input.dispatchMouseEvent", type=kind, x=x, y=y, button="left", clickCount=1)

    def choose_file(self, selector, file):
        root = self.call("DOM.getDocument")["root"]["nodeId"]
        node = self.call("DOM.querySelector", nodeId=root, selector=selector)["nodeId"]
        self.call("DOM.setFileInputFiles", nodeId=node, files=[file])

    def said(self, *methods):
        """What the browser told of this page by such events."""
        self.value("0")
        return [it["params"] for it in self.browser.events if it.get("sessionId") == self.tab and it["method"] in methods]

    def close(self):
        self.browser.call("Target.closeTarget", targetId=self.target)
