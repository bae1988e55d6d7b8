"""Drives Firefox by WebDriver BiDi, over a websocket, as far as the comparison of calls needs it."""

import json
import shutil
import subprocess
import tempfile
import time

from browser import SECONDS, Socket

PORT = 19222


class Firefox:
    """A Firefox without a window, in a folder of its own."""

    def __init__(self):
        program = shutil.which("firefox-esr") or shutil.which("firefox")
        if not program:
            raise SystemExit("there is no Firefox: apt-get install -y firefox-esr")
        self.folder = tempfile.mkdtemp(prefix="firefox-")
        words = [program, "--headless", "--no-remote", "--profile", self.folder, f"--remote-debugging-port={PORT}"]
        with open(f"{self.folder}/said", "w", encoding="utf-8") as said:
            self.process = subprocess.Popen(words, stdout=subprocess.DEVNULL, stderr=said)
        self.await_listening()
        self.socket, self.number = Socket(PORT, "/session"), 0
        found = self.call("session.new", capabilities={})["capabilities"]
        self.version = f"Firefox/{found['browserVersion']}"

    def await_listening(self):
        for _ in range(10 * SECONDS):
            with open(f"{self.folder}/said", encoding="utf-8") as said:
                if "listening on" in said.read():
                    return
            time.sleep(0.1)
        raise SystemExit("Firefox does not start")

    def call(self, method, **words):
        self.number += 1
        self.socket.send(json.dumps({"id": self.number, "method": method, "params": words}))
        while True:
            answer = json.loads(self.socket.receive())
            if answer.get("id") == self.number:
                if answer["type"] == "error":
                    raise RuntimeError(f"{method}: {answer['message']}")
                return answer["result"]

    def open(self, address):
        return FirefoxPage(self, address)

    def close(self):
        self.call("browser.close")
        self.socket.close()
        self.process.wait()
        shutil.rmtree(self.folder, ignore_errors=True)


class FirefoxPage:
    def __init__(self, browser, address):
        self.browser = browser
        self.context = browser.call("browsingContext.getTree")["contexts"][0]["context"]
        browser.call("browsingContext.navigate", context=self.context, url=address, wait="complete")

    def value(self, expression):
        """What an expression comes to, once it is settled."""
        settled = f"(async () => JSON.stringify((await ({expression})) ?? null))()"
        answer = self.browser.call("script.evaluate", expression=settled, target={"context": self.context}, awaitPromise=True)
        if answer["type"] != "success":
            raise RuntimeError(answer["exceptionDetails"]["text"])
        return json.loads(answer["result"]["value"])

    def wait(self, expression, seconds=SECONDS):
        """Waits until an expression is true, and gives whether it came to that."""
        end = time.monotonic() + seconds
        while time.monotonic() < end:
            if self.value(f"Boolean({expression})"):
                return True
            time.sleep(0.05)
        return False

    def size(self, width, height):
        viewport = {"width": width, "height": height}
        self.browser.call("browsingContext.setViewport", context=self.context, viewport=viewport)

    def close(self):
        """The page goes with its browser."""
