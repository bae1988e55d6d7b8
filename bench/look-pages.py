#!/usr/bin/env python3
"""Looks at the pages of the worked examples in a browser without a window.

    bench/look-pages.py [PROGRAM] [FOLDER]

It builds nothing: PROGRAM is the built np_look, by default crates/np_look/out/np_look. Of each source in examples/ that has a page, and
of one whose strings look like a script, it asks: whether the page is well-formed (where xmllint is there); whether the browser has
nothing to complain of; whether each event is drawn and stands in its table just once and in its order; whether the lines are those of
the source; whether all letters stand inside of their picture; whether choosing an event marks it and tells of it; and whether nothing
but the page's own script runs. Pictures of each page go to FOLDER, by default a new one: as wide as a telephone and as a projector,
light and dark. It needs Python's own library and Chromium (CHROMIUM names another), and ends with 1 where something is not so.
"""

import base64
import json
import os
import select
import shutil
import subprocess
import sys
import tempfile
import time

TOP = os.path.join(os.path.dirname(os.path.abspath(__file__)), "..")
STRINGS = 'sites home ;\nmain at home =\n-- a < b & c > "d"\nprint "</script><script>alert(1)</script>"\n'
SIZES = (("telephone", 360, 740), ("projector", 1920, 1080))
SCHEMES = ("light", "dark")
MOST_DRAWN = {"high": 400, "low": 1200}

# What the browser has of a page.
FACTS = """(() => {
  const all = (query, root) => Array.from((root || document).querySelectorAll(query));
  const view = (name) => {
    const svg = document.querySelector(`.${name} svg`), frame = svg.getBoundingClientRect();
    const out = all("text", svg).filter((it) => {
      const box = it.getBoundingClientRect();
      const across = box.left < frame.left - 1 || box.right > frame.right + 1;
      return box.width > 0 && (across || box.top < frame.top - 1 || box.bottom > frame.bottom + 1);
    });
    return {
      drawn: all("circle[data-e]", svg).map((it) => Number(it.dataset.e)),
      rows: all(`tr[id^=${name[0]}]`).map((it) => it.id),
      out: out.map((it) => it.textContent),
      words: all("text", svg).length,
    };
  };
  document.getElementById("show-low").checked = true;
  const low = view("low");
  document.getElementById("show-high").checked = true;
  return JSON.stringify({
    high: view("high"),
    low,
    lines: all(".code li").map((it) => it.textContent),
    scripts: all("script").length,
    js: document.documentElement.classList.contains("js"),
    wide: document.documentElement.scrollWidth - document.documentElement.clientWidth,
  });
})()"""

# What stands there once an event is chosen.
CHOICE = """(() => {
  document.querySelector("a[href='#%s']").click();
  const told = document.querySelector(".told").textContent;
  return JSON.stringify({
    rows: Array.from(document.querySelectorAll("tr.on")).map((it) => it.id),
    circles: document.querySelectorAll("circle.on").length,
    told,
  });
})()"""


class Browser:
    """Chromium, which is told over two pipes what to do."""

    def __init__(self, program, folder):
        told, self.tell = os.pipe()
        self.heard, hear = os.pipe()

        def lay():
            os.dup2(told, 100)
            os.dup2(hear, 101)
            os.dup2(100, 3)
            os.dup2(101, 4)

        words = ["--headless=new", "--no-sandbox", "--disable-gpu", "--remote-debugging-pipe", f"--user-data-dir={folder}"]
        self.child = subprocess.Popen(
            [program, *words, "about:blank"], preexec_fn=lay, close_fds=False, stdout=subprocess.DEVNULL, stderr=subprocess.DEVNULL
        )
        os.close(told)
        os.close(hear)
        self.number, self.bytes, self.events, self.tab = 0, b"", [], None
        target = self.ask("Target.createTarget", url="about:blank")["targetId"]
        self.tab = self.ask("Target.attachToTarget", targetId=target, flatten=True)["sessionId"]
        for domain in ("Page", "Runtime", "Log"):
            self.ask(f"{domain}.enable")

    def read(self, patience=60):
        while b"\0" not in self.bytes:
            if not select.select([self.heard], [], [], patience)[0]:
                sys.exit("look-pages: the browser does not answer")
            self.bytes += os.read(self.heard, 1 << 20)
        message, self.bytes = self.bytes.split(b"\0", 1)
        return json.loads(message)

    def send(self, number, method, params):
        message = {"id": number, "method": method, "params": params}
        if self.tab:
            message["sessionId"] = self.tab
        os.write(self.tell, json.dumps(message).encode() + b"\0")

    def ask(self, method, **params):
        self.number += 1
        self.send(self.number, method, params)
        while True:
            answer = self.read()
            if answer.get("id") == self.number:
                if "error" in answer:
                    sys.exit(f"look-pages: {method}: {answer['error']}")
                return answer["result"]
            self.note(answer)

    def note(self, event):
        self.events.append(event)
        if event.get("method") == "Page.javascriptDialogOpening":
            self.send(0, "Page.handleJavaScriptDialog", {"accept": True})

    def show(self, file):
        self.events = []
        self.ask("Page.navigate", url="file://" + file)
        until = time.time() + 60
        while not any(it.get("method") == "Page.loadEventFired" for it in self.events) and time.time() < until:
            self.note(self.read())

    def complaints(self):
        found = []
        for event in self.events:
            method, params = event.get("method"), event.get("params", {})
            if method == "Runtime.consoleAPICalled":
                found.append("console: " + json.dumps(params["args"]))
            if method == "Runtime.exceptionThrown":
                found.append("exception: " + json.dumps(params["exceptionDetails"]))
            if method == "Log.entryAdded":
                found.append("log: " + params["entry"]["text"])
            if method == "Page.javascriptDialogOpening":
                found.append("a dialog opens: " + params["message"])
        return found

    def value(self, expression):
        answer = self.ask("Runtime.evaluate", expression=expression, returnByValue=True)
        if "exceptionDetails" in answer:
            sys.exit(f"look-pages: {answer['exceptionDetails']}")
        return json.loads(answer["result"]["value"])

    def dress(self, width, height, scheme):
        self.ask("Emulation.setDeviceMetricsOverride", width=width, height=height, deviceScaleFactor=1, mobile=False)
        self.ask("Emulation.setEmulatedMedia", features=[{"name": "prefers-color-scheme", "value": scheme}])

    def picture(self, file):
        data = self.ask("Page.captureScreenshot", format="png")["data"]
        with open(file, "wb") as out:
            out.write(base64.b64decode(data))

    def end(self):
        self.tab = None
        self.send(0, "Browser.close", {})
        self.child.wait(timeout=30)


def faults_of(facts, source):
    """What is not so of a page with these facts."""
    found = []
    for name in ("high", "low"):
        view, letter = facts[name], name[0]
        count = len(view["rows"])
        if view["rows"] != [f"{letter}{n}" for n in range(1, count + 1)]:
            found.append(f"{name}: rows are not in their order")
        if view["drawn"] != list(range(min(count, MOST_DRAWN[name]))):
            found.append(f"{name}: {len(view['drawn'])} marks of {count} events")
        if view["out"]:
            found.append(f"{name}: outside of the picture: {view['out'][:3]}")
    shown = "\n".join(facts["lines"])
    if source.isascii() and "\t" not in source and shown != source:
        found.append("the lines are not those of the source")
    if facts["scripts"] != 1 or not facts["js"]:
        found.append(f"{facts['scripts']} scripts, and the page's own {'ran' if facts['js'] else 'did not run'}")
    if facts["wide"] > 0:
        found.append(f"the page is {facts['wide']} px wider than the window")
    return found


def chosen_faults(browser, facts):
    """What is not so once the last event of the source is chosen."""
    if not facts["high"]["rows"]:
        return []
    last = facts["high"]["rows"][-1]
    choice = browser.value(CHOICE % last)
    found = []
    if last not in choice["rows"]:
        found.append(f"{last} is chosen, and its row is not marked")
    if len(facts["high"]["drawn"]) == len(facts["high"]["rows"]) and not choice["circles"]:
        found.append(f"{last} is chosen, and no mark is")
    if not choice["told"].strip():
        found.append(f"{last} is chosen, and nothing is told")
    return found


def look(browser, name, page, source, folder):
    """What is not so of the page of a source, of which pictures are taken."""
    found = []
    if shutil.which("xmllint"):
        lint = subprocess.run(["xmllint", "--noout", "--huge", page], stderr=subprocess.PIPE, check=False)
        if lint.returncode:
            found.append("xmllint: " + lint.stderr.decode().split("\n")[0])
    for size, width, height in SIZES:
        for scheme in SCHEMES:
            browser.dress(width, height, scheme)
            browser.show(page)
            facts = browser.value(FACTS)
            browser.picture(os.path.join(folder, f"{name}-{size}-{scheme}.png"))
            for fault in faults_of(facts, source) + chosen_faults(browser, facts) + browser.complaints():
                found.append(f"{size}, {scheme}: {fault}")
            browser.picture(os.path.join(folder, f"{name}-{size}-{scheme}-chosen.png"))
    counts = f"{len(facts['high']['rows'])} and {len(facts['low']['rows'])} events, {os.path.getsize(page)} bytes"
    print(f"{name}: {counts}: {'not well' if found else 'well'}")
    return found


def main():
    program = os.path.abspath(sys.argv[1] if len(sys.argv) > 1 else os.path.join(TOP, "crates/np_look/out/np_look"))
    folder = os.path.abspath(sys.argv[2]) if len(sys.argv) > 2 else tempfile.mkdtemp(prefix="look-pages-")
    os.makedirs(folder, exist_ok=True)
    chromium = os.environ.get("CHROMIUM") or shutil.which("chromium") or shutil.which("chromium-browser") or shutil.which("google-chrome")
    if not chromium:
        sys.exit("look-pages: there is no Chromium; CHROMIUM names another browser of its kind")
    strings = os.path.join(folder, "strings.np")
    with open(strings, "w", encoding="utf-8") as text:
        text.write(STRINGS)
    examples = os.path.join(TOP, "examples")
    sources = [strings] + sorted(os.path.join(examples, it) for it in os.listdir(examples) if it.endswith(".np"))
    profile = tempfile.mkdtemp()
    browser = Browser(chromium, profile)
    bad = False
    for source in sources:
        name = os.path.basename(source)[: -len(".np")]
        page = os.path.join(folder, name + ".html")
        with open(page, "wb") as out:
            made = subprocess.run([program, "page", source], stdout=out, stderr=subprocess.PIPE, check=False)
        if made.returncode > 1:
            print(f"{name}: no page: {made.stderr.decode().strip()}")
            os.remove(page)
            continue
        with open(source, encoding="utf-8") as text:
            for fault in look(browser, name, page, text.read(), folder):
                print(f"{name}: {fault}")
                bad = True
    browser.end()
    shutil.rmtree(profile, ignore_errors=True)
    print(f"pictures: {folder}")
    sys.exit(1 if bad else 0)


if __name__ == "__main__":
    main()
