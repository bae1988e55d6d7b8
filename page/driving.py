"""The page used as a person uses it: each function does something with it and says what holds then."""

import http.server
import os
import subprocess
import threading
import time

from browser import CONTROL, SHIFT
from checks import HERE, PAGE, holds, opened

PICTURES = os.path.join(HERE, "out", "pictures")
TOP = os.path.dirname(HERE)
# A source and a history whose texts try to be markup.
HOSTILE = 'sites home ; main at home = print "</script><script>document.title = 1</script><img src=x onerror=alert(1)>"'
HOSTILE_HISTORY = "history 1\n0 Fork <img src=x onerror=alert(1)> - 0 Infra 0.0 -\n</pre><script>document.title = 1</script>\nend\n"
STRANGE = "document.querySelectorAll('img, iframe, main script, footer script, header script').length"
TREE = "document.querySelector('.shown').shadowRoot"
MARKS = f"[...{TREE}.querySelectorAll('circle[data-e]')].map((it) => Number(it.dataset.e))"


def element(name):
    return f"document.getElementById('{name}')"


def text_of(page, name):
    return page.value(f"{element(name)}.innerText")


def printed(page):
    return text_of(page, "printed")


def told(page):
    return text_of(page, "told")


def chosen(page):
    return text_of(page, "chosen")


def idle(page, seconds=60):
    return page.wait("document.body.getAttribute('aria-busy') !== 'true'", seconds)


def write_source(page, text):
    page.value("source.focus()")
    page.press("a", CONTROL)
    page.write(text)


def run_it(page):
    idle(page)
    page.press("Enter", CONTROL)
    page.wait("document.body.getAttribute('aria-busy') === 'false'")


def verdict(page, name):
    return page.wait(f"verdict.classList.contains('{name}')", 20)


def choose(page, name, value):
    page.value(f"(() => {{ {name}.value = '{value}'; {name}.dispatchEvent(new Event('change', {{ bubbles: true }})); }})()")


def choose_example(page, name):
    choose(page, "example", name)
    verdict(page, "well")


def choose_level(page, name):
    page.value(f"document.querySelector('input[value={name}]').click()")


def open_tab(page, name):
    page.click(element(f"tab-{name}"))
    idle(page)


def count_of(query):
    return f"{TREE}.querySelectorAll('{query}').length"


def until(page, expression, seconds=20):
    return page.wait(f"document.querySelector('.shown') && {expression}", seconds)


# ---- writing


def drive_writing(page):
    holds("the first source is well typed", verdict(page, "well"))
    write_source(page, "sites home ;\nmain at home =\nprint six")
    holds("a fault is found while one types", verdict(page, "refused") and "Unbound" in text_of(page, "verdict"))
    holds("its token is marked", page.value("document.querySelector('.bad').textContent") == "six")
    low = page.value("verdict.getBoundingClientRect().top - why.getBoundingClientRect().bottom")
    holds("and above the foot", low >= 0, low)
    gap = page.value("why.getBoundingClientRect().top - document.querySelector('.bad').getBoundingClientRect().bottom")
    holds("what np_look says stands under the token", 0 <= gap < 20 and "six" in text_of(page, "why"), gap)
    page.picture(f"{PICTURES}/fault-1280.png")
    page.click("explain")
    holds("a refusal is explained", page.wait("explained.innerText.includes('12 Unbound')", 20), text_of(page, "explained"))
    page.picture(f"{PICTURES}/explained-1280.png")
    drive_marks(page)
    write_source(page, "sites home ;\nmain at home =\nprint 7")
    holds("a mended source is well typed", verdict(page, "well") and page.value("why.hidden && explain.hidden"))
    run_it(page)
    holds("Ctrl and Enter run it", "home: 7" in printed(page) and "At rest" in printed(page), printed(page))


def drive_marks(page):
    """The marks of np_look, which counts columns as a terminal has them, stand under the right words of the source."""
    tries = (
        ('\tprint ["漢字 ü \u202e" nobody]', "nobody", ""),
        ("new c : ^Int in\nc!true", "true", "Int"),
        ("new c : ^[Int Bool] in c?[x y z] -> print x", "[x y z]", "[Int Bool]"),
        ("(print 1 | print 22", "2", "("),
        (f'print "{"x" * 200}" + 1', '"' + 87 * "x", "+"),
    )
    for text, bad, also in tries:
        write_source(page, f"sites home ;\nmain at home =\n{text}")
        page.wait("document.querySelector('.bad')", 20)
        both = "['.bad', '.also'].map((it) => [...document.querySelectorAll(it)].map((part) => part.textContent).join(''))"
        marked = page.value(both)
        holds(f"the right words are marked: {bad[:20]}", marked == [bad, also], marked)


def drive_hostile(page, room):
    write_source(page, HOSTILE)
    verdict(page, "well")
    run_it(page)
    holds("markup in a source stays text", "<img src=x" in printed(page) and page.value(STRANGE) == 0)
    open_tab(page, "picture")
    holds("in its picture too", until(page, count_of("script, img") + " === 0"))
    open_tab(page, "events")
    page.click("document.querySelector('#events tbody tr')")
    holds("and where an event is told", "<img src=x" in chosen(page) and page.value(STRANGE) == 0, chosen(page))
    open_tab(page, "low")
    low = text_of(page, "low")
    holds("and in the low text", "<img src=x" in low and page.value(STRANGE) == 0, low[:200])
    file = f"{room}/<img src=x onerror=alert(1)>.history"
    with open(file, "w", encoding="utf-8") as text:
        text.write(HOSTILE_HISTORY)
    page.choose_file("#file", file)
    page.wait("told.innerText.includes('HistSyntax')", 20)
    holds("and in a history and its name", "<img src=x" in told(page) and page.value(STRANGE) == 0, told(page))
    holds("what is no history is shown as it is", "</script>" in text_of(page, "history"), text_of(page, "history"))
    holds("the title of the page is its own", page.value("document.title").startswith("np"))
    page.click("drop")
    open_tab(page, "printed")


# ---- runs and pictures


def drive_picture(page):
    choose_example(page, "letter.np")
    run_it(page)
    holds("the letter comes", "far: 5" in printed(page), printed(page))
    page.value(f"{element('tab-printed')}.focus()")
    page.press("ArrowRight")
    drawn = page.wait("document.querySelector('.shown')", 20)
    holds("an arrow key opens the picture", drawn and page.value("document.body.dataset.tab") == "picture")
    holds("each event of the source has one mark", page.value(f"{MARKS}.sort((a, b) => a - b)") == list(range(7)), page.value(MARKS))
    page.value("picture.focus()")
    for _ in range(5):
        page.press("ArrowDown")
    holds("an arrow key follows an event", "Event 5 of 7" in chosen(page) and "far" in chosen(page), chosen(page))
    holds("its words in the source are marked", page.value("document.querySelector('.picked')?.textContent") == "migrate")
    page.picture(f"{PICTURES}/event-1280.png")
    page.press("Escape")
    holds("Esc ends it", page.value("chosen.hidden && !document.querySelector('#lines .picked')"))
    page.click(f"{TREE}.querySelector('circle[data-e=\"6\"]')")
    holds("a click chooses an event", "Event 7 of 7" in chosen(page) and "print x" in chosen(page), chosen(page))
    choose_level(page, "low")
    holds("the level of the sites has its events", until(page, count_of("circle[data-e]") + " === 75"))
    open_tab(page, "events")
    holds("a table has them too", page.value("document.querySelectorAll('#events tbody tr').length") == 75)
    page.click("document.querySelector('#events tr[data-number=\"48\"]')")
    holds("a row of it chooses an event", "Event 49 of 75" in chosen(page), chosen(page))
    open_tab(page, "picture")
    choose_level(page, "both")
    holds("both levels stand side by side", until(page, count_of("circle[data-e]") + " === 82"))
    page.click(f"[...{TREE}.querySelectorAll('circle[data-e=\"6\"]')][0]")
    holds("an event of the source is chosen at the left", "Event 7 of 7" in chosen(page), chosen(page))
    page.picture(f"{PICTURES}/both-1280.png")
    choose_level(page, "high")


def drive_caches(page, programs):
    choose_example(page, "shop.np")
    choose(page, "infrastructure", "cache")
    run_it(page)
    holds("the shop runs with caches", "no such item" in printed(page) and "At rest" in printed(page), printed(page))
    open_tab(page, "picture")
    holds("its picture has the source's events", until(page, count_of("circle[data-e]") + " > 10"))
    open_tab(page, "low")
    words = [programs["np"], "low", "shop.np", "--infra", "cache"]
    wanted = subprocess.run(words, cwd=os.path.join(TOP, "examples"), capture_output=True, text=True, check=False).stdout
    holds("its low text is that with caches", wanted and page.value("low.textContent") == wanted, text_of(page, "low")[:120])
    open_tab(page, "history")
    page.click("replay")
    holds("and its history is replayed", page.wait("told.innerText.includes('a run of')", 20), told(page))
    choose(page, "infrastructure", "central")
    open_tab(page, "printed")


def drive_long(page):
    """A run of many events: a part of it is drawn, and another one."""
    choose_example(page, "ring-10.np")
    run_it(page)
    choose_level(page, "low")
    open_tab(page, "picture")
    holds("of a long run a part is drawn", until(page, count_of("circle[data-e]") + " === 1000"))
    choose(page, "from", "1001")
    number = f"Number({TREE}.querySelector('text.number').textContent)"
    holds("and another one", until(page, f"{number} > 1000"))
    page.value("picture.focus()")
    page.press("ArrowDown")
    holds("whose events have their numbers", f"Event {page.value(number)} of 7015" in chosen(page), [page.value(number), chosen(page)])
    page.picture(f"{PICTURES}/long-1280.png")
    choose_level(page, "both")
    holds("of both levels it is too long", page.wait("picture.innerText.includes('short runs')", 20), text_of(page, "picture"))
    choose_level(page, "high")
    open_tab(page, "printed")


def drive_seeds(page):
    choose_example(page, "choice.np")
    choose(page, "course", "runs")
    run_it(page)
    text = printed(page)
    holds("a hundred runs by seeds print both values", "home: 1" in text and "home: 2" in text and "100 runs, 2 outputs" in text, text)
    page.picture(f"{PICTURES}/runs-1280.png")
    page.click("document.querySelectorAll('.group button')[0]")
    idle(page)
    page.wait("document.querySelectorAll('.group button').length === 0", 20)
    first = printed(page)
    holds("a button makes the run of its seed", first.count("home: ") == 1 and page.value("course.value") == "seed", first)
    open_tab(page, "history")
    page.click("replay")
    holds("whose history np replays", page.wait("told.innerText.includes('a run of')", 20), told(page))
    page.click("resume")
    holds("and resumes", page.wait("told.innerText.includes('At rest')", 20), told(page))
    choose(page, "course", "seed-high")
    seeded = set()
    for seed in ("1", "2", "3", "4", "5", "6"):
        choose(page, "seed", seed)
        run_it(page)
        seeded.add(page.value("document.querySelector('#printed li').textContent"))
    holds("runs of the source by seeds differ", seeded == {"home: 1", "home: 2"}, seeded)
    open_tab(page, "picture")
    holds("and have pictures", until(page, count_of("circle[data-e]") + " > 2"))
    page.picture(f"{PICTURES}/seed-1280.png")
    choose_level(page, "low")
    holds("of the source alone", page.wait("picture.innerText.includes('source alone')", 20), text_of(page, "picture"))
    choose_level(page, "high")
    choose(page, "course", "high")
    run_it(page)
    holds("a run at the high level has no picture", page.wait("picture.innerText.includes('no picture')", 20), text_of(page, "picture"))
    choose(page, "course", "sites")
    open_tab(page, "printed")


# ---- histories and links


def saved(browser, page, room, name):
    browser.call("Browser.setDownloadBehavior", behavior="allow", downloadPath=room)
    page.click("save")
    for _ in range(100):
        if os.path.exists(f"{room}/{name}") and os.path.getsize(f"{room}/{name}"):
            break
        time.sleep(0.05)
    return f"{room}/{name}"


def cut(file, events, room):
    """A file with the first events of a history."""
    with open(file, encoding="utf-8") as whole, open(f"{room}/cut.history", "w", encoding="utf-8") as part:
        part.writelines([*whole.readlines()[: events + 1], "end\n"])
    return f"{room}/cut.history"


def drive_history(browser, page, programs, room):
    choose_example(page, "letter.np")
    run_it(page)
    file = saved(browser, page, room, "letter.history")
    example = os.path.join(TOP, "examples")
    ran = subprocess.run([programs["np"], "replay", "letter.np", file], cwd=example, capture_output=True, text=True, check=False)
    holds("a history is saved, and np replays it", ran.stdout == "far: 5\na run of 75 events\n", ran.stdout + ran.stderr)
    page.choose_file("#file", cut(file, 40, room))
    holds("a part of it is opened and replayed", page.wait("told.innerText.includes('a run of 40 events')", 20), told(page))
    page.click("resume")
    holds("and resumed", page.wait("told.innerText.includes('far: 5')", 20), told(page))
    page.click("past")
    holds("the past of its line is shown", page.wait("told.innerText.includes('past of 69 events')", 20), told(page))
    page.picture(f"{PICTURES}/history-1280.png")
    choose_level(page, "low")
    open_tab(page, "picture")
    holds("all else is pale in the picture", until(page, count_of("circle.pale") + " === 6"), page.value(count_of("circle.pale")))
    page.picture(f"{PICTURES}/past-1280.png")
    page.click("whole")
    holds("until all is asked for", until(page, count_of("circle.pale") + " === 0"))
    choose_level(page, "high")
    page.value("line.value = 2")
    open_tab(page, "history")
    page.click("past")
    holds("a line that was not printed is told", page.wait("told.innerText.includes('NoLine')", 20), told(page))
    page.value("line.value = 1")
    page.click("replay")
    holds("a resumed history is replayed", page.wait("told.innerText.includes('a run of 75 events')", 20), told(page))
    with open(f"{room}/bad.history", "w", encoding="utf-8") as bad:
        bad.write("history 1\n0 Print 2.11 - 5 Plain - -\nend\n")
    page.choose_file("#file", f"{room}/bad.history")
    holds("a history that is no run is told", page.wait("told.innerText.includes('NotARun')", 20), told(page))
    page.click("drop")
    drive_cached_history(browser, page, room)


def drive_cached_history(browser, page, room):
    choose(page, "infrastructure", "cache")
    run_it(page)
    os.remove(f"{room}/letter.history")
    file = saved(browser, page, room, "letter.history")
    page.choose_file("#file", cut(file, 50, room))
    holds("a part of one with caches is replayed", page.wait("told.innerText.includes('a run of 50 events')", 20), told(page))
    page.click("resume")
    holds("and resumed with caches", page.wait("told.innerText.includes('far: 5')", 20), told(page))
    page.click("past")
    holds("and has the past of a line", page.wait("told.innerText.includes('past of')", 20), told(page))
    page.click("drop")
    choose(page, "infrastructure", "central")


def drive_link(browser, page):
    text = 'sites home ;\nmain at home = print "ü <b> 漢"'
    write_source(page, text)
    verdict(page, "well")
    page.click("copy")
    page.wait("location.hash.length > 10", 20)
    other = opened(browser, page.value("location.hash"))
    holds("a link holds the source", other.value("source.value") == text, other.value("source.value"))
    other.value("location.hash = '#source=____'")
    broken = other.wait("document.getElementById('status').innerText.includes('no source')", 5)
    holds("a broken link is told, and nothing is lost", broken and other.value("source.value") == text)
    other.close()


# ---- time


GAPS = """(() => {
  globalThis.gap = 0;
  let last = performance.now();
  globalThis.ticks = setInterval(() => {
    globalThis.gap = Math.max(globalThis.gap, performance.now() - last);
    last = performance.now();
  }, 10);
})()"""
# A source whose two agents never rest, and print.
ENDLESS = """sites home far ;
main at home =
new c : ^Int in
agent b = migrate to far -> (c!0 | *c?x -> (print x | c!x + 1)) in
(c!0 | *c?x -> (print x | c!x + 1))"""


def drive_stop(page):
    choose_example(page, "ring-100.np")
    page.value("budget.value = 200000")
    page.value("run.click()")
    holds("the page answers while a long run is made", page.wait(f"!{element('stop')}.hidden", 2))
    page.click(element("stop"))
    holds("which Stop ends", page.wait("printed.innerText.includes('Stopped')", 5), printed(page)[:200])
    run_it(page)
    again = page.wait("printed.innerText.includes('s0: 999')", 60)
    holds("and which can be made again", again, printed(page)[-200:])


def drive_largest(page):
    """The largest budget: the page answers all the time."""
    write_source(page, ENDLESS)
    verdict(page, "well")
    page.value(GAPS)
    begun = time.monotonic()
    run_it(page)
    idle(page, 120)
    holds("a run of the largest budget is shown", "The budget is spent" in printed(page), printed(page)[-200:])
    events = text_of(page, "tab-events")
    took = time.monotonic() - begun
    choose_level(page, "low")
    open_tab(page, "picture")
    until(page, count_of("circle[data-e]") + " > 0", 60)
    gap = page.value("(() => { clearInterval(globalThis.ticks); return Math.round(globalThis.gap); })()")
    print(f"  {events.split()[-1]} events of the source by the largest budget: {took:.1f} s; the page answered within {gap} ms")
    holds("and the page never waits long", gap < 2500, gap)
    choose_level(page, "high")
    page.value("budget.value = 10000")
    open_tab(page, "printed")


# ---- what is let in


def drive_policy(page):
    holds("no code of a text is run", page.value("(() => { try { eval('1'); return false; } catch { return true; } })()"))
    put = "const it = document.createElement('script'); it.textContent = 'globalThis.strange = 1'; document.body.append(it);"
    holds("no script but its own is run", page.value(f"(() => {{ {put} it.remove(); return globalThis.strange === undefined; }})()"))
    fetched = "fetch('https://example.org/').then(() => false, () => true)"
    holds("the page calls nobody", page.value(fetched))
    image = "const it = new Image(); it.onload = () => settle(false); it.onerror = () => settle(true); it.src = 'https://example.org/i.png'"
    holds("no picture from elsewhere is shown", page.value(f"new Promise((settle) => {{ {image} }})"))
    worker = "try { new Worker('https://example.org/w.js').onerror = () => settle(true); } catch { settle(true); }"
    holds("no worker from elsewhere is run", page.value(f"new Promise((settle) => {{ {worker} }})"))
    put = "const it = document.createElement('style'); it.textContent = 'body{opacity:0}'; document.head.append(it);"
    faint = page.value(f"(() => {{ {put} const is = getComputedStyle(document.body).opacity; it.remove(); return is; }})()")
    holds("no style but its own counts", faint == "1", faint)
    sent = [it["request"]["url"][:60] for it in page.said("Network.requestWillBeSent")]
    holds("nothing was asked of a network", all(it.startswith(("file:", "blob:", "data:")) for it in sent if "example.org" not in it), sent)


class Served(http.server.SimpleHTTPRequestHandler):
    asked = []

    def __init__(self, *words):
        super().__init__(*words, directory=os.path.join(HERE, "out"))

    def log_message(self, _form, *words):
        Served.asked.append(words[0])


def drive_served(browser):
    """The page from a server that hands out files."""
    server = http.server.ThreadingHTTPServer(("127.0.0.1", 0), Served)
    threading.Thread(target=server.serve_forever, daemon=True).start()
    page = opened(browser, address=f"http://127.0.0.1:{server.server_port}/index.html")
    run_it(page)
    holds("the page runs from a server", "far: 5" in printed(page), printed(page))
    holds("which is asked for it alone", Served.asked == ["GET /index.html HTTP/1.1"], Served.asked)
    page.close()
    server.shutdown()


def drive_without(browser):
    """In a browser without a memory of 64 bits the page says so."""
    page = browser.open("about:blank")
    lacking = "WebAssembly.compile = () => Promise.reject(new WebAssembly.CompileError('memory64'))"
    page.call("Page.addScriptToEvaluateOnNewDocument", source=lacking)
    page.size(1280, 860)
    page.call("Page.navigate", url=PAGE)
    said = page.wait("document.body?.dataset.ready === 'no'", 20) and page.value("printed.innerText")
    holds("a browser that lacks something is told what", "64-bit memory" in (said or ""), said)
    page.close()


def drive_claims(page):
    words = page.value("document.querySelector('footer p').innerText").replace("\n", " ")
    sentences = [it for it in words.split(". ") if it]
    is_so = "is proved of the program itself" in sentences[0] and "tested only" in sentences[1]
    holds("what the page may claim stands on it in two sentences", len(sentences) == 2 and is_so, words)


# ---- keys


def tab_to(page, place, modifiers=0):
    """Presses the Tab key until what an expression says of the focus holds."""
    for _ in range(40):
        page.press("Tab", modifiers)
        if page.value(f"Boolean((({{ id, name, tagName }}) => {place})(document.activeElement))"):
            return True
    return False


def drive_by_keys(page):
    """A source is chosen, run and looked at with no pointer."""
    page.value("document.activeElement.blur()")
    before = page.value("example.value")
    holds("Tab comes to the examples", tab_to(page, "id === 'example'"))
    page.press("ArrowDown")
    holds("an arrow key chooses another", page.value("example.value") != before and verdict(page, "well"))
    choose_example(page, "letter.np")
    holds("Tab comes to Run", tab_to(page, "id === 'run'"))
    page.press("Enter")
    holds("Enter runs the source", page.wait("printed.innerText.includes('far: 5')", 20), printed(page))
    holds("Tab comes to the views", tab_to(page, "id === 'tab-printed'"))
    page.press("ArrowRight")
    holds("an arrow key opens the picture", page.wait("document.querySelector('.shown')", 20))
    holds("Tab comes to the levels", tab_to(page, "name === 'level'"))
    page.press("ArrowRight")
    holds("an arrow key shows the sites", until(page, count_of("circle[data-e]") + " === 75"))
    holds("Tab comes to the picture", tab_to(page, "id === 'picture'"))
    page.press("ArrowDown")
    holds("an arrow key chooses an event", "of 75" in chosen(page), chosen(page))
    page.press("Escape")
    holds("Shift and Tab go back to the views", tab_to(page, "id === 'tab-picture'", SHIFT))
    page.press("ArrowRight")
    holds("Tab comes to a row of the table", tab_to(page, "tagName === 'BUTTON' && document.activeElement.closest('td')"))
    page.press("Enter")
    holds("and Enter chooses its event", "Event 1 of 75" in chosen(page), chosen(page))
    choose_level(page, "high")
    open_tab(page, "printed")
    drive_history_by_keys(page)


def drive_history_by_keys(page):
    page.value(f"{element('tab-history')}.click()")
    page.value(f"{element('tab-history')}.focus()")
    holds("Tab comes to Replay", tab_to(page, "id === 'replay'"))
    page.press("Enter")
    holds("and Enter replays the history", page.wait("told.innerText.includes('a run of 75 events')", 20), told(page))
    holds("Tab comes to Past", tab_to(page, "id === 'past'"))
    page.press("Enter")
    holds("and Enter shows the past of a line", page.wait("told.innerText.includes('past of 69 events')", 20), told(page))
    write_source(page, "sites home ;\nmain at home =\nprint six")
    verdict(page, "refused")
    holds("Tab leaves the editor for Explain", tab_to(page, "id === 'explain'"))
    page.press("Enter")
    holds("and Enter explains the refusal", page.wait("explained.innerText.includes('12 Unbound')", 20))
    choose_example(page, "letter.np")
    open_tab(page, "printed")


def drive(browser, programs, room):
    page = opened(browser)
    drive_claims(page)
    drive_by_keys(page)
    drive_writing(page)
    drive_hostile(page, room)
    drive_picture(page)
    drive_caches(page, programs)
    drive_long(page)
    drive_history(browser, page, programs, room)
    drive_link(browser, page)
    drive_seeds(page)
    drive_stop(page)
    drive_largest(page)
    drive_policy(page)
    drive_served(browser)
    drive_without(browser)
    return page
