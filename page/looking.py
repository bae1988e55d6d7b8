"""How the page looks: names and order of its controls, widths, contrast, and pictures of it for people to look at."""

import time

from checks import holds
from driving import PICTURES, TREE, choose, choose_example, choose_level, element, idle, run_it, verdict, write_source

WIDTHS = ((360, 740), (1280, 860), (1920, 1080))
TABS = ("source", "printed", "picture", "events", "low", "history")
NAMED = ("button", "tab", "textbox", "combobox", "radio", "spinbutton", "tabpanel", "group", "image", "link")

# How much longer the text of the editor is than its coloured lines, where it is to be seen.
DRIFT = """(() => {
  if (lines.offsetParent === null) return null;
  const heights = [...lines.children].map((line) => line.getBoundingClientRect().height);
  source.style.height = '0px';
  const long = source.scrollHeight;
  source.style.height = '';
  return long - heights.reduce((a, b) => a + b, 20);
})()"""

# Texts whose colour is too near to that of what is behind them: 4.5 to 1 is asked for, and 3 to 1 of large ones.
FAINT = """(() => {
  const parts = (color) => {
    const canvas = globalThis.canvas ??= new OffscreenCanvas(1, 1).getContext('2d', { willReadFrequently: true });
    canvas.clearRect(0, 0, 1, 1);
    canvas.fillStyle = color;
    canvas.fillRect(0, 0, 1, 1);
    return [...canvas.getImageData(0, 0, 1, 1).data];
  };
  const light = (color) => {
    const [r, g, b] = color.slice(0, 3).map((it) => it / 255).map((it) => (it <= 0.03928 ? it / 12.92 : ((it + 0.055) / 1.055) ** 2.4));
    return 0.2126 * r + 0.7152 * g + 0.0722 * b;
  };
  const behind = (element) => {
    for (let it = element; it; it = it.parentElement) {
      const color = parts(getComputedStyle(it).backgroundColor);
      if (color[3] === 255) return color;
    }
    return [255, 255, 255, 255];
  };
  const own = (element) => [...element.childNodes].some((it) => it.nodeType === 3 && it.data.trim());
  const all = [...document.querySelectorAll('body *')].filter(own);
  const seen = all.filter((it) => it.checkVisibility() && !it.matches(':disabled, .unseen, #source'));
  const faint = seen.map((it) => {
    const style = getComputedStyle(it);
    const [a, b] = [light(parts(style.webkitTextFillColor)), light(behind(it))].sort((x, y) => y - x);
    const large = parseFloat(style.fontSize) >= 24 || (parseFloat(style.fontSize) >= 18.6 && Number(style.fontWeight) >= 700);
    return { text: it.textContent.trim().slice(0, 20), by: (a + 0.05) / (b + 0.05), wanted: large ? 3 : 4.5 };
  });
  return faint.filter((it) => it.by < it.wanted).map((it) => `${it.text} ${it.by.toFixed(1)}`);
})()"""


def look_at_names(page):
    """Each thing that takes the focus has a name for a screen reader, and each view its role."""
    page.call("Accessibility.enable")
    nodes = page.call("Accessibility.getFullAXTree")["nodes"]
    seen = [it for it in nodes if not it["ignored"]]
    nameless = [it["role"]["value"] for it in seen if it["role"]["value"] in NAMED and not it.get("name", {}).get("value")]
    holds("all controls have names", nameless == [], nameless)
    roles = {it["role"]["value"] for it in seen}
    wanted = {"banner", "main", "contentinfo", "tablist", "tab", "tabpanel", "status", "textbox", "combobox"}
    holds("and the parts of the page their roles", wanted <= roles, wanted - roles)
    page.call("Accessibility.disable")


def look_at_order(page):
    """The Tab key alone comes to each control, in the order of the page."""
    page.value("document.activeElement.blur()")
    page.call("Page.bringToFront")
    seen = []
    for _ in range(30):
        page.press("Tab")
        name = page.value("document.activeElement.id || document.activeElement.name || document.activeElement.tagName")
        if name in seen and name not in ("BUTTON",):
            break
        seen.append(name)
    wanted = ["example", "run", "open", "copy", "course", "infrastructure", "budget", "source"]
    holds("the Tab key comes to all controls", [it for it in seen if it in wanted] == wanted and "tab-printed" in seen, seen)


def look_at_tab(page, tab, name):
    page.value(f"{element('tab-' + tab)}.click()")
    idle(page)
    time.sleep(0.15)
    page.value("scrollTo(0, 0)")
    page.picture(f"{PICTURES}/{tab}-{name}.png")
    wide = page.value("document.documentElement.scrollWidth - innerWidth")
    holds(f"{tab} at {name} is no wider than its window", wide <= 0, wide)
    faint = page.value(FAINT)
    holds("and its texts can be read", faint == [], faint[:8])
    if tab in ("source", "printed"):
        drift = page.value(DRIFT)
        holds(f"the text lies over its colours at {name}", drift is None or abs(drift) < 1, drift)


def look_at_width(page, width, height, dark):
    page.size(width, height, dark)
    name = f"{width}{'-dark' if dark else ''}"
    choose_example(page, "shop.np")
    idle(page)
    page.value("run.click()")
    page.wait("document.body.getAttribute('aria-busy') === 'false' && printed.innerText.includes('At rest')")
    for tab in TABS:
        if tab != "source" or width < 900:
            look_at_tab(page, tab, name)
    choose_level(page, "both")
    look_at_tab(page, "picture", f"both-{name}")
    choose_level(page, "high")
    page.value("picture.focus()")
    page.press("ArrowDown")
    page.press("ArrowDown")
    page.picture(f"{PICTURES}/chosen-{name}.png")
    page.press("Escape")
    look_at_fault(page, width, name)
    if width < 900:
        page.click("more")
        page.picture(f"{PICTURES}/menu-{name}.png")
        page.click("more")


def look_at_fault(page, width, name):
    page.value(f"{element('tab-source' if width < 900 else 'tab-printed')}.click()")
    write_source(page, 'sites home far ;\nmain at home =\nnew c : ^Int in\nagent b = migrate to far -> c?x -> print x in\n<b@?>c!"five"')
    verdict(page, "refused")
    page.wait("document.querySelector('.bad')", 20)
    page.picture(f"{PICTURES}/fault-{name}.png")
    faint = page.value(FAINT)
    holds(f"what is told at {name} can be read", faint == [], faint[:8])


def look_at_runs(page):
    page.size(360, 740, False)
    choose_example(page, "choice.np")
    choose(page, "course", "runs")
    page.value("run.click()")
    idle(page)
    page.picture(f"{PICTURES}/runs-360.png")
    choose(page, "course", "sites")


def look(page):
    page.size(1280, 860)
    choose_example(page, "letter.np")
    run_it(page)
    look_at_order(page)
    look_at_names(page)
    for width, height in WIDTHS:
        for dark in (False, True):
            look_at_width(page, width, height, dark)
    look_at_runs(page)
