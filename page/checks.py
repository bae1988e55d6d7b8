"""What is asked of the page: each thing that holds or not is printed, and what does not is kept."""

import os

HERE = os.path.dirname(os.path.abspath(__file__))
PAGE = "file://" + os.path.join(HERE, "out", "index.html")

faults = []


def holds(what, is_so, beside=""):
    print(f"  {'ok  ' if is_so else 'FAIL'} {what}{'' if is_so else f': {beside}'}", flush=True)
    if not is_so:
        faults.append(what)


def opened(browser, fragment="", address=PAGE):
    page = browser.open(address + fragment)
    page.size(1280, 860)
    ready = page.wait("document.body && document.body.dataset.ready")
    holds("the page begins", ready and page.value("document.body.dataset.ready") == "yes", page.value("document.body?.innerText"))
    return page
