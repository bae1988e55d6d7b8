"""The programs in the page against the native ones: status, output and error of each call, byte for byte."""

import base64
import json
import os
import subprocess
import tempfile
import time
from collections import Counter

from checks import holds, opened
from worked import example_calls, look_calls, source_calls

LONGEST = 20
CALL = """(async () => {
  const texts = Object.fromEntries(%s.map(([name, text]) => [name, Uint8Array.from(atob(text), (it) => it.charCodeAt(0))]));
  const answer = await np.call(%s, %s, texts);
  const coded = (bytes) => { let text = ''; for (const it of bytes) text += String.fromCharCode(it); return btoa(text); };
  return [answer.status, coded(answer.out), coded(answer.err), answer.fault || '', answer.milliseconds, answer.memory];
})()"""


def native(programs, program, words, texts, room):
    """What the native program answers: its status, output and error, or nothing where it takes too long."""
    for name in os.listdir(room):
        os.remove(os.path.join(room, name))
    for name, text in texts.items():
        with open(os.path.join(room, name), "wb") as file:
            file.write(text)
    try:
        ran = subprocess.run([programs[program], *words], cwd=room, capture_output=True, timeout=LONGEST, check=False)
    except subprocess.TimeoutExpired:
        return None
    return [ran.returncode, ran.stdout, ran.stderr]


def in_page(page, program, words, texts):
    given = json.dumps([[name, base64.b64encode(text).decode()] for name, text in texts.items()])
    status, out, err, fault, took, memory = page.value(CALL % (given, json.dumps(program), json.dumps(words)))
    return [status, base64.b64decode(out), base64.b64decode(err)], fault, took, memory


def compare(browser, programs):
    page = opened(browser)
    calls = [*source_calls(), *example_calls(), *look_calls(programs)]
    same, late = Counter(), 0
    slowest, most, begun = (0, ""), (0, ""), time.monotonic()
    with tempfile.TemporaryDirectory(prefix="page-") as room:
        for program, words, texts in calls:
            wanted = native(programs, program, words, texts, room)
            if wanted is None:
                late += 1
                continue
            came, fault, took, memory = in_page(page, program, words, texts)
            same[program] += came == wanted
            call = " ".join([program, *words])
            slowest, most = max(slowest, (took, call)), max(most, (memory, call))
            if came != wanted:
                differs = [name for name, a, b in zip(("status", "output", "error"), came, wanted) if a != b]
                text = f"{differs}, {came[0]} and {wanted[0]}; {fault}"
                holds(f"{program} {' '.join(words)[:100]}", False, text)
    took = time.monotonic() - begun
    each = ", ".join(f"{count} of {program}" for program, count in same.items())
    print(f"{same.total()} of {len(calls) - late} calls the same ({each}), {late} left out as they take over {LONGEST} s; {took:.0f} s")
    print(f"slowest in the page: {slowest[1][:80]}, {slowest[0]:.0f} ms; most memory: {most[1][:80]}, {most[0] / 2**20:.0f} MiB")
    page.close()
