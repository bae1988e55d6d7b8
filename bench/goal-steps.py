#!/usr/bin/env python3
"""Prints the goals and lemmas of a crate on which its check spent the most steps, in millions.

    bench/goal-steps.py CRATE [COUNT]      for example: bench/goal-steps.py np_syntax 40

It reads what `rt check` in the crate's folder has kept (out/incremental), so run that first. A second of the prover is a million steps
or so. docs/COST.md says what to do about a goal that takes long. Where a goal was proved in several ways, each has a line.
"""

import json
import pathlib
import sys

BEGINS = '[{"aux":'


def declarations(text):
    """What is kept of each declaration in a record."""
    decoder, at = json.JSONDecoder(), text.find(BEGINS)
    while at >= 0:
        try:
            found, end = decoder.raw_decode(text, at)
            yield from found
        except json.JSONDecodeError:
            end = at + 1
        at = text.find(BEGINS, end)


def steps_of(folder):
    """The steps of each declaration of a crate, with its module and name."""
    for record in folder.glob("antt-checked-*/records/*.decls.oantt"):
        module = record.name.removesuffix(".decls.oantt").split("-proofs.")[-1]
        for one in declarations(record.read_text(encoding="latin-1")):
            yield sum(one.get("steps") or [0]), module, one.get("name")


def main():
    if len(sys.argv) not in (2, 3):
        sys.exit(__doc__)
    folder = pathlib.Path(__file__).parent.parent / "crates" / sys.argv[1] / "out" / "incremental"
    found = sorted(steps_of(folder), key=lambda one: -one[0])
    print(f"{sum(one[0] for one in found) / 1e6:9.2f} all of {sys.argv[1]}")
    for steps, module, name in found[: int(sys.argv[2]) if len(sys.argv) == 3 else 30]:
        print(f"{steps / 1e6:9.2f} {module} {name}")


main()
