#!/usr/bin/env python3
"""Prints the parts of a crate's check that took longest, in seconds: for each function the borrow checker's part (Lts), the part
that joins it to the contracts (Tie), the goals (Proof), and so on.

    bench/module-times.py CRATE [COUNT]      for example: bench/module-times.py np_eval 40

It reads the times at which `rt check` in the crate's folder wrote what it kept (out/incremental): run that first, from nothing and with
`--jobs 1`, with nothing beside it. A part's time is what passed since the part before it was written. docs/COST.md says
what to do about a part that takes long.
"""

import collections
import pathlib
import sys


def written(folder):
    """Each part that was kept with the time at which it was written, in order."""
    files = (one for kept in folder.glob("antt-checked-*") for one in kept.iterdir() if one.suffix == ".oantt")
    return sorted((one.stat().st_mtime_ns, one.name.removesuffix(".oantt")) for one in files)


def kind_of(part):
    """The last word of a part's name, without the function that it is of."""
    return part.rsplit(".", 1)[-1].split("-", 1)[0]


def main():
    if len(sys.argv) not in (2, 3):
        sys.exit(__doc__)
    parts = written(pathlib.Path(__file__).parent.parent / "crates" / sys.argv[1] / "out" / "incremental")
    took = [((after - before) / 1e9, part) for (before, _), (after, part) in zip(parts, parts[1:])]
    kinds = collections.Counter()
    for seconds, part in took:
        kinds[kind_of(part)] += seconds
    print(f"{sum(seconds for seconds, _ in took):9.2f} all of {sys.argv[1]}")
    for kind, seconds in kinds.most_common(6):
        print(f"{seconds:9.2f} {kind}, all together")
    for seconds, part in sorted(took, reverse=True)[: int(sys.argv[2]) if len(sys.argv) == 3 else 30]:
        print(f"{seconds:9.2f} {part.split('-proofs.')[-1]}")


main()
