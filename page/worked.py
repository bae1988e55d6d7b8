"""Calls of np and np_look that can be made as they stand: those of the worked examples, and of each source and history of examples/."""

import glob
import os
import re
import subprocess

TOP = os.path.dirname(os.path.dirname(os.path.abspath(__file__)))
EXAMPLES = os.path.join(TOP, "examples")
LOOK_EXAMPLES = [os.path.join(TOP, "crates", "np_look", "data", name) for name in ("explained.txt", "why.txt")]
# What needs a device that fails.
NOT_CALLS = re.compile(rb"^(fail|piece)", re.M)
PIECE = re.compile(rb'^(\d+ )?"(.*)"$')


def read(name):
    with open(os.path.join(EXAMPLES, name), "rb") as text:
        return text.read()


def tree(depth, leaf):
    return leaf if depth == 0 else b"(" + tree(depth - 1, leaf) + b"|" + tree(depth - 1, leaf) + b")"


def piece(line):
    """The bytes that a line of a text stands for, or None where it begins something else."""
    key, _, rest = line.partition(b" ")
    quoted = PIECE.match(line)
    if key == b"|":
        return rest + b"\n"
    if quoted:
        return int(quoted.group(1) or b"1") * quoted.group(2)
    if key == b"tree":
        depth, _, leaf = rest.partition(b" ")
        return tree(int(depth), leaf[1:-1])
    if key == b"bytes":
        return bytes(int(it) for it in rest.split())
    if key == b"file":
        return read(rest.decode())
    if key == b"part":
        first, last, name = rest.split()
        lines = read(name.decode()).split(b"\n")
        return b"".join(it + b"\n" for it in lines[int(first) - 1 : int(last)])
    return None


class Example:
    """An example: its calls, the sources that each is tried with, and further texts by their names."""

    def __init__(self, lines):
        self.words, self.sources, self.texts, self.open = [], [], {}, None
        for line in lines:
            self.take(line)

    def take(self, line):
        key, _, rest = line.partition(b" ")
        part = piece(line)
        if self.open is not None and part is not None:
            self.texts[self.open] = self.texts.get(self.open, b"") + part
            return
        self.open = None
        if key == b"words":
            self.words.append(["" if it == '""' else it for it in rest.decode(errors="surrogateescape").split(" ") if it])
        elif key == b"main":
            self.sources.append(b"sites home ; main at home = " + rest)
        elif key == b"source":
            self.sources.append(rest)
        elif key == b"text" and rest not in (b"out", b"err"):
            self.open = rest.decode()
            self.texts.setdefault(self.open, b"")

    def calls(self):
        for source in self.sources or [None]:
            texts = self.texts if source is None else {**self.texts, "a": source}
            for words in self.words:
                yield "np", in_turn(words), texts


def in_turn(words):
    """The words of a call whose sites take turns: on threads two runs need not be the same."""
    if words and words[0] in ("run", "resume", "load") and "--serial" not in words:
        return [words[0], "--serial", *words[1:]]
    return words


def example_calls():
    for file in sorted(glob.glob(os.path.join(EXAMPLES, "*.txt"))):
        lines = [it for it in read(os.path.basename(file)).split(b"\n") if it and not it.startswith(b"#")]
        starts = [at for at, line in enumerate(lines) if line.startswith(b"example ")] + [len(lines)]
        for start, end in zip(starts, starts[1:]):
            block = lines[start + 1 : end]
            if not NOT_CALLS.search(b"\n".join(block)):
                yield from Example(block).calls()


def names(pattern):
    return sorted(os.path.basename(it) for it in glob.glob(os.path.join(EXAMPLES, pattern)))


HISTORIES = {"letter.history": "letter.np", "moving.history": "moving.np", "print-1.history": "seven.np", "print-2.history": "seven.np"}


def source_calls():
    """Each source in each mode, and the histories that stand beside them."""
    for name in names("*.np"):
        texts = {name: read(name)}
        for words in (["check", name], ["show", name], ["high", name, "--history"]):
            yield "np", words, texts
        for infra in ("central", "cache"):
            yield "np", ["low", name, "--infra", infra], texts
            yield "np", ["run", name, "--serial", "--history", "--high", "--infra", infra], texts
    for history, name in HISTORIES.items():
        texts = {name: read(name), history: read(history)}
        for words in (["replay"], ["past"], ["past", "--line", "2"], ["resume", "--serial", "--history"]):
            yield "np", [words[0], name, history, *words[1:]], texts
        yield "np", ["upgrade", history], texts


LEVELS = ("high", "low", "both")
INFRASTRUCTURES = ("central", "cache")
MODES = ("picture", "page", "shiviz", "why", "run", "runs", "follow")
LARGE = ("ring-10.np", "ring-100.np")


def look_calls(programs):
    """Calls of each mode of np_look. The high texts that it follows are written by these native programs."""
    yield "np_look", [], {}
    for words in ("--help", "--version", "nothing", "why Mismatch", "why 10", "why none.np", *(f"{mode} --help" for mode in MODES)):
        yield "np_look", words.split(), {}
    for name in names("*.np"):
        yield from source_looks(name)
        high = subprocess.run([programs["np"], "high", name, "--history"], cwd=EXAMPLES, capture_output=True, check=False).stdout
        yield "np_look", ["follow", name, "high"], {name: read(name), "high": high}
        yield "np_look", ["follow", name, "high"], {name: read(name), "high": high.replace(b"Print", b"Stop", 1)}
    for history, name in HISTORIES.items():
        texts = {name: read(name), history: read(history), "cut": read(history)[:-30]}
        for mode in ("picture", "page", "shiviz", "why"):
            yield "np_look", [mode, name, history], texts
        yield "np_look", ["picture", name, history, "--level", "high", "--past", "1"], texts
        yield "np_look", ["why", name, "cut"], texts
    yield from told_calls()
    yield from told_examples()


def source_looks(name):
    """What is drawn and told of a source."""
    texts = {name: read(name)}
    yield "np_look", ["why", name], texts
    for infra in INFRASTRUCTURES:
        way = ["--infra", infra, "--budget", "2000"]
        for level in LEVELS:
            yield "np_look", ["picture", name, "--level", level, *way], texts
            yield "np_look", ["picture", name, "--level", level, *way, "--past", "1"], texts
            yield "np_look", ["picture", name, "--level", level, *way, "--seed", "3"], texts
        for level in ("high", "low"):
            yield "np_look", ["picture", name, "--level", level, *way, "--from", "3", "--to", "40"], texts
            yield "np_look", ["picture", name, "--level", level, *way, "--agent", "main"], texts
            yield "np_look", ["run", name, "--seed", "7", "--level", level, "--history", *way], texts
        yield "np_look", ["page", name, *way], texts
        yield "np_look", ["page", name, *way, "--seed", "3"], texts
    for level in ("high", "low") if name not in LARGE else ():
        yield "np_look", ["runs", name, "--runs", "20", "--level", level], texts
        yield "np_look", ["runs", name, "--runs", "20", "--level", level, "--from", "5", "--unordered"], texts


def told_calls():
    """Each source of the worked examples that np checks, told by np_look."""
    seen = set()
    for _, words, texts in example_calls():
        source = texts.get("a")
        is_new = source is not None and len(source) < 20_000 and source not in seen
        if is_new and words and words[0] in ("check", "show", "run", "high", "low"):
            seen.add(source)
            yield "np_look", ["why", "a"], {"a": source}


ESCAPE = re.compile(rb"\\(\\|t|r|x[0-9a-f]{2})")
ESCAPED = {b"\\": b"\\", b"t": b"\t", b"r": b"\r"}


def unescaped(line):
    return ESCAPE.sub(lambda it: ESCAPED.get(it.group(1)) or bytes([int(it.group(1)[1:], 16)]), line)


def told_examples():
    """The examples of what np_look tells: each begins with its words, and has files, whose lines stand behind a bar."""
    for file in LOOK_EXAMPLES:
        with open(file, "rb") as text:
            blocks = re.split(rb"^words ", text.read(), flags=re.M)[1:]
        for block in blocks:
            words, *lines = block.split(b"\n")
            yield "np_look", words.decode().split(" "), files_of(lines)


def files_of(lines):
    files, name = {}, None
    for line in lines:
        if line.startswith(b"file "):
            name = line[5:].decode()
            files[name] = []
        elif line.startswith(b"|"):
            files[name].append(unescaped(line[2:]))
    return {name: b"\n".join(parts) for name, parts in files.items()}
