"""Turns a program's LLVM module for x86-64 into one for wasm64: data layout, triple, and what only an x86-64 processor has."""

import re

LAYOUT = "e-m:e-p:64:64-p10:8:8-p20:8:8-i64:64-i128:128-n32:64-S128-ni:1:10:20"
TRIPLE = "wasm64-unknown-unknown"
OF_PROCESSOR = re.compile(r' "(?:probe-stack|stack-probe-size|target-cpu|target-features)"="[^"]*"')
PAUSE = re.compile(r"^(?:  call|declare) void @llvm\.x86\.sse2\.pause\(\).*\n", re.M)
MAIN = re.compile(r"^define i32 @main\([^)]*\)[^\n]*\{\n.*?^\}\n", re.M | re.S)
ENTRY = re.compile(r'call i32 (@"(?:\+threads::entry|\w+::main\+start)")\(\)')
STARTED = "define i32 @started() {{\n  %status = call i32 {entry}()\n  ret i32 %status\n}}\n"


def started(module):
    """The module with `started` in the place of `main`, which looks at the processor and at signals before it calls the program."""
    main = MAIN.search(module)
    entries = ENTRY.findall(main.group(0)) if main else []
    if len(entries) != 1:
        raise ValueError(f"main is not as it was: it calls {', '.join(entries) or 'nothing that is known'}")
    return module[: main.start()] + STARTED.format(entry=entries[0]) + module[main.end() :]


def retargeted(module):
    module = re.sub(r'target datalayout = "[^"]*"', f'target datalayout = "{LAYOUT}"', module)
    module = re.sub(r'target triple = "[^"]*"', f'target triple = "{TRIPLE}"', module)
    return started(PAUSE.sub("", OF_PROCESSOR.sub("", module)))
