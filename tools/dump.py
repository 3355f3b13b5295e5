#!/usr/bin/env python3
"""Tells which functions of a rustc dump mirpipe takes, and why not the others.

The dump is cut into its items: functions, constants, statics, allocations. As long as `PROGRAM seq` refuses what is left, the item with the
refused line is left out. So a function goes too whose callee went. For each item a line is printed, in the order of the dump: `ok`, or the code
and the line of DUMP for which it was left out, and below it that line. docs/dumps.md says what the codes mean and what helps.

A dump has no lines for types and outside functions. They stand in a file of their own (--head), or at the head of DUMP.
What stands in `debug` lines and behind `inlined` says nothing of what a function does, yet it may be refused: --plain leaves it out.
"""
import argparse
import os
import re
import shutil
import subprocess
from dataclasses import dataclass

ROOT = os.path.dirname(os.path.dirname(os.path.abspath(__file__)))
PROGRAM = [os.path.join(ROOT, "crates", "mirpipe", "out", "mirpipe")]
ITEM = re.compile(r"(#\[|drop fn |(unsafe |extern )?fn |struct |enum |const |static |alloc\d)")
NAMES = re.compile(r"^ +debug .*;$| \(inlined .*\)(?= \{$)")


@dataclass
class Item:
    """Some lines of a dump, the number of the first of them, and why they are left out."""
    first: int
    lines: list
    reason: str = ""
    refused: int = 0

    def title(self):
        """The item's first line that is neither empty, nor a comment, nor an attribute."""
        titles = (line for line in self.lines if line.strip() and not line.startswith(("//", "#[")))
        return next(titles, "").rstrip(" {")


def read_lines(path):
    with open(path, encoding="utf-8", errors="surrogateescape") as file:
        return file.read().splitlines()


def items_of(lines):
    """The items of a dump; an attribute stands with the function under it."""
    items, attribute = [Item(1, [])], False
    for number, line in enumerate(lines, 1):
        if ITEM.match(line) and not attribute:
            items.append(Item(number, []))
        attribute = line.startswith("#[")
        items[-1].lines.append(line)
    return [item for item in items if item.title()]


def refusal(program, items):
    """The code of the refusal and the number of its line; None where the items are accepted."""
    text = "".join(line + "\n" for item in items for line in item.lines)
    run = subprocess.run(program, input=text.encode("utf-8", "surrogateescape"), capture_output=True)
    note = run.stderr.decode().strip()
    if run.returncode == 0:
        return None
    found = re.fullmatch(r"(\w+) line (\d+)", note)
    if run.returncode != 1 or found is None:
        raise SystemExit(f"{program[-1]} ended with status {run.returncode}: {note}")
    return found.group(1), int(found.group(2))


def leave_out(items, code, line):
    """Notes of the item that has this line why it is left out."""
    for item in items:
        if line <= len(item.lines):
            break
        line -= len(item.lines)
    item.reason, item.refused = code, min(line, len(item.lines)) - 1


def judge(program, items):
    """Leaves items out until the program accepts the others."""
    while taken := [item for item in items if not item.reason]:
        refused = refusal(program, taken)
        if refused is None:
            break
        leave_out(taken, *refused)


def tell(item):
    """Prints what became of an item."""
    if not item.reason:
        print(f"ok               {item.title()[:100]}")
        return
    line = item.lines[item.refused].strip()
    print(f"{item.reason} line {item.first + item.refused:<6}  {item.title()[:100]}")
    if line.rstrip(" {") != item.title():
        print(f"                     {line[:100]}")


def main():
    options = argparse.ArgumentParser(description=__doc__, formatter_class=argparse.RawDescriptionHelpFormatter)
    options.add_argument("dump", metavar="DUMP", help="the text that rustc --emit=mir wrote")
    options.add_argument("--head", help="a file with lines for types and outside functions, read before DUMP")
    options.add_argument("-o", dest="out", help="where to write what is taken, which mirpipe accepts")
    options.add_argument("--plain", action="store_true", help="leave out debug lines and what scopes say of inlining")
    options.add_argument("--check", action="store_true", help="ask `check`, which takes a `drop`, and not `seq`")
    options.add_argument("program", metavar="PROGRAM", nargs="*", default=PROGRAM, help="mirpipe itself, else crates/mirpipe/out/mirpipe")
    words = options.parse_intermixed_args()
    if shutil.which(words.program[0]) is None:
        raise SystemExit(f"no program {words.program[0]}: `rt run` in crates/mirpipe builds it")
    head = items_of(read_lines(words.head)) if words.head else []
    lines = read_lines(words.dump)
    dump = items_of([NAMES.sub("", line) for line in lines] if words.plain else lines)
    judge(words.program + ["check" if words.check else "seq"], head + dump)
    for item in [item for item in head if item.reason] + dump:
        tell(item)
    functions = [item for item in dump if "fn " in item.title()]
    print(f"{sum(not item.reason for item in functions)} of {len(functions)} functions are taken")
    if words.out:
        with open(words.out, "w", encoding="utf-8", errors="surrogateescape") as file:
            file.writelines(line + "\n" for item in head + dump if not item.reason for line in item.lines)


if __name__ == "__main__":
    main()
