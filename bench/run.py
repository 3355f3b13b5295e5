#!/usr/bin/env python3
"""Times `mirpipe check` and `mirpipe seq` on texts of many sizes, `mirpipe run` for many steps, and `mirpipe dump` of bodies that are wide in blocks and
places. Run by hand: bench/run.py [PROGRAM [MEGABYTES]].

The inputs are made here: one function whose blocks are all empty gotos (each skipped), or are all joined to one; many small functions; and
functions of one long block. The last two are made as long as so many megabytes (60 where none is said), and a tenth of it. It prints a line for
each run: the command, the input's name and its bytes, the seconds, bytes per second, and the greatest memory in kilobytes (never less than
what this script itself had when it began the run). Runs are of a loop and of a loop with a call, for a tenth of the steps and for all million, which
ends in the same memory. Dumps are of the stages `folded`, for a chain of blocks and a ladder of loops that each set one of 1,000 places (of which
1,000,000 divided by the number of blocks are tracked), and `threaded`, for diamonds one behind the other: so many that a body just has room for all
copies, and half as many again.
"""
import os
import subprocess
import sys
import tempfile
import time

ROOT = os.path.dirname(os.path.dirname(os.path.abspath(__file__)))
PROGRAM = os.path.join(ROOT, "crates", "mirpipe", "out", "mirpipe")
MEGABYTE = 1_000_000


def function(name, blocks):
    """The text of a function whose blocks have these lines."""
    text = [f"fn {name}(_1: u64) -> u64 {{", "    let mut _0: u64;", "    let mut _2: u64;"]
    for number, lines in enumerate(blocks):
        text += ["", f"    bb{number}: {{"] + [f"        {line};" for line in lines] + ["    }"]
    return "\n".join(text + ["}", ""])


def chain(count, lines):
    """Blocks that each go to the next one, the last of which returns."""
    blocks = [lines + [f"goto -> bb{number + 1}"] for number in range(count - 1)]
    return function("f", blocks + [["_0 = copy _1", "return"]])


def many(size, lines):
    """As many functions of one block, which has so many lines more, as the size takes; at most 10,000."""
    sums = ["_2 = Add(copy _1, const 7_u64)", "_0 = BitXor(copy _0, copy _2)"]
    block = ["_0 = const 1_u64"] + sums * (lines // 2) + ["return"]
    text = function("sum0", [block])
    count = min(10_000, max(1, size // len(text)))
    return "\n".join(function(f"sum{number}", [block]) for number in range(count))


def inputs(size):
    """The inputs by their names."""
    for count in (1_000, 10_000):
        yield f"empty {count}", chain(count, [])
        yield f"joined {count}", chain(count, ["_0 = copy _1"])
    for part in (size // 10, size):
        yield "functions", many(part, 2)
        yield "straight", many(part, 400)


LOOP = """fn one(_1: u64) -> u64 {
    let mut _0: u64;

    bb0: {
        _0 = Add(copy _1, const 1_u64);
        return;
    }
}

fn count(_1: u64) -> u64 {
    let mut _0: u64;
    let mut _2: bool;

    bb0: {
        _0 = const 0_u64;
        goto -> bb1;
    }

    bb1: {
        %s
        _2 = Lt(copy _0, copy _1);
        switchInt(move _2) -> [0: %s, otherwise: bb1];
    }
%s
    bb%d: {
        return;
    }
}
"""
CALLS = """
    bb2: {
        _2 = Lt(copy _0, copy _1);
        switchInt(move _2) -> [0: bb3, otherwise: bb1];
    }
"""


def loops():
    """Texts with a function `count` that counts up to its argument, by their names."""
    yield "loop", LOOP % ("_0 = Add(copy _0, const 1_u64);", "bb2", "", 2)
    call = "_0 = one(copy _0) -> [return: bb2, unwind unreachable];"
    text = LOOP % (call, "bb3", CALLS, 3)
    yield "calls", text.replace(f"        {call}\n        _2 = Lt(copy _0, copy _1);\n        switchInt(move _2) -> [0: bb3, otherwise: bb1];\n", f"        {call}\n", 1)


def places(count, blocks, is_ladder):
    """A function whose blocks each set one of so many places. Each goes on or, by its argument, to the last block or the one before it."""
    text = ["fn f(_1: u8) -> u8 {", "    let mut _0: u8;"] + [f"    let mut _{place + 2}: u8;" for place in range(count)]
    for number in range(blocks - 1):
        other = max(1, number - 1) if is_ladder else blocks - 1
        text += [f"    bb{number}: {{", f"        _{number % count + 2} = const {number % 256}_u8;"]
        text += [f"        switchInt(copy _1) -> [0: bb{other}, otherwise: bb{number + 1}];", "    }"]
    return "\n".join(text + [f"    bb{blocks - 1}: {{", "        _0 = copy _2;", "        return;", "    }", "}", ""])


def diamonds(count):
    """A function of so many diamonds, in each of which both ways tell what is asked at their end."""
    text = ["fn f(_1: bool) -> u8 {", "    let mut _0: u8;", "    let mut _2: bool;"]
    text += ["    bb0: {", "        switchInt(copy _1) -> [0: bb1, otherwise: bb2];", "    }"]
    for number in range(count):
        first = 3 * number + 1
        for block, value in ((first, "true"), (first + 1, "false")):
            text += [f"    bb{block}: {{", f"        _2 = const {value};", f"        goto -> bb{first + 2};", "    }"]
        text += [f"    bb{first + 2}: {{", f"        switchInt(copy _2) -> [0: bb{first + 3}, otherwise: bb{first + 4}];", "    }"]
    last = 3 * count + 1
    for block in (last, last + 1):
        text += [f"    bb{block}: {{", f"        _0 = const {block - last}_u8;", "        return;", "    }"]
    return "\n".join(text + ["}", ""])


def dumps():
    """Texts with a function `f`, by the stage at which it is dumped and their names."""
    for blocks in (1_000, 10_000):
        yield "folded", f"chain {blocks}", places(1_000, blocks, False)
        yield "folded", f"ladder {blocks}", places(1_000, blocks, True)
    for count in (1_999, 3_000):
        yield "threaded", f"diamonds {count}", diamonds(count)


def run(program, words, text):
    """The seconds and the greatest memory of the program with these words on a text."""
    with tempfile.TemporaryFile() as stdin:
        stdin.write(text.encode())
        stdin.seek(0)
        start = time.perf_counter()
        child = subprocess.Popen([program, *words], stdin=stdin, stdout=subprocess.DEVNULL)
        _, status, usage = os.wait4(child.pid, 0)
        seconds = time.perf_counter() - start
    if status != 0:
        sys.exit(f"{program} {' '.join(words)}: wait status {status}")
    return seconds, usage.ru_maxrss


def main():
    program = sys.argv[1] if len(sys.argv) > 1 else PROGRAM
    size = (int(sys.argv[2]) if len(sys.argv) > 2 else 60) * MEGABYTE
    for name, text in inputs(size):
        for command in ("check", "seq"):
            seconds, memory = run(program, [command], text)
            print(f"{command} {name}: {len(text)} bytes, {seconds:.3f} s, {len(text) / seconds:.0f} bytes/s, {memory} KB")
    for name, text in loops():
        for steps in (100_000, 1_000_000):
            seconds, memory = run(program, ["run", "count", str(2**64 - 1), "--answers", "-", "--steps", str(steps)], text)
            print(f"run {name}: {steps} steps, {seconds:.3f} s, {steps / seconds:.0f} steps/s, {memory} KB")
    for stage, name, text in dumps():
        seconds, memory = run(program, ["dump", stage, "f"], text)
        print(f"dump {stage} {name}: {len(text)} bytes, {seconds:.3f} s, {memory} KB")


if __name__ == "__main__":
    main()
