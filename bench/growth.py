#!/usr/bin/env python3
"""How `mirpipe check` grows with its input. Run by hand: bench/growth.py [PROGRAM [KILOBYTES [NAME..]]], NAME the families that are asked for.

Each family makes texts of one kind: wide, long, deep, in circles, or faulty at the end, in each item and part. Each is tried with about so many
kilobytes (500 where none is said), with twice and with four times as many. It prints a line for each family: its name, what `check` said, the
bytes and the seconds of the longest text, the exponents of time and of memory from the shortest text to the longest, and the bytes of memory
that a byte of the longest took. What the program takes for an empty text is taken off first. A family that is above 1.3 in time, or takes more
memory than 12 bytes a byte and 50 MB, is marked. A run that takes more than five minutes is given up.
"""
import math
import os
import subprocess
import sys
import tempfile
import time

ROOT = os.path.dirname(os.path.dirname(os.path.abspath(__file__)))
PROGRAM = os.path.join(ROOT, "crates", "mirpipe", "out", "mirpipe")
MOST_SECONDS = 300
FAMILIES = {}


def family(make):
    """A function from a number of parts to a text, kept by its name."""
    FAMILIES[make.__name__.replace("_", " ")] = make
    return make


def function(lines, lets=(), args="", result="()", name="f"):
    """The text of a function of one block with these lines, and with these locals beside `_0`."""
    lets = "".join(f" let _{place}: {ty};" for place, ty in lets)
    body = " ".join(f"{line};\n" for line in lines)
    return f"fn {name}({args}) -> {result} {{ let _0: {result};{lets} bb0: {{ {body} return; }} }}\n"


def blocks(ends, lets=(), args=""):
    """The text of a function whose blocks end so."""
    lets = "".join(f" let _{place}: {ty};" for place, ty in lets)
    body = "".join(f" bb{place}: {{ {end}; }}\n" for place, end in enumerate(ends))
    return f"fn f({args}) -> () {{ let _0: ();{lets}\n{body}}}\n"


def switch(values):
    arms = " ".join(f"{value}: bb1," for value in values)
    return blocks([f"switchInt(copy _1) -> [{arms} otherwise: bb1]", "return"], args="_1: u64")


# ---- bytes and tokens

@family
def blanks(n):
    return " " * n * 16


@family
def line_feeds(n):
    return "\n" * n * 16


@family
def one_long_comment(n):
    return "//" + "x" * n * 16


@family
def comments(n):
    return "// a comment\n" * n


@family
def a_byte_that_begins_no_token(n):
    return "struct a;\n" * n + "@"


@family
def an_open_string_at_the_end(n):
    return function(["nop"] * n) + '"' + "x" * n


@family
def semicolons(n):
    return ";" * n * 16


@family
def open_braces(n):
    return "{" * n * 16


@family
def open_parentheses(n):
    return "struct a(" + "(" * n * 16


@family
def one_long_name(n):
    return f"struct {'a' * n * 16};"


@family
def one_long_path(n):
    return "struct " + "::".join(f"a{place}" for place in range(n)) + ";"


@family
def one_long_number(n):
    return function([f"_1 = const {'0' * n * 16}_u64"], [(1, "u64")])


@family
def one_long_string(n):
    return blocks([f'assert(copy _1, "{"x" * n * 16}") -> [success: bb1, unwind continue]', "return"], args="_1: bool")


# ---- definitions

@family
def structs(n):
    return "".join(f"struct a{place};\n" for place in range(n))


@family
def one_name_again_and_again(n):
    return "struct a;\n" * n


@family
def fields(n):
    return "struct a {" + ", ".join(f"f{place}: u8" for place in range(n)) + "}"


@family
def variants(n):
    return "enum a {" + ", ".join(f"v{place}" for place in range(n)) + "}"


@family
def small_enums(n):
    return "".join(f"enum a{place} {{ v, w(u8) }}\n" for place in range(n))


@family
def a_wide_tuple(n):
    return "struct a((" + ", ".join(["u8"] * n) + "));"


@family
def deep_types(n):
    return "".join(f"struct a{place}({'(' * 60}u8{', u8)' * 60});\n" for place in range(n // 20))


@family
def a_chain_of_structs(n):
    return "".join(f"struct a{place}(a{place + 1});\n" for place in range(n)) + f"struct a{n};"


@family
def a_chain_from_a_destructor(n):
    return a_chain_of_structs(n) + f"drop fn d(_1: &mut a{n}) -> () {{ let _0: (); bb0: {{ return; }} }}"


@family
def a_circle_of_structs(n):
    return "".join(f"struct a{place}(a{(place + 1) % n});\n" for place in range(n))


@family
def small_circles(n):
    return "".join(f"struct a{place}(a{place ^ 1});\n" for place in range(n // 2 * 2))


@family
def a_way_between_circles(n):
    return "struct b(b, a0);\n" + a_chain_of_structs(n - 1) + f"struct a{n}(a{n});"


@family
def a_circle_with_many_edges(n):
    root = int(math.sqrt(n))
    return "".join(f"struct a{place}({', '.join(f'a{other}' for other in range(root))});\n" for place in range(root))


@family
def an_unknown_path_at_the_end(n):
    return structs(n) + "struct b(c);"


# ---- functions

@family
def functions(n):
    return "".join(function(["nop"], name=f"g{place}") for place in range(n // 3))


@family
def outside_functions(n):
    return "".join(f"extern fn e{place}(u8) -> u8;\n" for place in range(n))


@family
def arguments(n):
    return function(["nop"], args=", ".join(f"_{place}: u8" for place in range(1, n)))


@family
def locals_and_debug(n):
    lets = "".join(f" let _{place}: u8; debug x => _{place};\n" for place in range(1, n))
    return f"fn f() -> () {{ let _0: ();{lets} bb0: {{ return; }} }}"


@family
def scopes(n):
    return "fn f() -> () { let _0: (); " + "scope 1 { debug x => _0; }\n" * n + " bb0: { return; } }"


@family
def gotos(n):
    return blocks([f"goto -> bb{place + 1}" for place in range(n)] + ["return"])


@family
def statements(n):
    return function(["_1 = Add(copy _1, const 1_u64)"] * n, args="_1: u64")


@family
def deep_places(n):
    ty = ["u8"]
    for _ in range(30):
        ty.append(f"({ty[-1]}, u8)")
    place = "_1"
    for below in reversed(ty[:-1]):
        place = f"({place}.0: {below})"
    return function([f"_2 = copy {place}"] * (n // 60), [(2, "u8")], args=f"_1: {ty[-1]}")


@family
def a_wide_build(n):
    return function([f"_1 = ({', '.join(['const 1_u8'] * n)})"], [(1, "u8")])


@family
def a_wide_call(n):
    return "extern fn e(u8) -> u8;\n" + blocks([f"_1 = e({', '.join(['const 1_u8'] * n)}) -> [return: bb1, unwind continue]", "return"], [(1, "u8")])


@family
def builds_of_variants(n):
    return variants(n) + function([f"_1 = a::v{place}" for place in range(n)], [(1, "a")])


@family
def builds_of_the_last_variant(n):
    return variants(n) + function([f"_1 = a::v{n - 1}"] * n, [(1, "a")])


@family
def builds_of_no_variant(n):
    return variants(n) + function(["_1 = a::w"] * n, [(1, "a")])


@family
def downcasts(n):
    enum = "enum a {" + ", ".join(f"v{place}(u8)" for place in range(n)) + "}"
    return enum + function([f"_2 = copy ((_1 as v{place}).0: u8)" for place in range(n)], [(2, "u8")], args="_1: a")


@family
def arms_that_ascend(n):
    return switch(range(n))


@family
def arms_that_fall(n):
    return switch(range(n, 0, -1))


@family
def arms_in_no_order(n):
    return switch(place * 7919 % 1_000_003 for place in range(n))


@family
def an_arm_twice(n):
    return switch([*range(n, 0, -1), 1])


@family
def an_unknown_local_at_the_end(n):
    return function(["_1 = Add(copy _1, const 1_u64)"] * n + ["_2 = copy _3"], args="_1: u64")


@family
def a_token_that_fits_nowhere_at_the_end(n):
    return function(["_1 = Add(copy _1, const 1_u64)"] * n, args="_1: u64") + "enum"


@family
def an_unknown_block_at_the_end(n):
    return blocks([f"goto -> bb{place + 1}" for place in range(n)])


@family
def a_broken_rule_in_each_statement(n):
    return function(["_1 = Not(const 1_u8)"] * n, args="_1: u64")


# ---- runs

def measured(program, text):
    """What `check` said in the end, its seconds, and its greatest memory in bytes."""
    with tempfile.TemporaryFile() as stdin, tempfile.TemporaryFile() as said:
        stdin.write(text.encode())
        stdin.seek(0)
        start = time.perf_counter()
        child = subprocess.Popen(["timeout", str(MOST_SECONDS), program, "check"], stdin=stdin, stdout=said, stderr=said)
        _, _, usage = os.wait4(child.pid, 0)
        seconds = time.perf_counter() - start
        said.seek(0)
        return said.read().decode().strip() or "given up", seconds, usage.ru_maxrss * 1024


def exponent(few, many, growth):
    """The power of the growth by which a measure grew; none where it is too small to tell."""
    return math.log(many / few) / math.log(growth) if few > 0 and many > 0 else 0.0


def main():
    program = sys.argv[1] if len(sys.argv) > 1 else PROGRAM
    size = (int(sys.argv[2]) if len(sys.argv) > 2 else 500) * 1_000
    _, idle, empty = measured(program, "")
    for name in sys.argv[3:] or FAMILIES:
        make = FAMILIES[name]
        parts = max(64, 1000 * size // len(make(1000)))
        runs = []
        for factor in (1, 2, 4):
            text = make(parts * factor)
            said, seconds, memory = measured(program, text)
            runs.append((len(text), max(seconds - idle, 0.001), max(memory - empty, 0)))
            if said == "given up":
                break
        growth = runs[-1][0] / runs[0][0]
        if growth > 1:
            time_power, memory_power = (exponent(runs[0][at], runs[-1][at], growth) for at in (1, 2))
        else:
            time_power = memory_power = 0.0
        length, seconds, memory = runs[-1]
        slow = time_power > 1.3 and seconds > 0.5 or said == "given up"
        mark = " <--" if slow or memory > 12 * length + 50_000_000 else ""
        print(f"{name}: {said}; {length} bytes, {seconds:.2f} s, time ^{time_power:.2f}, memory ^{memory_power:.2f}, {memory / length:.1f} bytes a byte{mark}", flush=True)


if __name__ == "__main__":
    main()
