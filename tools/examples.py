#!/usr/bin/env python3
"""Tries the examples with the program, and tells how much smaller each one gets.

Each examples/NAME.mir is given to `PROGRAM seq`, which has to write NAME.out; each NAME.STAGE.out is what `dump STAGE NAME` has to write; and each
command of NAME.run has to write what stands under it, for NAME.mir and for NAME.out alike. A row is printed for each example: its blocks, its
locals without arguments, its statements and terminators, and the steps of its first run, each before and after.

The gate tries the same: the entries of crates/answer_table begin with the examples. This script tells where they differ from the files, and
writes them anew with --write: from the files, never from what the program answers.
"""
import argparse
import glob
import os
import re
import shutil
import subprocess
import sys

ROOT = os.path.dirname(os.path.dirname(os.path.abspath(__file__)))
EXAMPLES = os.path.join(ROOT, "examples")
TABLE = os.path.join(ROOT, "crates", "answer_table")
PROGRAM = [os.path.join(ROOT, "crates", "mirpipe", "out", "mirpipe")]
MARK = "// examples/"


def read(path):
    with open(path, encoding="utf-8") as file:
        return file.read()


def answer(program, words, text):
    """What the program writes for these words and this text."""
    run = subprocess.run(program + words.split(), input=text, capture_output=True, text=True)
    return run.stdout + run.stderr


def entries(name):
    """The entries of an example: a file's name, and the commands for its text, each with what it has to write."""
    stem = os.path.join(EXAMPLES, name)
    commands = [("seq", read(f"{stem}.out"))]
    for dump in sorted(glob.glob(f"{stem}.*.out")):
        commands.append((f"dump {dump.split('.')[-2]} {name}", read(dump)))
    runs = []
    if os.path.exists(f"{stem}.run"):
        parts = re.split(r"^\$ mirpipe (.*)\n", read(f"{stem}.run"), flags=re.MULTILINE)[1:]
        runs = list(zip(parts[::2], parts[1::2]))
    return [(f"{name}.mir", commands + runs)] + ([(f"{name}.out", runs)] if runs else [])


def counts(text):
    """The blocks of a text, its locals without arguments, and its statements and terminators."""
    text = re.sub(r'"[^"]*"|//.*', "", text)
    blocks = len(re.findall(r"\bbb\d+\s*:\s*\{", text))
    locals_ = len(re.findall(r"\blet\b", text))
    lines = re.sub(r"\b(let|debug|struct|extern)\b[^;{}]*;", "", text).count(";")
    return blocks, locals_, lines


def steps(program, words, text):
    """With how many steps a run ends, if it does within a million."""
    words = words.rsplit(" ", 1)[0]
    few, many = 0, 1
    while "going" in answer(program, f"{words} {many}", text):
        few, many = many, 2 * many
    while few + 1 < many:
        middle = (few + many) // 2
        if "going" in answer(program, f"{words} {middle}", text):
            few = middle
        else:
            many = middle
    return many


def row(program, name):
    """How an example is before and after."""
    texts = [read(os.path.join(EXAMPLES, f"{name}.{end}")) for end in ("mir", "out")]
    cells = [f"{before} → {after}" for before, after in zip(*map(counts, texts))]
    runs = entries(name)[0][1]
    runs = [words for words, _ in runs if words.startswith("run ")]
    cells.append(" → ".join(str(steps(program, runs[0], text)) for text in texts) if runs else "")
    return f"| `{name}` | {' | '.join(cells)} |"


def differences(program, name):
    """Prints where the program answers otherwise than the files say, and tells how often."""
    wrong = 0
    for file, commands in entries(name):
        text = read(os.path.join(EXAMPLES, file))
        for words, wanted in commands:
            if answer(program, words, text) != wanted:
                print(f"{file}: {words}: another answer")
                wrong += 1
    return wrong


def with_examples(names, stdin, stdout):
    """The table with the entries of the examples at its head, in the place of those that are there."""
    texts = re.findall(r"((?:(?!== ).*\n)*)((?:== .*\n)+)", stdin)
    answers = re.findall(r"== .*\n(?:(?!== ).*\n)*", stdout)
    old = [text for text, _ in texts if text.startswith(MARK)]
    asked = sum(words.count("== ") for text, words in texts if text.startswith(MARK))
    new_in, new_out = "", ""
    for file, commands in (entry for name in names for entry in entries(name)):
        new_in += f"{MARK}{file}\n" + read(os.path.join(EXAMPLES, file)) + "".join(f"== {words}\n" for words, _ in commands)
        new_out += "".join(f"== {words} -> 0 \n{wanted}" for words, wanted in commands)
    return new_in + "".join(text + words for text, words in texts[len(old):]), new_out + "".join(answers[asked:])


def main():
    options = argparse.ArgumentParser(description=__doc__, formatter_class=argparse.RawDescriptionHelpFormatter)
    options.add_argument("--write", action="store_true", help="write the entries of crates/answer_table, and try nothing")
    options.add_argument("program", metavar="PROGRAM", nargs="*", default=PROGRAM, help="mirpipe itself, else crates/mirpipe/out/mirpipe")
    words = options.parse_intermixed_args()
    names = sorted(os.path.basename(path)[:-len(".mir")] for path in glob.glob(os.path.join(EXAMPLES, "*.mir")))
    paths = [os.path.join(TABLE, "stdin"), os.path.join(TABLE, "stdout")]
    old = [read(path) for path in paths]
    new = with_examples(names, *old)
    if words.write:
        for path, text in zip(paths, new):
            with open(path, "w", encoding="utf-8") as file:
                file.write(text)
        return
    if shutil.which(words.program[0]) is None:
        raise SystemExit(f"no program {words.program[0]}: `rt run` in crates/mirpipe builds it")
    print("| Example | Blocks | Locals | Lines | Steps |\n|---|---|---|---|---|")
    for name in names:
        print(row(words.program, name))
    wrong = sum(differences(words.program, name) for name in names)
    if list(new) != old:
        print("crates/answer_table: other entries than the examples, see --write")
    sys.exit(1 if wrong or list(new) != old else 0)


if __name__ == "__main__":
    main()
