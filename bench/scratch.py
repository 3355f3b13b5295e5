"""A program over crates of this repository, proved, built and run in a scratch folder."""
import os
import shutil
import subprocess
import tempfile

ROOT = os.path.dirname(os.path.dirname(os.path.abspath(__file__)))


def lines_below(uses):
    """The lines of crates.txt for these crates and all that they stand on."""
    with open(os.path.join(ROOT, "crates.txt")) as file:
        lines = {line.split(":")[0].split()[0]: line for line in file if ":" in line}
    found, left = {}, list(uses)
    while left:
        name = left.pop()
        if name in lines and name not in found:
            found[name] = lines[name]
            left += lines[name].split(":")[1].split()
    return found


def run(name, uses, files):
    """Runs the program whose crate uses these crates and has these files (texts by their paths), and prints its greatest memory in kilobytes."""
    lines = lines_below(uses)
    with tempfile.TemporaryDirectory() as scratch:
        crates = os.path.join(scratch, "crates")
        for crate in lines:
            shutil.copytree(os.path.join(ROOT, "crates", crate), os.path.join(crates, crate), ignore=shutil.ignore_patterns("out"))
        for path, text in files.items():
            path = os.path.join(crates, name, path)
            os.makedirs(os.path.dirname(path), exist_ok=True)
            with open(path, "w") as file:
                file.write(text)
        with open(os.path.join(scratch, "crates.txt"), "w") as file:
            file.writelines([*lines.values(), f"{name}: {' '.join(uses)}\n"])
        program = os.path.join(crates, name)
        subprocess.run(["rt", "run"], cwd=program, check=True, stdout=subprocess.DEVNULL, stderr=subprocess.DEVNULL)
        child = subprocess.Popen([os.path.join(program, "out", name)])
        _, _, usage = os.wait4(child.pid, 0)
        print(f"{usage.ru_maxrss} KB")
