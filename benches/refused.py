#!/usr/bin/env python3
"""Refuses memory to the built programs at each place in turn, and looks for a wrong answer.

    python3 benches/refused.py [FOLDER]

FOLDER is a work tree in which `rt ci` has built crates/justrun and crates/just_examples; left out it is this one. A library
that stands before the allocator (benches/refused.c, by cc) refuses the Nth request, for each N up to how many there are.

Each run of the program must answer as the whole one does, or want of memory: then what it printed is a beginning of what the
whole one prints. Of each case of an example, it must hold, or what differs must be want of memory, with nothing but a
beginning of the answer before it; or the program ends for want of memory. Any other answer is printed, and makes the status 1.
"""
import os
import re
import subprocess
import sys
import tempfile
from concurrent.futures import ThreadPoolExecutor
from pathlib import Path

TOP = Path(__file__).resolve().parent.parent
MEMORY = "justrun: Memory: Out of memory"
RUNS = [
    ("recipes run", "--- /justfile\na: b c\nb: d\nc: d\nd:\n", ["/justfile", "a"]),
    (
        "imports and modules",
        "--- /justfile\nimport 'x'\nmod m\na: b\n--- /x\nb:\n--- /m.just\nmod n 'x'\nc:\n",
        ["/justfile", "a"],
    ),
    (
        "modules inside each other with aliases",
        "--- /justfile\nmod m\nalias k := m\nalias r := m::n::c\n"
        "--- /m.just\nmod n\nalias d := n::c\n--- /n.just\nc:\n  1\n",
        ["/justfile", "k", "d", "r"],
    ),
    (
        "dependencies with arguments",
        "--- /justfile\nv := '1'\na: (b 'x') (b v 'y') && (b 'x')\nb p q='2':\n  {{p}} {{q}}\n",
        ["/justfile", "a"],
    ),
    ("starred dependencies", "--- /justfile\nset lists\nxs := ['1', '2']\nd x:\na: *(d *xs)\n", ["/justfile", "a"]),
    ("a disabled recipe", "--- /justfile\nmod? m\na: m::x\nb: a\n", ["/justfile", "b"]),
    ("a parameter stands twice", "--- /justfile\na x x:\n", ["/justfile", "a"]),
    (
        "imports in a circle",
        "--- /justfile\nimport 'x'\na:\n--- /x\nimport 'y'\n--- /y\nimport 'x'\n",
        ["/justfile", "a"],
    ),
    ("a rule is broken", "--- /justfile\na: b\nb: a\n", ["/justfile", "a"]),
    ("words are refused", "--- /justfile\np x:\n", ["/justfile", "p"]),
]
# Cases of the examples, by their files: a listing, the text of a module, and the forms that the program has no words for.
CASES = {"evaluate.txt": 6, "command.txt": 4, "listings.txt": 6, "texts.txt": 6, "commands.txt": 6, "dependencies.txt": 4}


def cases_of(path, most):
    """The first cases of a file that are short."""
    cases = path.read_text().split("\n=== ")[1:]
    return [case for case in cases if len(case) < 800 and "\\[" not in case][:most]


class Tried:
    """A program that is run again and again, each time with another request refused."""

    def __init__(self, library, command, given, folder):
        self.library, self.command, self.given, self.folder = library, command, given, folder

    def run(self, number, count=None):
        environment = {**os.environ, "LD_PRELOAD": str(self.library), "REFUSED_AT": str(number)}
        if count:
            environment["REFUSED_COUNT"] = str(count)
        how = {"cwd": self.folder, "env": environment, "input": self.given, "capture_output": True, "timeout": 60}
        made = subprocess.run(self.command, text=True, errors="replace", **how)
        return made.stdout, made.stderr, made.returncode

    def sweep(self, room):
        """The whole answer, and those of the runs in which a request was refused."""
        count = room / "count"
        whole = self.run(0, count)
        with ThreadPoolExecutor(os.cpu_count()) as pool:
            return whole, list(pool.map(self.run, range(1, int(count.read_text()) + 1)))


def told(errors):
    """The last line of justrun's own on the error output."""
    lines = [line for line in errors.splitlines() if line.startswith("justrun: ")]
    return lines[-1] if lines else ""


def is_right(whole, now):
    """Whether a run answers as the whole one, or want of memory."""
    if now == whole:
        return True
    said = told(now[1])
    return whole[0].startswith(now[0]) and now[2] in (1, whole[2]) and (MEMORY.startswith(said) or told(whole[1]).startswith(said))


def is_beginning(line, wanted):
    """Whether a line tells want of memory, or a beginning of what is wanted, or nothing."""
    word, _, rest = line.partition(" ")
    begun = rest in ("nothing", "0") or any(other.startswith(line) for other in wanted)
    return "memory" in line.lower() or line == "no such line" or (begun and any(other.split(" ")[0] == word for other in wanted))


def is_right_case(whole, now):
    """Whether a case holds, or differs by want of memory alone."""
    if now == whole:
        return True
    if not now[0]:
        return now[2] == 1 and "memory" in now[1].lower()
    found = re.findall(r"^  (?:found|more): +(.*)$", now[0], re.MULTILINE)
    wanted = re.findall(r"^  wanted: (.*)$", now[0], re.MULTILINE)
    is_told = any("memory" in line.lower() for line in found)
    return now[2] == 1 and is_told and all(is_beginning(line, wanted) for line in found)


def report(name, whole, runs, right):
    """Tells of a sweep, and answers how many runs of it are wrong."""
    wrong = [(place, now) for place, now in enumerate(runs, 1) if not right(whole, now)]
    for place, now in wrong[:5]:
        print(f"{name}, request {place}: {now!r}")
    refused = sum(now != whole for now in runs)
    print(f"{name}: {len(runs)} requests, {refused} refusals told, {len(wrong)} wrong", flush=True)
    return len(wrong)


def main(folder):
    crates = folder / "crates"
    programs = crates / "justrun" / "out" / "justrun", crates / "just_examples" / "out" / "just_examples"
    with tempfile.TemporaryDirectory(prefix="refused-") as name:
        room, wrong = Path(name), 0
        library = room / "refused.so"
        subprocess.run(["cc", "-O1", "-shared", "-fPIC", "-o", library, TOP / "benches" / "refused.c"], check=True)
        for name, bundle, words in RUNS:
            tried = Tried(library, [programs[0], *words], bundle, room)
            wrong += report(name, *tried.sweep(room), is_right)
        for file, most in CASES.items():
            for case in cases_of(crates / "just_examples" / "data" / file, most):
                (room / "case.txt").write_text("=== " + case)
                tried = Tried(library, [programs[1], "case.txt"], "", room)
                wrong += report(case.splitlines()[0], *tried.sweep(room), is_right_case)
    print(f"{wrong} wrong")
    return 1 if wrong else 0


if __name__ == "__main__":
    sys.exit(main(Path(sys.argv[1]).resolve() if len(sys.argv) > 1 else TOP))
