#!/usr/bin/env python3
"""Makes large cases of what the program has no words for, and reports the time that the worked examples' program takes for each:
listings, overrides, dotenv pairs, and runs that only show what they would do.

    cd crates/just_examples && rt run -- $(cat args) && cd ../..     builds the program
    python3 benches/listings.py [PROGRAM]

A line has what is asked of which input, and the seconds of wall time and the peak resident memory in MiB of the fastest of
three runs. A first question of each input asks for the name of its module alone, so that compiling can be taken off.
"""
import os
import resource
import subprocess
import sys
import tempfile
import time

PROGRAM = "crates/just_examples/out/just_examples"


def recipes(count, groups):
    """Recipes from the last name to the first, each in one of the groups in turn."""
    lines = [f"[group('g{n % groups:04}')]\nr{count - n:06}:" for n in range(count)]
    return "--- /justfile\n" + "\n".join(lines) + "\n"


def modules(count):
    """Modules beside each other with a recipe each."""
    lines = "\n".join(f"mod m{count - n:04}" for n in range(count))
    return f"--- /justfile\n{lines}\n" + "".join(f"--- /m{n + 1:04}.just\na:\n" for n in range(count))


def variables(count):
    """Variables that a recipe of the root reads none of."""
    return "--- /justfile\n" + "".join(f"v{n:05} := 'a'\n" for n in range(count)) + "a:\n"


def overridden(count):
    """A run in which so many variables are overridden."""
    return "just " + " ".join(f"--override v{n:05}=b" for n in range(count)) + " a"


def modules_inside_each_other(count):
    """Modules inside each other, the root with a recipe."""
    parts = "".join(f"--- /{'/'.join(['m'] * (n + 1))}/mod.just\n{'mod m' if n + 1 < count else 'b:'}\n" for n in range(count))
    return f"--- /justfile\nmod m\na:\n{parts}"


def dotenv(count):
    """A run in which the root is answered so many pairs."""
    return "just --load-dotenv --answer pair=" + ",".join(f"n{n}=x" for n in range(count)) + " a"


def recipes_of_three_lines(count):
    """Recipes in a chain with three lines each."""
    lines = "  x\n  y\n  z\n"
    return "--- /justfile\n" + "".join(f"r{n}: r{n + 1}\n{lines}" for n in range(count - 1)) + f"r{count - 1}:\n{lines}"


INPUTS = [
    ("100,000 recipes in 1,000 groups", recipes(100_000, 1_000), ["Justfile::name", "list", "list unsorted", "groups", "dump"]),
    ("2,000 modules", modules(2_000), ["Justfile::name", "list", "list unsorted"]),
    ("2,000 variables", variables(2_000), ["just a", overridden(2_000)]),
    ("20,000 variables", variables(20_000), ["just a", overridden(20_000)]),
    ("200 modules inside each other", modules_inside_each_other(200), ["just --load-dotenv a", dotenv(10_000)]),
    ("10,000 recipes of three lines in a chain", recipes_of_three_lines(10_000), ["just r0", "just --dry-run r0"]),
]


def run(program, folder, name):
    """The seconds and the peak memory of one run."""
    start = time.perf_counter()
    process = subprocess.Popen([program, name], cwd=folder, stdout=subprocess.DEVNULL, stderr=subprocess.DEVNULL)
    _, _, usage = os.wait4(process.pid, 0)
    return time.perf_counter() - start, usage.ru_maxrss // 1024


def main(program):
    program = os.path.abspath(program)
    resource.setrlimit(resource.RLIMIT_STACK, (8 << 20, resource.getrlimit(resource.RLIMIT_STACK)[1]))
    with tempfile.TemporaryDirectory(prefix="listings-") as folder:
        for title, bundle, questions in INPUTS:
            for question in questions:
                with open(f"{folder}/case.txt", "w") as file:
                    file.write(f"Large.\n\n=== case\n{bundle}$ {question}\nnothing\n")
                seconds, memory = min(run(program, folder, "case.txt") for _ in range(3))
                print(f"{title}: {question[:40]}: {seconds:.2f} s, {memory} MiB")


if __name__ == "__main__":
    main(*(sys.argv[1:] or [PROGRAM]))
