#!/usr/bin/env python3
"""Counts the instructions of justrun and of benches/plain.rs by callgrind, and their peak memory.

    cd crates/justrun && rt run -- /justfile a < stdin && cd ../..     builds the program
    python3 benches/instructions.py [PROGRAM]

It builds benches/plain.rs by rustc, and wants valgrind. Counts are the same whatever else the machine does. A line has the
input's name, the millions of instructions of both programs, and how many times those of the second the first takes; the last
line the same of the peak memory of a chain of 1,000,000 recipes, which is measured without callgrind. Nothing is asserted.
"""
import re
import subprocess
import sys
import tempfile
from pathlib import Path

sys.path.insert(0, str(Path(__file__).resolve().parent))
sys.dont_write_bytecode = True
import justrun

INPUTS = {
    "chain of 10,000 recipes": justrun.chain(10_000),
    "10,000 recipes, each followed by the next": justrun.followed(10_000),
    "20,000 recipes with two dependencies each": justrun.two_each(20_000),
}


def instructions(room, program, text, words):
    """The instructions that a program takes, in millions."""
    given = room / "given"
    given.write_text(text)
    command = ["valgrind", "--tool=callgrind", f"--callgrind-out-file={room}/out", program, "/justfile", *words]
    with open(given, "rb") as it:
        done = subprocess.run(command, stdin=it, stdout=subprocess.DEVNULL, stderr=subprocess.PIPE, text=True, check=True)
    return int(re.search(r"Collected : (\d+)", done.stderr).group(1)) / 1e6


def peak(program, text, words):
    """The peak resident memory in MiB."""
    return justrun.measure(program, text, ["/justfile", *words])[3]


def main():
    program = sys.argv[1] if len(sys.argv) > 1 else justrun.PROGRAM
    with tempfile.TemporaryDirectory() as folder:
        room = Path(folder)
        plain = str(room / "plain")
        source = Path(__file__).resolve().parent / "plain.rs"
        subprocess.run(["rustc", "-O", "-o", plain, str(source)], check=True)
        for name, (text, words) in INPUTS.items():
            ours, theirs = (instructions(room, it, text, words) for it in (program, plain))
            print(f"{name}: {ours:.0f} and {theirs:.0f} million instructions, {ours / theirs:.2f} times", flush=True)
        text, words = justrun.chain(1_000_000)
        ours, theirs = (peak(it, text, words) for it in (program, plain))
        print(f"chain of 1,000,000 recipes: {ours:.0f} and {theirs:.0f} MiB, {ours / theirs:.2f} times")


if __name__ == "__main__":
    main()
