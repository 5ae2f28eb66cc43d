#!/usr/bin/env python3
"""A second reading of the documents: what `justrun ROOT WORD..` answers to a bundle.

    printf -- '--- /justfile\na: b\nb:\n' | python3 benches/reading.py /justfile a

It was written from docs/plain.md, docs/rules.md and docs/definitions.md and shares nothing with the code: plain
definitions, as slow as they like. What these do not tell, as the wording of some messages, is what the program printed. benches/odd.py compares the program with it. Its parts are reading_grammar.py (what a
text says), reading_files.py (which files there are), reading_values.py (what expressions come to), reading_rules.py
(what is broken), reading_words.py (what words mean) and reading_run.py (what a run prints).
"""
import sys
from dataclasses import dataclass, field

from reading_files import BundleFault, Fault, Files, files_of, is_clean, module_of
from reading_rules import Judged
from reading_run import Run
from reading_words import WordsFault, split


@dataclass
class Answer:
    """The status, the printed lines, and of a fault all that may be told."""
    status: int
    output: str = ""
    faults: list = field(default_factory=list)


def refused(*faults, output=""):
    return Answer(1, output, list(faults))


def answer(root, words, given):
    """What the program answers to the bytes of an input."""
    if not is_clean(root):
        return refused(Fault("NotClean"))
    try:
        files = files_of(given.decode("utf-8"))
    except UnicodeDecodeError:
        return refused(Fault("Bundle"))
    except BundleFault as fault:
        return refused(Fault("Bundle", str(fault)))
    if root not in files:
        return refused(Fault("Load"))
    reached = Files(files, root)
    if reached.faults:
        return refused(*reached.faults)
    judged = Judged(module_of(reached, (), root))
    faults = judged.judge()
    if faults:
        return refused(*faults)
    try:
        invocations = split(judged, words)
    except WordsFault as fault:
        return refused(fault.fault)
    run = Run(judged, invocations)
    run.go()
    output = "".join(line + "\n" for line in run.lines)
    return refused(run.fault, output=output) if run.fault else Answer(0, output)


def main():
    found = answer(sys.argv[1], sys.argv[2:], sys.stdin.buffer.read())
    sys.stdout.write(found.output)
    for fault in found.faults:
        print(f"justrun: {fault.name}: {fault.message}", file=sys.stderr)
    return found.status


if __name__ == "__main__":
    sys.exit(main())
