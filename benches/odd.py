#!/usr/bin/env python3
"""Compares the program with a second reading of the documents, on odd bundles and words.

    cd crates/justrun && rt run -- /justfile a < stdin && cd ../..              builds the program
    python3 benches/odd.py [PROGRAM] [--seed N] [--count N] [--kind KIND]

Each case is made from its seed (benches/odd_cases.py): a tame one, which is mostly right, a wild one, which has
changes, odd lines, or a small one about one thing. It is read by benches/reading.py, and run by one process. What is
compared: the status, the printed lines, and of a fault its name and its message, which must be one of those that the
reading has. A disagreement is printed with its seed, its words and its bundle; the last line counts, and the status is
1 if there was any.
"""
import argparse
import collections
import re
import subprocess
import sys

import odd_cases
import reading
from reading_values import Unsure

PROGRAM = "crates/justrun/out/justrun"


def spelled(text):
    """A message in one line: control characters are spelled out."""
    found = ""
    for letter in text:
        code = ord(letter)
        if letter in "\t\r\n":
            found += {"\t": "\\t", "\r": "\\r", "\n": "\\n"}[letter]
        elif code < 32 or 127 <= code < 160:
            found += f"\\u{{{code:x}}}"
        else:
            found += letter
    return found


def call(program, root, words, given):
    """The status, the output and the errors of one process."""
    ended = subprocess.run([program, root, *words], input=given, capture_output=True, timeout=60)
    return ended.returncode, ended.stdout, ended.stderr


def disagreement(wanted, status, output, errors):
    """Why an answer is not the wanted one, or none where it is."""
    if status != wanted.status:
        return "the status differs"
    if output != wanted.output.encode():
        return "the output differs"
    if not wanted.faults:
        return "there are errors" if errors else None
    try:
        told = errors.decode()
    except UnicodeDecodeError:
        return "the errors are no text"
    if not told.endswith("\n") or told.count("\n") > 1:
        return "the errors are not one line"
    # (the line that the program finds for an error without a place is not read here)
    told = re.sub(r"^(justrun: (?:CircularImport|Homedir): .*); see line \d+ of `.*`\n$", r"\1\n", told)
    for fault in wanted.faults:
        front = f"justrun: {fault.name}: "
        if fault.message is None and told.startswith(front) or told == front + spelled(fault.message or "") + "\n":
            return None
    names = told.split(": ")[1] in [fault.name for fault in wanted.faults]
    return "the message differs" if names else "the name of the error differs"


def shown(case, wanted, status, output, errors):
    lines = [f"root {case.root} words {case.words}", case.given.decode(errors="backslashreplace"),
             f"program: status {status}", output.decode(errors="backslashreplace") +
             errors.decode(errors="backslashreplace"),
             f"reading: status {wanted.status}", wanted.output +
             "".join(f"{one.name}: {one.message}\n" for one in wanted.faults)]
    return "\n".join(lines)


def compare(program, case, counts):
    """Compares one case, and answers a disagreement or none."""
    try:
        wanted = reading.answer(case.root, case.words, case.given)
    except Unsure:
        counts[case.kind, "left out"] += 1
        return None
    status, output, errors = call(program, case.root, case.words, case.given)
    why = disagreement(wanted, status, output, errors)
    if why is None:
        counts[case.kind, wanted.faults[0].name if wanted.faults else "success"] += 1
        return None
    counts[case.kind, "disagreements"] += 1
    return why + "\n" + shown(case, wanted, status, output, errors)


def main():
    parser = argparse.ArgumentParser()
    parser.add_argument("program", nargs="?", default=PROGRAM)
    parser.add_argument("--seed", type=int, default=0, help="the first seed")
    parser.add_argument("--count", type=int, default=1000, help="how many seeds")
    parser.add_argument("--kind", choices=sorted(set(odd_cases.ROUND)), help="cases of this kind alone")
    parser.add_argument("--counts", action="store_true", help="tell how often each end came")
    given = parser.parse_args()
    counts, found = collections.Counter(), 0
    for seed in range(given.seed, given.seed + given.count):
        case = odd_cases.case_of(seed)
        if given.kind in (None, case.kind):
            why = compare(given.program, case, counts)
            if why is not None:
                found += 1
                print(f"seed {seed}: {why}", flush=True)
    if given.counts:
        for (kind, end), count in sorted(counts.items()):
            print(f"{kind} {end} {count}")
    print(f"{sum(counts.values())} cases, {found} disagreements")
    return 1 if found else 0


if __name__ == "__main__":
    sys.exit(main())
