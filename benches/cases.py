#!/usr/bin/env python3
"""Runs the worked examples through justrun, as far as it can be asked what they ask.

    cd crates/justrun && rt run -- /justfile a < stdin && cd ../..     builds the program
    python3 benches/cases.py [PROGRAM]

Of each case in crates/just_examples/data, each question `$ just WORD ..` without options is put to the program, with the
case's bundle on standard input. Compared are the status, the recipes that began where the case tells them, and the name of
the error where the case tells one. Each that differs has a line; the last line counts, and the status is 1 where one differs.
"""
import re
import subprocess
import sys
from pathlib import Path

TOP = Path(__file__).resolve().parent.parent
PROGRAM = "crates/justrun/out/justrun"


def unmarked(text):
    """What a text of a case stands for."""
    def turns(match):
        first, last, turn = int(match[1]), int(match[2]), match[3]
        numbers = range(first, last + 1) if first <= last else range(first, last - 1, -1)
        return "".join(turn.replace("\\i", str(n)).replace("\\j", str(n + 1)) for n in numbers)
    text = re.sub(r"\\\[(\d+)\.\.(\d+) (.*?)\\\]", turns, text, flags=re.DOTALL)
    for mark, meant in (("\\n", "\n"), ("\\r", "\r"), ("\\t", "\t"), ("\\s", " "), ("\\e", "")):
        text = text.replace(mark, meant)
    return text


def cases():
    """The name of each case, its bundle, and its questions, each with what is wanted."""
    for file in sorted((TOP / "crates/just_examples/data").glob("*.txt")):
        for part in re.split(r"^=== ", file.read_text(), flags=re.MULTILINE)[1:]:
            name, _, rest = part.partition("\n")
            lines, questions = rest.split("\n"), []
            begin = next((n for n, line in enumerate(lines) if line.startswith("$ ")), len(lines))
            for line in lines[begin:]:
                if line.startswith("$ "):
                    questions.append((line[2:], []))
                elif line:
                    questions[-1][1].append(line)
            yield name, "".join(f"{line}\n" for line in lines[:begin]), questions


def is_plain(question):
    """Whether justrun can be asked it: words alone, from /justfile."""
    return question == "just" or question.startswith("just ") and not question.startswith("just --")


def differs(program, bundle, question, wanted):
    """What the program does in another way than the case wants, or nothing."""
    words = [unmarked(word) for word in question.split(" ")[1:] if word]
    if sum(map(len, words)) > 100_000:
        return None
    ran = subprocess.run([program, "/justfile", *words], input=unmarked(bundle).encode(), capture_output=True)
    errors = [unmarked(line).split(": ")[0].removeprefix("error ") for line in wanted if line.startswith("error ")]
    said = ran.stderr.decode(errors="replace")
    if ran.returncode != (1 if errors else 0):
        return f"status {ran.returncode}, {said.strip()[:100]}"
    if errors and not said.startswith(f"justrun: {errors[0]}: "):
        return f"told {said.strip()[:100]}, not {errors[0]}"
    began = [line for line in ran.stdout.decode().split("\n") if line and not line.startswith(" ")]
    for line in wanted:
        if line.startswith("executed "):
            told = line.removeprefix("executed ")
            if ", ".join(began) != unmarked("" if told == "nothing" else told):
                return f"began {', '.join(began)[:100]}, not {told[:100]}"
    return None


def main(arguments):
    program = Path(arguments[0] if arguments else TOP / PROGRAM).resolve()
    asked = other = 0
    for name, bundle, questions in cases():
        for question, wanted in questions:
            if is_plain(question):
                asked += 1
                why = differs(program, bundle, question, wanted)
                if why:
                    other += 1
                    print(f"{name}: {question[:60]}: {why}")
    print(f"{asked} questions, {other} differ")
    return int(other > 0)


if __name__ == "__main__":
    sys.exit(main(sys.argv[1:]))
