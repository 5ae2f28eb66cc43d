#!/usr/bin/env python3
"""Makes large and hostile bundles and words, and looks that the program ends by itself on each.

    cd crates/justrun && rt run -- /justfile a < stdin && cd ../..     builds the program
    python3 benches/hostile.py [PROGRAM] [--part N] [--memory MIB] [--cpu SECONDS] [--only WORD]

Each runs in 8 MiB of stack, in so much memory and for so many seconds of a processor at most. --part divides all sizes,
for a slow build. A line has the input's name, its size in bytes, the status, the lines printed, the seconds of wall
time, the peak resident memory in MiB and the first line of the error output. Nothing else is asserted than that the
status is 0 or 1: a signal, as that of a stack that is too small, is told with `ENDED BADLY`, and then the status is 1.

Linux hands a program no word of 128 KiB or more, so words end there.
"""
import argparse
import os
import resource
import sys

import justrun

WORD = 131_000


class Raw(bytes):
    """An input that may be no text."""

    def encode(self):
        return self


def bundle(*lines):
    return justrun.bundle(*lines)


def repeated(text, front="", back="", words=("a",)):
    """A line of a text many times, before a recipe."""
    return lambda count: (bundle(front + text * count + back, "a:"), list(words))


def many_lines(line, back="a:", words=("a",), front=()):
    """Lines of one kind, in which {n} is the number and {m} the next."""
    return lambda count: (bundle(*front, *(line.replace("{n}", str(n)).replace("{m}", str(n + 1)) for n in
                                           range(count)),
                                 back), list(words))


def long_name(count):
    return bundle("a" * count + ":", "b: " + "a" * count), ["b"]


def long_word(text, *front):
    """A word of a text many times, for a recipe with an option."""
    def made(count):
        word = text * (min(count, WORD) // len(text))
        return bundle("[arg('x', short='x', long='x', flag)]", "r *x:", "p *y:", "a:"), [*front, word]
    return made


def many_words(*some):
    def made(count):
        return bundle("[arg('x', short='x', flag)]", "r *x:", "p *y:", "a:"), list(some) * (min(count, 100_000) //
                                                                                            len(some))
    return made


def matched(pattern, text):
    """A word of a text many times, and a pattern for it."""
    def made(count):
        return bundle(f"[arg('x', pattern='{pattern}')]", "r x:"), ["r", text * (min(count, WORD) // len(text))]
    return made


def pattern_of(front, middle, back, text="a"):
    """A pattern that is as large as that."""
    def made(count):
        return bundle(f"[arg('x', pattern='{front * count}{middle}{back * count}')]", "r x:"), ["r", text]
    return made


def modules_of_one_file(count):
    return bundle(*(f"mod m{n} 'x'" for n in range(count)), "a:") + "--- /x\nb:\n", ["a"]


def modules_inside(count):
    return justrun.module_chain(count)


def circle_of_files(count):
    return bundle("import 'f0'") + "".join(f"--- /f{n}\nimport 'f{(n + 1) % count}'\n" for n in range(count)), ["a"]


def files_that_import_all(count):
    """Files of which each imports all after it: how many chains there are doubles with each."""
    names = [f"f{n}" for n in range(count)]
    return bundle(*(f"import '{name}'" for name in names), "a:") + "".join(
        f"--- /{name}\n" + "".join(f"import '{to}'\n" for to in names[n + 1:]) for n, name in enumerate(names)), ["a"]


def modules_that_double(count):
    """Files of which each is two modules of the one before: how many modules there are doubles with each."""
    count = min(count, 12)
    return bundle("mod m 'f0'", "mod n 'f0'", "a:") + "".join(
        f"--- /f{n}\nmod m 'f{n + 1}'\nmod n 'f{n + 1}'\n" for n in range(count)) + f"--- /f{count}\n", ["a"]


def odd_path(part):
    return lambda count: (bundle(f"import? '{part * count}x'", f"mod? m '{part * count}x'", "a:"), ["a"])


def long_path_of_a_file(count):
    path = "/".join(["d" * 200] * (count // 200))
    return bundle(f"import '{path}/x'", "a:") + f"--- /{path}/x\nb:\n", ["b"]


def followed_twice(count):
    """Each recipe is followed by the next two: how many run grows with the size of the whole expansion."""
    count = min(count, 14)
    return bundle(*(f"r{n}: && x{n} y{n}\nx{n}: && r{n + 1}\ny{n}: && r{n + 1}" for n in range(count)),
                  f"r{count}:"), ["r0"]


def growing_text(count):
    """A text that doubles with each of so many functions."""
    count = min(count, 20)
    return bundle(*(f"f{n}(x) := f{n + 1}(x + x)" for n in range(count)), f"f{count}(x) := 'a'", "a:",
                  "  @{{ f0('ab') }}"), ["a"]


def calls_that_double(count):
    """Functions that each call the next twice."""
    count = min(count, 14)
    return bundle(*(f"f{n}() := f{n + 1}() + f{n + 1}()" for n in range(count)), f"f{count}() := ''", "a:",
                  "  @x{{ f0() }}"), ["a"]


def growing_for_ever(_):
    """A text that doubles with each call, and calls that end by their depth alone: memory is refused before."""
    return bundle("f(x) := f(x + x)", "a:", "  @{{ f('ab') }}"), ["a"]


def no_text(part):
    return lambda count: (Raw(b"--- /justfile\na:\n" + part * count), ["a"])


INPUTS = {
    "a name of a megabyte": (long_name, 1_000_000),
    "a line of a megabyte that is no line": (repeated("$"), 1_000_000),
    "a megabyte of blanks before a recipe": (lambda count: (bundle("a :" + " " * count), ["a"]), 1_000_000),
    "a megabyte of quotes": (repeated("'", "x := "), 1_000_001),
    "a quoted text of a megabyte": (repeated("é", "x := '", "'"), 500_000),
    "a megabyte of signs @": (repeated("@"), 1_000_000),
    "a megabyte of colons": (repeated(":", "a"), 1_000_000),
    "parentheses": (lambda count: (bundle("x := " + "(" * count + "'a'" + ")" * count, "a:"), ["a"]), 1_000_000),
    "parentheses that do not close": (repeated("(", "x := "), 1_000_000),
    "brackets": (lambda count: (bundle("set lists", "x := " + "[" * count + "]" * count, "a:"), ["a"]), 300_000),
    "calls inside each other": (lambda count: (bundle("f(x) := x", "x := " + "f(" * count + "'a'" + ")" * count, "a:"),
                                               ["a"]),
                                100_000),
    "a sum": (repeated(" + 'a'", "x := 'a'"), 300_000),
    "names that are not defined": (repeated(" + y", "x := y"), 100_000),
    "an interpolation that does not end": (lambda count: (bundle("a:", "  " + "{{" * count), ["a"]), 500_000),
    "interpolations": (lambda count: (bundle("a:", "  " + "{{ 'a' }}" * count), ["a"]), 100_000),
    "a path of names": (lambda count: (bundle("a: " + "::".join(["m"] * count)), ["a"]), 300_000),
    "arguments of a dependency": (lambda count: (bundle("c *x:", "a: (c" + " 'a'" * count + ")"), ["a"]), 100_000),
    "a star over texts": (lambda count: (bundle("set lists", "d x:", "a: *(d *[" + ", ".join(["'a'"] * count) + "])"),
                                         ["a"]),
                          100_000),
    "lines": (many_lines("# a comment"), 1_000_000),
    "empty lines of a body": (lambda count: (bundle("a:", *["  "] * count), ["a"]), 1_000_000),
    "lines that go on": (lambda count: (bundle("a:", *["  x\\"] * count), ["a"]), 100_000),
    "carriage returns": (many_lines("\r"), 100_000),
    "groups of one recipe": (many_lines("[group('g')]"), 100_000),
    "docs of one recipe": (many_lines("[doc('g')]"), 100_000),
    "confirmations of one recipe": (many_lines("[confirm]"), 100_000),
    "an attribute before nothing": (lambda count: (bundle("a:", *["[private]"] * count), ["a"]), 100_000),
    "a setting that is set often": (many_lines("set quiet"), 100_000),
    "a name that is unexported often": (many_lines("unexport x"), 100_000),
    "a recipe that is defined often": (many_lines("a:", front=["set allow-duplicate-recipes"]), 100_000),
    "a circle of recipes": (lambda count: (bundle(*(f"r{n}: r{(n + 1) % count}" for n in range(count))), ["r0"]),
                            100_000),
    "a circle of variables": (lambda count: (bundle(*(f"v{n} := v{(n + 1) % count}" for n in range(count)), "a:"),
                                             ["a"]), 20_000),
    "a circle of functions": (lambda count: (bundle(*(f"f{n}() := f{(n + 1) % count}()" for n in range(count)), "a:",
                                                    "  {{ f0() }}"),
                                             ["a"]), 20_000),
    "parameters of one name": (repeated(" x", "b", ":"), 100_000),
    "a parameter that is named by attributes often": (many_lines("[arg('x')]", "a x:"), 100_000),
    "aliases of one recipe": (many_lines("alias b{n} := a"), 20_000),
    "aliases of each other": (many_lines("alias b{n} := b{m}"), 20_000),
    "absent modules": (many_lines("mod? m{n}"), 20_000),
    "modules of one file": (modules_of_one_file, 10_000),
    "modules inside each other": (modules_inside, 2_000),
    "modules that double": (modules_that_double, 12),
    "a circle of files": (circle_of_files, 20_000),
    "files that import all after them": (files_that_import_all, 300),
    "a path that goes up": (odd_path("../"), 300_000),
    "a path that stays": (odd_path("./"), 300_000),
    "a path of slashes": (odd_path("/"), 1_000_000),
    "a file of a long path": (long_path_of_a_file, 1_000_000),
    "recipes that are followed by two": (followed_twice, 12),
    "a text that doubles": (growing_text, 20),
    "calls that double": (calls_that_double, 14),
    "a text that doubles for ever": (growing_for_ever, 1),
    "bytes that are no text": (no_text(b"\xff"), 1_000_000),
    "bytes of nothing": (no_text(b"\0"), 1_000_000),
    "lines that begin files": (lambda count: (bundle("a:") + "--- /x\n" * count, ["a"]), 100_000),
    "a word of dashes": (long_word("-"), WORD),
    "a word of dashes for a recipe": (long_word("-", "r"), WORD),
    "a word of letters for a recipe": (lambda count: long_word("x")(count)[:1] +
                                       (["r", "-" + "x" * (min(count, WORD) - 2)],), WORD),
    "a word of equals signs": (long_word("=", "p"), WORD),
    "a word of colons": (long_word("::"), WORD),
    "a word of names": (long_word("a::"), WORD),
    "words": (many_words("a"), 100_000),
    "words that are empty": (many_words(""), 100_000),
    "words of one parameter": (lambda count: (bundle("p *y:"), ["p"] + ["-"] * min(count, 100_000)), 100_000),
    "words of options": (many_words("r", "-x"), 100_000),
    "words of dashes": (lambda count: (bundle("[arg('x', short='x')]", "r *x *y:"), ["r"] + ["--"] *
                                       min(count, 100_000)), 100_000),
    "a pattern against a long word": (matched("(a|b)*", "ab"), WORD),
    "a pattern against a long word that it does not match": (matched("(a*)*c", "a"), WORD),
    "a pattern of many parts": (pattern_of("(a|b)?", "", ""), 10_000),
    "a pattern that is deep": (pattern_of("(", "a", ")"), 100_000),
    "a pattern that is large": (lambda _: (bundle("[arg('x', pattern='((a{1000}){1000}){1000}')]", "r x:"), ["r", "a"]),
                                1),
}


def limit(kind, most):
    resource.setrlimit(kind, (most, resource.getrlimit(kind)[1]))


def main():
    parser = argparse.ArgumentParser()
    parser.add_argument("program", nargs="?", default=justrun.PROGRAM)
    parser.add_argument("--part", type=int, default=1, help="divides the sizes")
    parser.add_argument("--memory", type=int, default=4096, help="the most memory in MiB, or 0")
    parser.add_argument("--cpu", type=int, default=600, help="the most seconds of a processor")
    parser.add_argument("--only", default="", help="the inputs that have this in their names")
    given = parser.parse_args()
    if not os.path.exists(given.program):
        sys.exit(f"{given.program} is not there: build it first (see the head of this file)")
    limit(resource.RLIMIT_CPU, given.cpu)
    limit(resource.RLIMIT_CORE, 0)
    if given.memory:
        limit(resource.RLIMIT_AS, given.memory << 20)
    bad = 0
    for name, (made, count) in INPUTS.items():
        if given.only not in name:
            continue
        text, words = made(max(1, count // given.part) if count > 100 else count)
        status, printed, seconds, peak, told = justrun.measure(given.program, text, ["/justfile", *words])
        bad += status not in (0, 1)
        print(f"{name}: {len(text)} bytes, status {status}, {printed} lines, {seconds:.2f} s, {peak:.0f} MiB "
              f"{told[:100]}"
              + " ENDED BADLY" * (status not in (0, 1)), flush=True)
    print(f"{bad} ended badly")
    return 1 if bad else 0


if __name__ == "__main__":
    sys.exit(main())
