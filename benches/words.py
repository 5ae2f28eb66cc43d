#!/usr/bin/env python3
"""Looks for words that the documents have and the tree has not, and for words that the specifications define twice.

    python3 benches/words.py               words in backticks of README.md, CONTRIBUTING.md and docs/ that stand nowhere
                                           in crates/, crates.txt or benches/: one line FILE:LINE: WORD each, status 1
    python3 benches/words.py --doubled     words that more than one file of specs/ defines, each with its files; those of which
                                           a file stands in the order of reading of docs/definitions.md have a `*`

The first also says whether the program that README.md shows is the crate `caller`, and which definition outside the folders
specs/loops needs a word of one, which are for private functions alone.

Of what stands in backticks only identifiers in the form of code are looked for: with an underscore, with a capital before
small letters, or a part of a path (`Compiler::compile`). What is not built yet is left out: a line that has a dagger or says
`comes with`, with the list below it, and what stands under such a heading or in such a column; so is a column that is headed
`Original`, and each block of code. Of a word that is there, it does not ask whether it is what the text says of it.
"""
import re
import sys
from collections import defaultdict
from pathlib import Path

TOP = Path(__file__).resolve().parent.parent
WORD = re.compile(r"[A-Za-z_][A-Za-z0-9_]*")
SPAN = re.compile(r"(`+)(.+?)\1")
TO_COME = re.compile("†|comes? with|come with")

# Words that the tree need not have, each with what it is.
ALLOWED = {
    "JUST_UNSTABLE",  # a variable of the environment that `just` reads, told as left out
    "Regex", "regex",  # the toolchain's, told as what a pattern will hold
}


def documents():
    return [TOP / "README.md", TOP / "CONTRIBUTING.md", *sorted((TOP / "docs").glob("*.md"))]


def words_of_tree():
    """Each word that a file of the tree has, in its text or in its path."""
    words = set()
    for path in [TOP / "crates.txt", *(TOP / "crates").rglob("*"), *(TOP / "benches").rglob("*")]:
        if "out" in path.parts:
            continue
        words.update(WORD.findall(str(path.relative_to(TOP))))
        if path.is_file() and path.name != "words.py":
            words.update(WORD.findall(path.read_text(errors="ignore")))
    return words


def is_code(word, text):
    """Whether a word has the form of code, or is a part of a path."""
    capitals = re.search("^[A-Z].*[a-z]", word)
    path = re.search(rf"::{word}\b|\b{word}::", text)
    return len(word.strip("_")) > 1 and bool("_" in word.strip("_") or capitals or path)


def cells_told(line, columns):
    """A line of a table without these columns."""
    return " | ".join(cell for i, cell in enumerate(line.split(" | ")) if i not in columns)


def told_lines(lines):
    """The lines that tell of what is there, each with its number, without the columns that tell of what is not."""
    heading, columns, above, fenced = "", None, None, False
    for number, line in enumerate(lines, 1):
        fenced ^= line.startswith("```")
        heading = line if line.startswith("#") else heading
        if not line.startswith("|"):
            columns = None
        elif columns is None:
            columns = [i for i, cell in enumerate(line.split(" | ")) if "†" in cell or "Original" in cell]
        told = cells_told(line, columns or [])
        indent = len(line) - len(line.lstrip()) + (line.lstrip()[:2] == "- ")
        if line.strip() and above is not None and indent <= above:
            above = None
        if TO_COME.search(told) and not line.startswith("|"):
            above = indent
        is_block = fenced or (line.startswith("    ") and not line.lstrip()[:2] == "- ")
        if above is None and not is_block and not TO_COME.search(heading + told):
            yield number, told


def missing():
    """The words of the documents that the tree has not."""
    tree, found = words_of_tree() | ALLOWED, []
    for path in documents():
        lines = path.read_text().splitlines() if path.is_file() else []
        for number, line in told_lines(lines):
            for _, text in SPAN.findall(line):
                words = dict.fromkeys(word for word in WORD.findall(text) if is_code(word, text))
                found += [f"{path.relative_to(TOP)}:{number}: {word}" for word in words if word not in tree]
    return found


def doubled():
    """The words that more than one file of the specifications defines, each with its files, and how many words there are."""
    top = r"(?:\w+ )*pub (?:\w+ )*?"
    in_module = r" +(?:abbrev |unfoldable )pub | +pub (?:data |record )"
    defined = re.compile(rf"^(?:{top}|{in_module})([\w\-«»]+) *[:({{]", re.MULTILINE)
    files = defaultdict(set)
    for path in sorted((TOP / "crates").glob("*/specs/**/*.antt")):
        for word in defined.findall(path.read_text()):
            files[word].add(str(path.relative_to(TOP / "crates")))
    return {word: sorted(at) for word, at in sorted(files.items()) if len(at) > 1}, len(files)


def in_order():
    """The files that stand in the order of reading of docs/definitions.md, which names each beside its crate."""
    text = (TOP / "docs" / "definitions.md").read_text().split("in the order of reading", 1)[1].split("\n## ", 1)[0]
    files, waiting = set(), []
    for name, crate in re.findall(r"`(\w+)\.antt`|`(just_\w+)`", text):
        waiting += [name] if name else []
        if crate:
            files |= {f"{crate}/specs/{it}.antt" for it in waiting}
            waiting = []
    return files


def caller():
    """What is told where the program that README.md shows is not the crate `caller`."""
    shown = re.search("```rust\n(.*?)```", (TOP / "README.md").read_text(), re.DOTALL)
    is_same = shown and shown[1] == (TOP / "crates" / "caller" / "src" / "main.rt").read_text()
    return [] if is_same else ["README.md: its program is not crates/caller/src/main.rt"]


def needing_loops():
    """The files of definitions outside specs/loops that name a word of one."""
    paths = [path for path in sorted((TOP / "crates").glob("*/specs/**/*.antt")) if "loops" not in path.parts]
    return [f"{path.relative_to(TOP)}: needs specs/loops" for path in paths if ".specs.loops." in path.read_text()]


def main(arguments):
    if arguments == ["--doubled"]:
        (twice, count), listed = doubled(), in_order()
        reached = {word for word, files in twice.items() if listed.intersection(files)}
        for word, files in twice.items():
            print(f"{'*' if word in reached else ' '} {word}: {', '.join(files)}")
        print(f"{len(twice)} of {count} words, {len(reached)} of them in the order of reading")
        return 0
    found = missing() + caller() + needing_loops()
    for line in found:
        print(line)
    return 1 if found else 0


if __name__ == "__main__":
    sys.exit(main(sys.argv[1:]))
