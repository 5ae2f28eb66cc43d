#!/usr/bin/env python3
"""Tries the wrong bodies in benches/edits: the prover must refuse each.

    python3 benches/edits.py [CRATE..]             each over a whole check of its crate, in a copy of the work tree
    python3 benches/edits.py --quick [CRATE..]     each by a check of the function that it edits alone, in the work tree

They are edits as those in the folders must-fail, which the gate tries. These take as long as the whole gate, so they
are tried by hand, after a change of what they edit. With --quick a try takes half a minute where the crates below are
proved in the work tree; what it edits is put back, also after an interrupt. An edit that is not refused so may still be
by a function that calls the edited one: such a one is told as open, and is to be tried whole. So is one whose only
errors are names that a proof file has no more.
"""
import re
import shutil
import subprocess
import sys
import tempfile
from pathlib import Path

TOP = Path(__file__).resolve().parent.parent
EDITS = TOP / "benches" / "edits"
REFUSED = re.compile(r"^(?:fn|impl) \S+: (?:not proved|no proof)|logic=not-proved", re.MULTILINE)
TOLD = re.compile(r"^note: src/|^src/\S+: error|^\./proofs/\S+: error(?!.*(?:can be named from here|\(nearest: ))", re.MULTILINE)


def copy_of_tree(room):
    files = subprocess.run(["git", "ls-files"], cwd=TOP, check=True, capture_output=True, text=True).stdout
    for name in files.splitlines():
        if (TOP / name).is_file():
            (room / name).parent.mkdir(parents=True, exist_ok=True)
            shutil.copy(TOP / name, room / name)


def try_whole(crates):
    with tempfile.TemporaryDirectory(prefix="edits-") as folder:
        room = Path(folder)
        copy_of_tree(room)
        for crate in crates:
            tried = room / "crates" / crate / "must-fail"
            shutil.rmtree(tried, ignore_errors=True)
            shutil.copytree(EDITS / crate, tried)
        return subprocess.run(["rt", "must-fail", *crates], cwd=room).returncode


def read_edit(edit, folder):
    """The texts that an edit changes, by their files, and the functions that it edits."""
    texts, functions, file, old = {}, {}, None, None
    for line in edit.read_text().splitlines():
        kind, _, text = line.partition(": ")
        if kind == "file":
            file = folder / text.strip()
            texts.setdefault(file, file.read_text())
        elif kind == "old":
            old = text
        elif line.startswith("new:"):
            assert texts[file].count(old) == 1, f"{edit}: an old text does not stand once"
            names = re.findall(r"\bfn\s+(\w+)", texts[file][: texts[file].index(old)])
            functions.update(dict.fromkeys(names[-1:]))
            texts[file] = texts[file].replace(old, text)
    return texts, list(functions)


def check(name, folder):
    """What a check of a function says; of several under one name, what those of each say."""
    ran = subprocess.run(["rt", "check", "--only", name], cwd=folder, capture_output=True, text=True)
    said = ran.stdout + ran.stderr
    if "several functions are named" in said:
        return "".join(check(path, folder) for path in re.findall(r"`(\w+(?:::\w+)+)`", said))
    return said


def try_function(edit, folder):
    """What a check of the functions comes to that an edit changes, with the first line that tells why."""
    texts, functions = read_edit(edit, folder)
    kept = {file: file.read_text() for file in texts}
    try:
        for file, text in texts.items():
            file.write_text(text)
        for name in functions:
            said = check(name, folder)
            if REFUSED.search(said):
                why = next((line for line in said.splitlines() if TOLD.search(line)), "")
                return "refused" if why else "open: refused by a proof file alone", why
    finally:
        for file, text in kept.items():
            file.write_text(text)
    return "open", " ".join(functions)


def try_quickly(crates):
    is_open = False
    for crate in crates:
        for edit in sorted((EDITS / crate).glob("*.edit")):
            found, why = try_function(edit, TOP / "crates" / crate)
            is_open |= found != "refused"
            print(f"{crate}/{edit.stem}: {found}: {why[:160]}", flush=True)
    return int(is_open)


def main(arguments):
    is_quick = arguments[:1] == ["--quick"]
    crates = arguments[is_quick:] or sorted(it.name for it in EDITS.iterdir())
    return try_quickly(crates) if is_quick else try_whole(crates)


if __name__ == "__main__":
    sys.exit(main(sys.argv[1:]))
