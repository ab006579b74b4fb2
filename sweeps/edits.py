#!/usr/bin/env python3
"""edits.py [CRATE..]: has the prover try the wrong bodies of edits/, each of which it must refuse.

They are must-fail edits like those of crates/CRATE/must-fail/, which the gate tries; these it leaves out. They are laid, in place of the
gate's, into a copy of the crates, and `rt must-fail` tries them there: its lines and its status are these.

edits.py --stand: tells, without any proof, each edit whose code has changed, so that it can't be laid in any more."""
import os
import shutil
import subprocess
import sys
import tempfile

HERE = os.path.dirname(os.path.abspath(__file__))
TOP = os.path.dirname(HERE)
EDITS = os.path.join(HERE, "edits")


def edits_of(crate):
    return [os.path.join(EDITS, crate, name) for name in sorted(os.listdir(os.path.join(EDITS, crate)))]


def try_all(crates):
    with tempfile.TemporaryDirectory() as room:
        for name in ("crates.txt", "HANDLES"):
            shutil.copy(os.path.join(TOP, name), room)
        without = shutil.ignore_patterns("out", "must-fail")
        shutil.copytree(os.path.join(TOP, "crates"), os.path.join(room, "crates"), ignore=without)
        for crate in crates:
            shutil.copytree(os.path.join(EDITS, crate), os.path.join(room, "crates", crate, "must-fail"))
        return subprocess.run(["rt", "must-fail", *crates], cwd=room).returncode


def stands(crate, edit):
    """Whether each text that the edit takes away is in its file once, and each is given another."""
    texts, path, old, pairs = {}, None, None, 0
    with open(edit) as lines:
        for line in lines:
            word, _, text = line.rstrip("\n").partition(": ")
            if word == "file":
                path = os.path.join(TOP, "crates", crate, text)
                if not os.path.isfile(path):
                    return False
            elif word == "old":
                old = text
            elif word == "new":
                if path not in texts:
                    with open(path) as file:
                        texts[path] = file.read()
                if texts[path].count(old) != 1:
                    return False
                texts[path] = texts[path].replace(old, text)
                pairs += 1
    return pairs > 0


def main():
    crates = [word for word in sys.argv[1:] if word != "--stand"] or sorted(os.listdir(EDITS))
    if "--stand" not in sys.argv:
        return try_all(crates)
    gone = [edit for crate in crates for edit in edits_of(crate) if not stands(crate, edit)]
    for edit in gone:
        print(f"{os.path.relpath(edit, TOP)}: its code has changed")
    return 1 if gone else 0


if __name__ == "__main__":
    sys.exit(main())
