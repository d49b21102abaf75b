#!/usr/bin/env python3
"""Tries wrong bodies that the tests, or the prover, must refuse.

    tests/refused.py            all of tests/refused/
    tests/refused.py NAME..     these

A file tests/refused/NAME.edit has the lines `crate:`, `tests:`, `file:`, `old:` and `new:`. In a
copy of the crates, the text `old` of that file of the crate becomes `new`, and the tests of the
crate `tests` are run without proof, as by `rt try --test`. It prints which tests fail. If none
does, or the edited code does not run, the wrong body is not refused, and the status is 1. A file
without the line `tests:` is tried by the prover, as by `rt must-fail`.

Such a wrong body stands in a crate that loads most of the others, or that is large. The gate would
prove the whole crate again for it. By tests each takes some three minutes of one processor, by the
prover one to two, and the proofs of the crate and of all below it if they are not kept.
"""

import pathlib
import re
import shutil
import subprocess
import sys
import tempfile

ROOT = pathlib.Path(__file__).resolve().parent.parent
EDITS = ROOT / "tests" / "refused"


def read_edit(path):
    """Returns the words of a file of an edit by their names."""
    lines = path.read_text().splitlines()
    return dict(line.split(": ", 1) for line in lines if ": " in line)


def copy_crates(room):
    """Copies the crates, without what was proved, to a folder of their own."""
    shutil.copytree(ROOT / "crates", room / "crates", ignore=shutil.ignore_patterns("out"))
    shutil.copy(ROOT / "crates.txt", room)
    (room / ".git").mkdir()


def failed_tests(room, edit):
    """Returns the names of the tests that fail with this edit, and what the run said."""
    path = room / "crates" / edit["crate"] / edit["file"]
    right = path.read_text()
    if right.count(edit["old"]) != 1:
        sys.exit(f"refused.py: {edit['file']} has not one time: {edit['old']}")
    path.write_text(right.replace(edit["old"], edit["new"]))
    ran = subprocess.run(["rt", "try", "--test", "--steps", "100"],
                         cwd=room / "crates" / edit["tests"], stdin=subprocess.DEVNULL,
                         stdout=subprocess.PIPE, stderr=subprocess.STDOUT, text=True)
    path.write_text(right)
    return re.findall(r"^test (\S+) \.\.\. FAILED", ran.stdout, re.M), ran.stdout


def tried_by_prover(room, crate, paths):
    """Has the prover try wrong bodies of a crate. Returns 0 if it refuses all."""
    folder = room / "crates" / crate / "must-fail"
    shutil.rmtree(folder, ignore_errors=True)
    folder.mkdir()
    for path in paths:
        lines = path.read_text().splitlines(keepends=True)
        (folder / path.name).write_text("".join(lines[1:]))
    return subprocess.run(["rt", "must-fail", crate], cwd=room, stdin=subprocess.DEVNULL).returncode


def main(names):
    paths = [EDITS / f"{name}.edit" for name in names] or sorted(EDITS.glob("*.edit"))
    by_prover = {}
    for path in paths:
        edit = read_edit(path)
        if "tests" not in edit:
            by_prover.setdefault(edit["crate"], []).append(path)
    paths = [path for path in paths if "tests" in read_edit(path)]
    accepted = 0
    with tempfile.TemporaryDirectory(prefix="simback-refused-") as folder:
        room = pathlib.Path(folder)
        copy_crates(room)
        for crate, found in by_prover.items():
            accepted += bool(tried_by_prover(room, crate, found))
        for path in paths:
            failed, said = failed_tests(room, read_edit(path))
            if failed:
                print(f"{path.stem}: refused by {', '.join(failed)}", flush=True)
            else:
                print(f"{path.stem}: NOT REFUSED\n{said}", flush=True)
                accepted += 1
    return 1 if accepted else 0


if __name__ == "__main__":
    sys.exit(main(sys.argv[1:]))
