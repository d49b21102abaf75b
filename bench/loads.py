#!/usr/bin/env python3
"""Lists what a crate loads with each library of crates/ that it stands on.

    bench/loads.py             the libraries, the largest first
    bench/loads.py sim_watch   of one library, the crates that its statements come from

A crate is proved over the statements of the libraries below it: all that can be cited of them. They
have whatever a public item mentions, private fields too, and of each type so mentioned the clauses
of all its public methods and impls. So one field of a type of the kit can cost each crate above
tens of megabytes, at some three to five to a second of processor time, and again in the statements
of that crate. It costs nothing to use such a type in private functions alone.

`rt ci` leaves the statements in crates/NAME/out of a checkout where nothing was built before, so run
this after it in a fresh clone.
"""

import collections
import json
import pathlib
import sys

TOP = pathlib.Path(__file__).resolve().parent.parent


def statements_of(library):
    """Returns the modules of a library's statements: for each its name and its bytes."""
    file = TOP / f"crates/{library}/out/rlib/{library}.rlib/toolchain/checked.json"
    if not file.is_file():
        return []
    rows = [json.loads(line) for line in file.read_text().splitlines()]
    return [(name.removeprefix("part/").removeprefix("Rattle-"), size) for name, _, size in rows]


def crate_of(module):
    """Returns the crate that a module belongs to."""
    return module.partition("-")[0].partition(".")[0]


def main():
    """Prints the table that was asked for."""
    if len(sys.argv) > 2:
        sys.exit(__doc__)
    sizes, counts = collections.Counter(), collections.Counter()
    names = sys.argv[1:] or sorted(it.name for it in (TOP / "crates").iterdir())
    for name in names:
        for module, size in statements_of(name):
            key = crate_of(module) if len(sys.argv) > 1 else name
            sizes[key] += size
            counts[key] += 1
    if not sizes:
        sys.exit("bench/loads.py: no statements are kept here")
    for key, size in sizes.most_common():
        print(f"{size / 1e6:7.1f} MB {counts[key]:6} modules  {key}")


if __name__ == "__main__":
    main()
