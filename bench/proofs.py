#!/usr/bin/env python3
"""Lists where the proof of a crate spends its time.

    bench/proofs.py CRATE [COUNT]     the COUNT dearest modules, by default 30

The prover keeps each module of a proof as it ends, in crates/CRATE/out/incremental. So the time
between one module and the next is about what the second one took. This holds for a first check with
one job: remove crates/CRATE/out, and run `rt check --jobs 1` in crates/CRATE.

A function f has these modules, among others:

- `f.Lts`: its code, block by block. It grows with the exits and with the values owned there.
- `f.Tie`: its calls, beside the contracts of what it calls. The first call of a function of another
  crate also loads all that this function stands on, for the whole check.
- `f.Proof`: the clauses of its own contract. A dear one wants an answer in `proofs/`.
"""

import pathlib
import sys

TOP = pathlib.Path(__file__).resolve().parent.parent


def modules(crate):
    """Returns the modules of a crate that were checked, each with its time, the earliest first."""
    kept = TOP / "crates" / crate / "out/incremental"
    files = [it for it in kept.glob("**/*.oantt") if "records" not in it.parts]
    return sorted((it.stat().st_mtime, it.stem) for it in files)


def main():
    """Prints the dearest modules."""
    if len(sys.argv) not in (2, 3):
        sys.exit(__doc__)
    found = modules(sys.argv[1])
    if not found:
        sys.exit(f"bench/proofs.py: nothing is kept of a check of {sys.argv[1]}")
    gaps = [(after - before, name) for (before, _), (after, name) in zip(found, found[1:])]
    print(f"{len(found)} modules in {found[-1][0] - found[0][0]:.0f} seconds")
    for seconds, name in sorted(gaps, reverse=True)[:int((sys.argv + ["30"])[2])]:
        print(f"{seconds:7.1f} {name.removeprefix(f'Rattle-{sys.argv[1]}-')}")


if __name__ == "__main__":
    main()
