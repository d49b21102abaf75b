"""A plain simulator of the programs' rules, in Python, for `tests/fuzz.py`.

It follows docs/, and shares no code with the program. It is simple rather than fast: an event
makes a new world, a branch keeps the world at each of its places, and a hunt looks at one
place after the other. It needs Python 3.11 and its standard library alone.

- `chacha`: the random words by seed, stream and place;
- `scenario`: reads a scenario, or finds its first fault;
- `node`, `echo`, `primary_backup`, `abd`, `two_phase`, `protocols`: the nodes;
- `world`: the world, and what each event makes of it;
- `conditions`: conditions about a world;
- `script`: the lines of a play and their answers;
- `hunts`: searches, sweeps, planned faults, scripts of seeds, and what `shrink` may leave;
- `log`: the log of a run in words;
- `settings`, `lines`, `cases`: random scenarios, lines and cases.
"""
