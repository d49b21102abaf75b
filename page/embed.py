#!/usr/bin/env python3
"""Writes crates/sim_page/src/template.rt, the text of the page that the program holds, from page/template.html.

First it writes into the template the hashes by which its policy names its one style sheet and its one script.
With --check it writes nothing, and exits 1 if one of the two files is not what it would write.
"""
import base64
import hashlib
import pathlib
import re
import sys

TOP = pathlib.Path(__file__).resolve().parent.parent
TEMPLATE = TOP / "page/template.html"
CONSTANTS = TOP / "crates/sim_page/src/template.rt"
PLACEHOLDER = "@@RUN@@"
# About how long a line of the literals is.
COLUMNS = 1000
HEAD = """\
// The text of the page before and after the data of a run. page/embed.py writes this file from page/template.html.

"""


def hashed(text):
    """The template with the hashes of its style sheet and its script in its policy."""
    for directive, tag in ("style-src", "style"), ("script-src", "script"):
        (body,) = re.findall(rf"<{tag}>(.*?)</{tag}>", text, re.DOTALL)
        digest = base64.b64encode(hashlib.sha256(body.encode()).digest()).decode()
        text, count = re.subn(rf"{directive} 'sha256-[^']*'", f"{directive} 'sha256-{digest}'", text)
        assert count == 1, f"the policy has {count} times {directive}"
    return text


def literal(text):
    """A literal of bytes, with several lines of the template on each of its own.

    It is one of bytes and not a text, since the proof that a text of this length is UTF-8 takes seconds.
    The gate reserves memory for the proof of a crate by the number of its lines: two thousand of them would keep other
    crates waiting.
    """
    assert text.isascii(), "a literal of bytes has only ASCII"
    assert "\r" not in text, "a carriage return would be another text in a literal"
    rows = [""]
    for line in text.split("\n"):
        escaped = line.replace("\\", "\\\\").replace('"', '\\"')
        if rows[-1] and len(rows[-1]) + len(escaped) > COLUMNS:
            # A row that goes on loses the spaces before the next one.
            rows.append("\\x20" + escaped[1:] if escaped.startswith(" ") else escaped)
        else:
            rows[-1] += escaped
        rows[-1] += "\\n"
    return 'b"' + "\\\n".join(rows)[:-2] + '"'


def constants(text):
    before, after = text.split(PLACEHOLDER)
    return f"{HEAD}pub const BEFORE: &[u8] =\n    {literal(before)};\n\npub const AFTER: &[u8] =\n    {literal(after)};\n"


def main():
    template = hashed(TEMPLATE.read_text(encoding="utf-8"))
    wanted = {TEMPLATE: template, CONSTANTS: constants(template)}
    stale = [path for path, text in wanted.items() if not path.exists() or path.read_text(encoding="utf-8") != text]
    if sys.argv[1:] == ["--check"]:
        for path in stale:
            print(f"{path.relative_to(TOP)} is not what page/embed.py writes", file=sys.stderr)
        sys.exit(1 if stale else 0)
    if sys.argv[1:]:
        sys.exit("usage: page/embed.py [--check]")
    for path in stale:
        path.parent.mkdir(parents=True, exist_ok=True)
        path.write_text(wanted[path], encoding="utf-8")
        print(f"wrote {path.relative_to(TOP)}")


main()
