#!/usr/bin/env python3
"""Says whether examples/README.md, the files beside it, and what the gate runs and compares agree.

Each command of the page is a line `$ ..` with what it prints below, or, for the script with a table, the table's answers. The inputs
of `preflight` have to stand at the front of crates/batch/stdin, in the page's order, with the marker behind each, and those of
`replay` at the front of crates/replay/stdin. What the page says is printed has to be what stands at the front of the stdouts."""

import os
import re
import subprocess
import sys

HERE = os.path.dirname(os.path.dirname(os.path.abspath(__file__)))
EXAMPLES = os.path.join(HERE, "examples")
COMMAND = re.compile(r"(?:(?P<made>.*) \| )?(?P<program>preflight|replay)(?: < (?P<file>\S+))?(?P<last> \| tail -n 1)?$")


def stored(crate, name):
    with open(os.path.join(HERE, "crates", crate, name), "rb") as f:
        return f.read()


def blocks(page):
    """Each command, with the lines that are printed below it, and with the rows of the table behind it."""
    found, lines = [], page.split("\n")
    for n, line in enumerate(lines):
        if line.startswith("    $ "):
            printed = [a[4:] for a in take(lines[n + 1:], "    ")]
            rows = [] if printed else [row.split("|") for row in take(lines[n + 2:], "|")][2:]
            found.append((line[6:], printed, rows))
    return found


def take(lines, start):
    taken = []
    for line in lines:
        if not line.startswith(start):
            break
        taken.append(line)
    return taken


def input_of(command):
    if command["made"]:
        return subprocess.run(["bash", "-c", command["made"]], cwd=EXAMPLES, stdout=subprocess.PIPE, check=True).stdout
    with open(os.path.join(EXAMPLES, command["file"]), "rb") as f:
        return f.read()


def cell(text):
    return text.strip().strip("`").replace("⇥", "\t")


def check_rows(text, rows):
    lines = text.decode().split("\n")[:-1]
    calls = [cell(row[1]) for row in rows]
    assert len(lines) == len(calls), "the table has not a row for each line"
    for line, call in zip(lines, calls):
        assert line == call or (call.endswith("...") and line.startswith(call[:-3])), f"the table has not the line {line!r}"
    return [cell(row[2]) for row in rows]


def main():
    with open(os.path.join(EXAMPLES, "README.md"), encoding="utf-8") as f:
        page = f.read()
    left = {p: [stored(c, "stdin"), stored(c, "stdout")] for p, c in (("preflight", "batch"), ("replay", "replay"))}
    named = set()
    found = blocks(page)
    for text, printed, rows in found:
        command = COMMAND.match(text)
        assert command, f"{text}: no command of this page"
        named.add(command["file"])
        given = input_of(command)
        wanted = check_rows(given, rows) if rows else printed
        into, out = left[command["program"]]
        asked = given + (b"----\n" if command["program"] == "preflight" else b"")
        assert into.startswith(asked), f"{text}: its input does not come next in the crate's stdin"
        count = given.count(b"\n") if command["program"] == "replay" else len(wanted)
        lines = out.split(b"\n")
        got = [line.decode() for line in lines[:count]]
        assert (got[-1:] if command["last"] else got) == wanted, f"{text}: prints {got}"
        left[command["program"]] = [into[len(asked):], b"\n".join(lines[count:])]
    unnamed = sorted(set(os.listdir(EXAMPLES)) - named - {"README.md", "many-sweeps.ngc"})
    assert not unnamed, f"not on the page: {unnamed}"
    print(f"{len(found)} examples, all as the gate has them")


try:
    main()
except AssertionError as wrong:
    print(f"examples: {wrong}", file=sys.stderr)
    sys.exit(1)
