#!/usr/bin/env python3
"""Plants each bug of tools/planted.txt, one at a time, and says whether the prover refuses it.

usage: tools/planted.py [--from LINE] [CRATE..]

A bug is four lines, `crate:`, `file:`, `old:` and `new:`, and the text behind `old:` stands in that file exactly once. The bugs are tried
as must-fail edits, in a copy of the last commit, so what `rt` keeps is of use to them. With names, only the bugs of those crates
are tried, and with a line, only those that begin there or below. The status is 0 where each of them is refused at a fact: a refusal
by a limit, or since a proof names what is gone, says nothing of the contract."""

import argparse
import os
import subprocess
import sys
import tempfile

HERE = os.path.dirname(os.path.dirname(os.path.abspath(__file__)))

# How rt begins what it says of a refused edit, and of one whose refusal says nothing of the contract.
REFUSED = "refused, as it must be"
SAYS_NOTHING = REFUSED + " (only"


def bugs(path):
    found, entry = [], {}
    with open(path, encoding="utf-8") as f:
        for number, line in enumerate(f, 1):
            key, sign, text = line.rstrip("\n").partition(": ")
            if not sign or line.startswith("#"):
                continue
            entry.setdefault("line", number)
            entry[key] = text
            if key == "new":
                found.append(entry)
                entry = {}
    return found


def plant(root, wanted):
    crates = []
    for n, bug in enumerate(wanted):
        folder = os.path.join(root, "crates", bug["crate"], "must-fail")
        if bug["crate"] not in crates:
            crates.append(bug["crate"])
            os.makedirs(folder, exist_ok=True)
            for name in os.listdir(folder):
                os.remove(os.path.join(folder, name))
        with open(os.path.join(folder, f"planted-{n}.edit"), "w", encoding="utf-8") as f:
            f.write(f"file: {bug['file']}\nold: {bug['old']}\nnew: {bug['new']}\n")
    return crates


def options():
    parser = argparse.ArgumentParser(description="Plants bugs, and says whether the prover refuses them.")
    parser.add_argument("--from", dest="first", type=int, default=1, metavar="LINE", help="only the bugs from this line of the list on")
    parser.add_argument("crates", nargs="*", metavar="CRATE", help="only the bugs of these crates")
    return parser.parse_args()


def attempts(wanted):
    """What rt says of each bug, by its number."""
    with tempfile.TemporaryDirectory() as root:
        subprocess.run(["git", "clone", "-q", HERE, root], check=True)
        crates = plant(root, wanted)
        run = subprocess.run(["rt", "must-fail", *crates], cwd=root, capture_output=True, text=True)
    said = {}
    for line in (run.stdout + run.stderr).splitlines():
        for n, bug in enumerate(wanted):
            if f"{bug['crate']}/planted-{n}.edit:" in line:
                said[n] = line.split(".edit: ", 1)[1]
    return said


def main():
    asked = options()
    listed = bugs(os.path.join(HERE, "tools", "planted.txt"))
    wanted = [b for b in listed if b["line"] >= asked.first and (not asked.crates or b["crate"] in asked.crates)]
    if not wanted:
        sys.exit("planted.py: no bug is asked for")
    said = attempts(wanted)
    refused = 0
    for n, bug in enumerate(wanted):
        verdict = said.get(n, "not tried")
        at_a_fact = verdict.startswith(REFUSED) and not verdict.startswith(SAYS_NOTHING)
        refused += at_a_fact
        why = verdict.removeprefix(REFUSED).removeprefix(": ")[:160]
        print(f"{'refused' if at_a_fact else 'NOT REFUSED'} line {bug['line']}: {bug['crate']} {bug['file']}: {bug['new']}: {why}")
    print(f"{len(wanted)} bugs, {refused} refused")
    return 0 if refused == len(wanted) else 1


if __name__ == "__main__":
    sys.exit(main())
