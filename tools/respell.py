#!/usr/bin/env python3
"""Respells this repository's own definitions and lemmas: words are joined by `_`, types are in upper camel case.

usage: tools/respell.py [ROOT] [--list]

It reads crates/*/specs and crates/*/proofs for names that are declared there with a dash in them, and writes each anew where it
stands: in specs and proofs, in clauses and `ghost use` lines of src/, in must-fail edits, and in the code spans of README.md and docs/.
Names that a file takes from elsewhere than this repository, names that the prover makes (as in proofs/F/Answers.antt), comments,
strings and file names stay as they are. With --list it writes nothing and prints old name and new name.
It stops, and writes nothing, where two names would fall together."""

import collections
import glob
import re
import sys

MADE = ("Answers.antt", "Invariants.antt", "Choices.antt", "Proof.antt")
DECLARED = re.compile(
    r"^([ ]*)((?:(?:abbrev|unfoldable|pub|data|record|module)[ ]+)*)([^\s:(){}\[\],;.]+)((?:[ ]+[({][^:\n]*:[^\n]*?[)}])*)[ ]*:[ ]*([^\n]*)",
    re.M,
)
TOKEN = re.compile(r"[^\s(){}\[\];,.:«»⌜⌝`\"|]+")
# facts that were written with a small letter
FACTS = {"beam-region": "BeamRegion", "gantry-region": "GantryRegion"}


def read(path):
    with open(path, encoding="utf-8") as f:
        return f.read()


def crates(root):
    names = []
    for line in read(root + "/crates.txt").splitlines():
        if ":" in line and not line.startswith("#"):
            names.append(line.split(":")[0].split()[0])
    return set(names)


def is_type(signature):
    return re.search(r"Type( 0| 1)?( where)?\s*$", signature.strip()) is not None


def spelled(name, declared_type):
    if name in FACTS:
        return FACTS[name]
    if declared_type:
        return "".join(part[:1].upper() + part[1:] for part in name.split("-"))
    if name[0].isupper():
        return name  # a fact and a word, joined by a dash
    return name.replace("-", "_")


def collect(root):
    """Old names with their new ones, and the names that have no dash."""
    renamed, plain, types = {}, collections.defaultdict(set), collections.defaultdict(set)
    for path in sorted(glob.glob(root + "/crates/*/specs/**/*.antt", recursive=True) + glob.glob(root + "/crates/*/proofs/**/*.antt", recursive=True)):
        if "/proofs/" in path and path.endswith(MADE):
            continue
        for m in DECLARED.finditer(read(path)):
            name = m[3]
            if "-" in name and not name.startswith("-"):
                types[name].add(is_type(m[5]) or "data " in m[2] or "record " in m[2])
            else:
                plain[name].add(path)
    for name, kinds in types.items():
        if len(kinds) > 1:
            print("both a type and a word:", name)
        renamed[name] = spelled(name, True in kinds)
    return {a: b for a, b in renamed.items() if a != b}, plain


def foreign(text, own):
    """The names that a file takes from libraries."""
    names = set()
    for m in re.finditer(r"\buse ([\w.·+'-]+)\.\{([^}]*)\}", text):
        if m[1].split(".")[:1] == ["Rattle"] and m[1].split(".")[1] in own:
            continue
        for item in m[2].split(","):
            names.add(item.split(" as ")[-1].strip())
            names.add(item.split(" as ")[0].strip())
    return names


def pieces(text, suffix):
    """Parts of a text, each with a flag that says if names may be written anew in it."""
    if suffix == ".md":
        split = re.compile(r"`[^`\n]+`")
        at = 0
        for m in split.finditer(text):
            yield text[at : m.start()], False
            yield m[0], True
            at = m.end()
        yield text[at:], False
        return
    quiet = re.compile(r"--[ \n][^\n]*|--$") if suffix == ".antt" else re.compile(r"//[^\n]*|b?\"(?:\\.|[^\"\\])*\"|b?'(?:\\.|[^'\\\n])'")
    at = 0
    for m in quiet.finditer(text):
        yield text[at : m.start()], True
        yield m[0], False
        at = m.end()
    yield text[at:], True


def turn(text, suffix, names):
    out = []
    for part, turns in pieces(text, suffix):
        out.append(TOKEN.sub(lambda m: names.get(m[0], m[0]), part) if turns else part)
    return "".join(out)


def main():
    words = [a for a in sys.argv[1:] if not a.startswith("--")]
    root = words[0] if words else "."
    own = crates(root) | {p.rstrip("/").split("/")[-1] for p in glob.glob(root + "/crates/*/")}
    renamed, plain = collect(root)
    if "--list" in sys.argv:
        for a in sorted(renamed):
            print(a, renamed[a])
        return 0
    back = collections.defaultdict(set)
    for a, b in renamed.items():
        back[b].add(a)
    bad = [f"{sorted(v)} fall together" for b, v in back.items() if len(v) > 1]
    bad += [f"{sorted(back[b])[0]} falls on {b} of {sorted(plain[b])}" for b in back if b in plain]
    for line in sorted(bad):
        print(line)
    if bad and "--force" not in sys.argv:
        return 1
    paths = []
    for pattern in ("crates/*/specs/**/*.antt", "crates/*/proofs/**/*.antt", "crates/*/src/**/*.rt", "crates/*/must-fail/*.edit", "README.md", "docs/*.md"):
        paths += glob.glob(root + "/" + pattern, recursive=True)
    for path in sorted(paths):
        if path.endswith("docs/PORT.md"):
            continue
        text = read(path)
        suffix = path[path.rfind(".") :]
        theirs = foreign(text, own) if suffix in (".antt", ".rt") else set()
        names = {a: b for a, b in renamed.items() if a not in theirs}
        new = turn(text, suffix, names)
        if new != text:
            with open(path, "w", encoding="utf-8") as f:
                f.write(new)
    return 0


sys.exit(main())
