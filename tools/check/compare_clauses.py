#!/usr/bin/env python3
"""Compares the clauses of functions and the definitions of specs/ of two states of the repository, token by token.

    tools/check/compare_clauses.py COMMIT [COMMIT]     the second is the files as they stand, if none is named

Where a thing stands does not matter: functions and definitions are found by their names, in whatever crate, and imports and comments are left
out. It prints each that is only in one state, and each whose tokens differ, with both texts; the last line counts them.
"""
import re
import subprocess
import sys
from collections import defaultdict
from pathlib import Path

TOP = Path(__file__).resolve().parents[2]


def files(commit):
    """Each .rt file of src/ and each .antt file of specs/, with its text."""
    if commit is None:
        for path in sorted(TOP.glob("crates/*/src/**/*.rt")) + sorted(TOP.glob("crates/*/specs/*.antt")):
            yield str(path.relative_to(TOP)), path.read_text()
        return
    names = subprocess.run(["git", "-C", TOP, "ls-tree", "-r", "--name-only", commit, "crates"], check=True, capture_output=True, text=True).stdout
    for name in names.split("\n"):
        if re.fullmatch(r"crates/\w+/(src/.*\.rt|specs/\w+\.antt)", name):
            yield name, subprocess.run(["git", "-C", TOP, "show", f"{commit}:{name}"], check=True, capture_output=True, text=True).stdout


def tokens(text):
    return " ".join(re.findall(r"[\w'\-.]+|[^\s\w]", re.sub(r"(?m)^\s*(--|//).*$|\b(study_\w+|crate)::", "", text)))


def clauses(text):
    """The `requires` and `ensures` of each function, with the type or trait that it belongs to left out."""
    found = re.finditer(r"(?m)^[ \t]*(?:pub(?:\(crate\))? )?(?:const )?fn (\w+)", text.split("#[cfg(test)]")[0])
    for start in found:
        rest = text[start.start():]
        end = re.search(r"(?m)^[ \t]*\{|;$", rest[len(start[0]):])
        head = rest[:len(start[0]) + (end.start() if end else 0)]
        at = re.search(r"(?m)^\s*(requires|ensures)\b", head)
        yield start[1], tokens(head[at.start():]) if at else ""


def definitions(text):
    """Each definition of a file, with its equations."""
    body = re.sub(r"(?m)^(?:pub )?use .*\n|^\s*--.*\n|^pub mod .*\n", "", text)
    for block in re.split(r"\n(?=(?:  )?(?:abbrev|unfoldable|pub|mutual|opaque|record|module)\b)", "\n" + body):
        named = re.match(r"\s*(?:abbrev |unfoldable |pub |mutual |opaque )*(?:record |module )?([^\s:({]+)", block)
        if block.strip() and named:
            yield named[1], tokens(block)


def state(commit):
    things = defaultdict(list)
    for name, text in files(commit):
        kind = "clauses of" if name.endswith(".rt") else "definition"
        for thing, words in clauses(text) if kind == "clauses of" else definitions(text):
            if words:
                things[kind, thing].append(words)
    return things


def main():
    before, after = state(sys.argv[1]), state(sys.argv[2] if len(sys.argv) > 2 else None)
    same = gone = new = changed = 0
    for key in sorted({*before, *after}):
        old, now = sorted(before.get(key, [])), sorted(after.get(key, []))
        left, came = [w for w in old if w not in now], [w for w in now if w not in old]
        same += len(old) - len(left)
        for was, is_now in zip(left, came):
            changed += 1
            print(f"{key[0]} {key[1]}\n  was {was}\n  is  {is_now}")
        for word, rest in (("gone", left[len(came):]), ("new", came[len(left):])):
            gone, new = gone + len(rest) * (word == "gone"), new + len(rest) * (word == "new")
            for text in rest:
                print(f"{key[0]} {key[1]}\n  {word} {text}")
    print(f"{same} the same, {changed} changed, {gone} gone, {new} new")


main()
