#!/usr/bin/env python3
"""Compares docs/SCRIPT.md with the tests of the gate: each name in its table of refusals has to be the reply of some row of the tests of test_script or
test_large."""
import re
import sys
from pathlib import Path

TOP = Path(__file__).resolve().parents[2]


def names_of_page(text):
    table = re.split("^## ", text[text.index("## Refusals") + 3:], flags=re.M)[0]
    cells = [line.split("|")[1] for line in table.splitlines() if line.startswith("| `")]
    return {re.sub(r" (CLASS|PATH|K|N)$", "", name) for cell in cells for name in re.findall(r"`([^`]*)`", cell)}


def main():
    names = names_of_page((TOP / "docs/SCRIPT.md").read_text())
    files = [path for crate in ("test_script", "test_large") for path in sorted((TOP / f"crates/{crate}/src").glob("*.rt"))]
    tests = "\n".join(path.read_text() for path in files)
    untried = sorted(name for name in names if not re.search(r"error " + name + r"\b", tests))
    if untried:
        sys.exit("in docs/SCRIPT.md, and the reply of no test: " + ", ".join(untried))
    print(f"{len(names)} names")


main()
