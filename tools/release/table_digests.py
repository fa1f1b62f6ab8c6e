#!/usr/bin/env python3
"""Writes web/src/digests.js: length and SHA-256 of the file of each class, from a folder of built tables.

    crates/studybench/out/studybench --tables DIR < examples/all_tables.script
    tools/release/table_digests.py DIR > web/src/digests.js
"""
import hashlib
import os
import re
import sys

HERE = os.path.dirname(os.path.abspath(__file__))


def main():
    if len(sys.argv) != 2:
        sys.exit(__doc__)
    with open(os.path.join(HERE, "..", "..", "examples", "all_tables.script"), encoding="ascii") as file:
        names = re.findall(r"^build (\w+)$", file.read(), re.M)
    rows = []
    for name in names:
        with open(os.path.join(sys.argv[1], name + ".dtm"), "rb") as file:
            data = file.read()
        rows.append("  %s: [%d, '%s']," % (name, len(data), hashlib.sha256(data).hexdigest()))
    print("// @ts-check")
    print("// Length and SHA-256 of the file of each class, the same whoever builds it. Made by tools/release/table_digests.py.")
    print("/** @type {Record<string, [number, string]>} */")
    print("export const DIGESTS = {")
    print("\n".join(rows))
    print("};")


main()
