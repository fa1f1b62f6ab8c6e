#!/usr/bin/env python3
"""Draws which crate uses which, from crates.txt, and writes the links of the table of crates in docs/ARCHITECTURE.md.

    tools/check/draw_crates.py            writes docs/crates.svg, and the first and last cells of the table
    tools/check/draw_crates.py --check    writes nothing; exit status 1 if it would, one line for each difference

In the picture a crate is one row below the lowest row of those that it uses. A line leads to each crate that it uses and does not reach through
another. Crates of tests and the libraries of the kit are left out.

The table has each crate of crates.txt once, and no other, after all crates that it uses: these faults are reported, not mended. A crate's name is a link to its
page, if it has one; the last cell leads to the page's heading Definitions, else to its folder specs/, if it has one.
"""
import html
import os
import re
import sys

TOP = os.path.join(os.path.dirname(os.path.abspath(__file__)), "..", "..")
WIDTH, HEIGHT, ACROSS, DOWN = 118, 24, 132, 50


def all_crates():
    """The crates with those of them that each uses, and the heading under which each is listed."""
    uses, groups, group = {}, {}, ""
    with open(f"{TOP}/crates.txt", encoding="utf8") as it:
        for line in it:
            line = line.strip()
            if line.startswith("#"):
                group = line[1:].strip()
            elif line:
                name, _, names = line.partition(":")
                uses[name], groups[name] = names.split(), group
    return {it: [dep for dep in uses[it] if dep in uses] for it in uses}, groups


def all_below(uses, name):
    found = set()
    for it in uses[name]:
        found |= {it} | all_below(uses, it)
    return found


def rows_of(uses):
    row = {}
    def of(name):
        if name not in row:
            row[name] = 1 + max((of(it) for it in uses[name]), default=-1)
        return row[name]
    for name in uses:
        of(name)
    rows = [[] for _ in range(max(row.values()) + 1)]
    for name in uses:
        rows[row[name]].append(name)
    return rows


def in_order(rows, lines):
    """Each row ordered by where its lines lead to, a few times down and up."""
    place = {}
    def settle(row):
        for at, name in enumerate(row):
            place[name] = at - (len(row) - 1) / 2
    for row in rows:
        settle(row)
    for turn in range(12):
        for row in rows if turn % 2 == 0 else rows[::-1]:
            near = {it: [place[a if b == it else b] for a, b in lines if it in (a, b)] for it in row}
            row.sort(key=lambda it: sum(near[it]) / len(near[it]) if near[it] else place[it])
            settle(row)
    return place


def picture(all_uses, groups):
    uses = {it: all_uses[it] for it in all_uses if not it.startswith("test_")}
    lines = [(name, dep) for name in uses for dep in uses[name]
             if not any(dep in all_below(uses, other) for other in uses[name] if other != dep)]
    rows = rows_of(uses)
    place = in_order(rows, lines)
    across = max(len(row) for row in rows) * ACROSS + 20
    at = {name: (across / 2 + place[name] * ACROSS - WIDTH / 2, 12 + DOWN * depth) for depth, row in enumerate(rows) for name in row}
    colours = dict(zip(dict.fromkeys(groups[it] for it in uses), ("#dbe7f6", "#e3f0dc", "#f7e8d0", "#f3dfe6", "#e6e0f3", "#f0f0e0", "#dff0ef", "#eee4da")))
    text = [f'<svg xmlns="http://www.w3.org/2000/svg" viewBox="0 0 {across:.0f} {DOWN * len(rows) + 4}" font-family="sans-serif" font-size="11">',
            "<title>Which crate uses which</title>", '<rect width="100%" height="100%" fill="#fff"/>', '<g stroke="#889" stroke-width="1" fill="none">']
    for upper, lower in lines:
        (x, y), (u, v) = at[upper], at[lower]
        upper_end, lower_end = x + WIDTH / 2, u + WIDTH / 2
        text.append(f'<path d="M{upper_end:.0f} {y:.0f}C{upper_end:.0f} {y - 22:.0f} '
                    f'{lower_end:.0f} {v + HEIGHT + 22:.0f} {lower_end:.0f} {v + HEIGHT:.0f}"/>')
    text.append("</g>")
    for name, (x, y) in at.items():
        text.append(f'<rect x="{x:.0f}" y="{y:.0f}" width="{WIDTH}" height="{HEIGHT}" rx="4" fill="{colours[groups[name]]}" stroke="#556"/>'
                    f'<text x="{x + WIDTH / 2:.0f}" y="{y + 16:.0f}" text-anchor="middle" fill="#112">{html.escape(re.sub("^study_", "", name))}</text>')
    return "\n".join(text + ["</svg>", ""])


def linked_name(name):
    return f"[{name}](../crates/{name}/README.md)" if os.path.exists(f"{TOP}/crates/{name}/README.md") else name


def definitions_of(names):
    """The link to the definitions of a row's crate."""
    if len(names) != 1:
        return ""
    folder = f"crates/{names[0]}"
    if os.path.exists(f"{TOP}/{folder}/README.md"):
        with open(f"{TOP}/{folder}/README.md", encoding="utf8") as it:
            if re.search("^## Definitions$", it.read(), re.M):
                return f"[definitions](../{folder}/README.md#definitions)"
    return f"[specs](../{folder}/specs)" if os.path.isdir(f"{TOP}/{folder}/specs") else ""


def table_of(text, uses):
    """The text with the links of its table of crates, and what the table lacks."""
    lines, seen, faults = text.split("\n"), [], []
    at = next(n for n, line in enumerate(lines) if line.startswith("| Crate |")) + 2
    while at < len(lines) and lines[at].startswith("|"):
        cells = [it.strip() for it in lines[at].strip().strip("|").split(" | ")]
        names = [re.sub(r"\[(.*?)\].*", r"\1", it) for it in cells[0].split(", ")]
        cells += [""] * (4 - len(cells))
        lines[at] = "| " + " | ".join([", ".join(map(linked_name, names)), cells[1], cells[2], definitions_of(names)]) + " |"
        for name in names:
            if name in seen or name not in uses:
                faults.append(f"{name} is in the table twice" if name in seen else f"{name} is in the table, and not in crates.txt")
            seen.append(name)
            faults += [f"{name} is in the table before {dep}, which it uses" for dep in uses.get(name, []) if dep not in seen]
        at += 1
    return "\n".join(lines), faults + [f"{name} is not in the table" for name in uses if name not in seen]


def main():
    uses, groups = all_crates()
    with open(f"{TOP}/docs/ARCHITECTURE.md", encoding="utf8") as it:
        table, faults = table_of(it.read(), uses)
    for name, new in (("docs/crates.svg", picture(uses, groups)), ("docs/ARCHITECTURE.md", table)):
        with open(f"{TOP}/{name}", encoding="utf8") as it:
            if it.read() == new:
                continue
        if "--check" in sys.argv[1:]:
            faults.append(f"{name} is not that of crates.txt: run tools/check/draw_crates.py")
            continue
        with open(f"{TOP}/{name}", "w", encoding="utf8") as it:
            it.write(new)
    print("\n".join(faults) if faults else "docs/crates.svg and the table of docs/ARCHITECTURE.md are those of crates.txt")
    return 1 if faults else 0


if __name__ == "__main__":
    sys.exit(main())
