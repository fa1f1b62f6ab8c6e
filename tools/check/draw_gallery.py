#!/usr/bin/env python3
"""Makes the gallery's page, docs/gallery: a diagram of each study, and why it is there; and the diagrams of docs/FINDING.md, docs/finding.

    tools/check/draw_gallery.py            writes docs/gallery/README.md, docs/gallery/NAME.svg and docs/finding/NAME.svg
    tools/check/draw_gallery.py --check    exit status 1 if these are not what the scripts and their notes give, or a script does not say whose its study is

The position and the tags are those of the script up to its first `pgn` line, the order, verdicts and words those of the table in
crates/gallery/data/README.md. A diagram of docs/FINDING.md shows what its alternative text names. Men are drawn as on the board (web/men.svg).
"""
import os
import re
import sys

TOP = os.path.abspath(os.path.join(os.path.dirname(os.path.abspath(__file__)), "..", ".."))
DATA, DOCS = f"{TOP}/crates/gallery/data", f"{TOP}/docs"
STYLE = (".l{fill:#f0e3cc}.d8{fill:#b98d62}.w,.b{stroke:#1a1a1a;stroke-width:1.6;stroke-linejoin:round;stroke-linecap:round}"
         ".w{fill:#fff;--line:#1a1a1a}.b{fill:#2c2c2c;--line:#f0f0f0}.i{fill:none;stroke:var(--line)}.d{fill:var(--line);stroke:none}"
         "text{font:11px sans-serif;fill:#444;text-anchor:middle}")


def read(file):
    with open(file, encoding="utf8") as it:
        return it.read()


def symbols():
    return dict(re.findall(r'(?s)<symbol id="m([A-Z])"[^>]*>(.*?)</symbol>', read(f"{TOP}/web/men.svg")))


def men_of(fen):
    for row, rank in enumerate(fen.split()[0].split("/")):
        file = 0
        for letter in rank:
            if letter.isdigit():
                file += int(letter)
            else:
                yield letter, file, row
                file += 1


def spoken(fen):
    sides = {True: [], False: []}
    for letter, file, row in sorted(men_of(fen), key=lambda man: "KQRBNP".index(man[0].upper())):
        sides[letter.isupper()].append(f"{letter.upper()}{'abcdefgh'[file]}{8 - row}")
    return f"White {' '.join(sides[True])}; Black {' '.join(sides[False])}; {'White' if fen.split()[1] == 'w' else 'Black'} to move"


def named(words):
    """The men that such words name, as `men_of` gives them."""
    for side, names in re.findall(r"(White|Black)((?: [KQRBNP][a-h][1-8])+)", words):
        for man, file, rank in names.split():
            yield man if side == "White" else man.lower(), "abcdefgh".index(file), 8 - int(rank)


def diagram(words, men, shapes):
    text = [f'<svg xmlns="http://www.w3.org/2000/svg" viewBox="-14 -2 376 378" width="240" height="241"><title>{words}</title>',
            f"<style>{STYLE}</style>"]
    text += [f'<rect class="{"l" if (file + row) % 2 == 0 else "d8"}" x="{45 * file}" y="{45 * row}" width="45" height="45"/>'
             for row in range(8) for file in range(8)]
    text += [f'<text x="{45 * file + 22}" y="373">{"abcdefgh"[file]}</text><text x="-7" y="{45 * file + 27}">{8 - file}</text>' for file in range(8)]
    text += [f'<g class="{"w" if letter.isupper() else "b"}" transform="translate({45 * file} {45 * row})">{shapes[letter.upper()]}</g>'
             for letter, file, row in men]
    return "\n".join(text + ["</svg>", ""])


def study_of(name):
    """The start of a script's first study, and its tags."""
    fen, tags = "", {}
    for line in read(f"{DATA}/{name}.script").split("\n"):
        command, _, rest = line.partition(" ")
        if command == "position" and not fen:
            fen = rest
        elif command == "tag":
            key, _, value = rest.partition(" ")
            tags.setdefault(key, value)
        elif command == "pgn":
            break
    return fen, tags


def rows():
    for name, tables, verdicts, shows in re.findall(r"^\| \[(\w+)\]\([^)]*\) \| ([^|]*) \| ([^|]*) \| ([^|]*) \|$", read(f"{DATA}/README.md"), re.M):
        yield name, verdicts, shows


def entry(name, verdicts, shows):
    fen, tags = study_of(name)
    year = re.sub(r"(\.\?\?)+$", "", tags.get("Date", ""))
    if "Event" not in tags or "White" not in tags:
        sys.exit(f"{name}.script: no tag Event or White: which study is it, and whose?")
    title = tags["Event"]
    source = ", ".join(it for it in (tags["White"], year) if it.strip("?."))
    text = f"**{title}**<br>{source}<br>*{verdicts}*<br><br>{shows}<br><br>"
    text += f"[script](../../crates/gallery/data/{name}.script) · [replies](../../crates/gallery/data/{name}.expected) · "
    return f"| ![{spoken(fen)}]({name}.svg) | {text}[facts](../../crates/gallery/data/{name}.lines) |", fen


def pages():
    """Each file of the two folders, by its path."""
    shapes, made, table = symbols(), {}, []
    for name, verdicts, shows in rows():
        line, fen = entry(name, verdicts, shows)
        made[f"gallery/{name}.svg"] = diagram(spoken(fen), men_of(fen), shapes)
        table.append(line)
    for words, path in re.findall(r"!\[([^]]*)\]\((finding/\w+\.svg)\)", read(f"{DOCS}/FINDING.md")):
        made[path] = diagram(words, named(words), shapes)
    head = f"""# The gallery

{len(table)} studies and endings with two to four men: published studies, endings of the textbooks, and positions found with the tables. Under each
title stands the author, if one is known, or the source. Authors and years are from memory; only those of Réti 1921 and of Barbier and Saavedra
1895 are certain.

The verdicts are strict: a waste of time counts as a dual, so some well-known studies are `unsound`. [The notes](../../crates/gallery/data/README.md)
explain this, how the gallery is run, and where its expected replies come from.

| | |
|---|---|
"""
    made["gallery/README.md"] = head + "\n".join(table) + "\n"
    return made


def main():
    made, there = pages(), [f"{folder}/{it}" for folder in ("gallery", "finding") if os.path.isdir(f"{DOCS}/{folder}") for it in os.listdir(f"{DOCS}/{folder}")]
    if "--check" in sys.argv[1:]:
        wrong = [it for it in made if it not in there or read(f"{DOCS}/{it}") != made[it]] + [it for it in there if it not in made]
        print(f"docs: {', '.join(wrong)}: run tools/check/draw_gallery.py" if wrong else f"docs: {len(made)} files as they are to be")
        return 1 if wrong else 0
    for path, text in made.items():
        os.makedirs(os.path.dirname(f"{DOCS}/{path}"), exist_ok=True)
        with open(f"{DOCS}/{path}", "w", encoding="utf8") as it:
            it.write(text)
    return 0


if __name__ == "__main__":
    sys.exit(main())
