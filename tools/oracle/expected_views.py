#!/usr/bin/env python3
"""Writes which views and surveys crates/gallery makes, and what they have to be, from the files of an independent program:
FOLDER/NAME.views, where each view follows a line `# view PATH`, and FOLDER/surveys.txt, where each survey follows a line
`# FEN | SQUARE | SIDE GOAL`. Lines of mutual zugzwangs are added to the views by the list in tools/oracle/finding, and those of the counts of men and
of the verdict as report_facts.py has them. Only those are taken whose tables the program makes. That program has looked at each study where its
script first asks for the PGN, so the scripts are those of the gallery up to there.

    tools/oracle/expected_views.py FOLDER
    tools/oracle/expected_views.py lines    adds these lines alone to the views that are expected, and those two to the views in web/tests/data
"""
import sys
from pathlib import Path

import report_facts

CRATES = Path(__file__).resolve().parents[2] / "crates"
CRATE = CRATES / "gallery"
PAGE_TESTS = CRATES.parent / "web/tests/data"
MADE = {"KK", "KQK", "KRK", "KBK", "KNK", "KPK", "KNNK"}
ORDER = "KQRBNP"


def material(fen):
    """The name of a FEN's class, the stronger side first."""
    men = fen.split()[0]
    sides = [sorted((m.upper() for m in men if m.isalpha() and m.isupper() == white), key=ORDER.index) for white in (True, False)]
    sides.sort(key=lambda side: (-len(side), [ORDER.index(m) for m in side]))
    return "".join(sides[0] + sides[1])


def parts(text, mark):
    """The headings that begin with the mark, each with the lines that follow it."""
    found = []
    for line in text.splitlines(keepends=True):
        if line.startswith(mark):
            found.append((line[len(mark):].rstrip("\n"), []))
        else:
            found[-1][1].append(line)
    return [(heading, "".join(lines)) for heading, lines in found]


def script(name):
    """A script of the gallery up to its first `pgn` line."""
    lines = (CRATES / f"gallery/data/{name}.script").read_text().splitlines(keepends=True)
    return "".join(lines[:lines.index("pgn\n") + 1])


def with_zugzwangs(view):
    """A view with a line for each of its nodes that is a mutual zugzwang."""
    lines = [line for line in view.splitlines() if not line.startswith("zugzwang ")]
    for words in [line.split(" ") for line in lines if line.startswith("node ")]:
        if kind := report_facts.zugzwang(report_facts.Position.of(" ".join(words[-6:]))):
            lines.append(f"zugzwang {words[1]} {kind}")
    return "".join(line + "\n" for line in lines)


def with_head(view, name):
    """A view with the counts of men behind its first line, and the verdict as a judge reads it behind its second: that of the first study of this script
    of the gallery."""
    heads = ("counts ", "stamp ", "worst ", "sentence ")
    start, stipulation, *rest = [line for line in view.splitlines() if not line.startswith(heads)]
    study = report_facts.studies_in(name)[0]
    found = report_facts.judged(study)
    assert start == f"study {study.fen}" and stipulation.startswith(f"stipulation {study.asked}: "), (name, start, stipulation)
    counts = report_facts.counts(study.position[()])
    worst = [f"worst {found.worst}"] if found.worst else []
    lines = [start, f"counts {counts}", stipulation, f"stamp {found.stamp}", *worst, f"sentence {found.words} At the start: {study.start_value}.", *rest]
    return "".join(line + "\n" for line in lines)


def with_lines(view, name):
    return with_head(with_zugzwangs(view), name)


def stored():
    """The views and surveys that are expected, with these lines."""
    for file in sorted(PAGE_TESTS.glob("*.views")):
        views = parts(file.read_text(), "# ")
        file.write_text("".join(f"# {heading}\n{with_head(view, file.stem)}" for heading, view in views))
    front, rest = (CRATE / "stdout").read_text("latin-1").split("== views and surveys\n")
    views = parts(rest[:rest.index("== pages\n")], "# ")
    text = "".join(f"# {heading}\n" + (with_lines(view, heading.split()[0]) if view.startswith("study ") else view) for heading, view in views)
    (CRATE / "stdout").write_text(front + "== views and surveys\n" + text + rest[rest.index("== pages\n"):], "latin-1")


def main(folder):
    asked = []
    for file in sorted(folder.glob("*.views")):
        for heading, view in parts(file.read_text(), "# "):
            if material(view.splitlines()[0].removeprefix("study ")) in MADE:
                asked.append((file.stem, heading, with_lines(view, file.stem)))
    for heading, survey in parts((folder / "surveys.txt").read_text(), "# "):
        fen, square, stipulation = heading.split(" | ")
        if material(fen) in MADE:
            asked.append(("-", f"survey {square} {stipulation} {fen}", survey))
    names = sorted({name for name, request, text in asked if name != "-"})
    for name in names:
        (CRATE / f"data/views/{name}.script").write_text(script(name))
    (CRATE / "data/views/requests").write_text("".join(f"{name} {request}\n" for name, request, text in asked))
    front, rest = (CRATE / "stdout").read_text("latin-1").split("== views and surveys\n")
    views = "".join(f"# {name} {request}\n{text}" for name, request, text in asked)
    (CRATE / "stdout").write_text(front + "== views and surveys\n" + views + rest[rest.index("== pages\n"):], "latin-1")
    print(len(asked), "requests of", len(names), "studies")


if __name__ == "__main__":
    if sys.argv[1] == "lines":
        stored()
    else:
        main(Path(sys.argv[1]))
