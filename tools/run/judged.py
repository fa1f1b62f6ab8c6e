#!/usr/bin/env python3
"""Compares the list of a collection with the slips that were planted in it: what the verdict on each game is, and whether it names its slip.

    studyimport < GAMES.pgn > my.script; studyreport --tables DIR --list < my.script > my.csv
    tools/run/judged.py my.csv GAMES.tsv

GAMES.tsv has a line for each game: its number, and the slip that was planted in it, nothing for a clean study. The script prints how many games with
each slip have each kind of verdict, and then each game whose verdict does not say its slip. Exit status: 0 if each does.
"""
import csv
import re
import sys

SOUND = r"sound(, duals waste time)?(; main defence .* not given)?$"
LEFT_OUT = r"left out|\w+ at |\w+$"
# The verdict that each slip must have. Two copies of a study, another language and a missing author are no fault of the solution.
WANTED = {
    "": r"sound(, duals waste time)?$",
    "result_flip": r"wrong: (White|Black) wins$|does not ",
    "mistake": r"fails at ",
    "weak_reply": r"sound.*; main defence .* not given$",
    "dual": r"cook: |\d+ duals?( in|,|$)",
    "no_solution": r"correct, no solution yet$",
}
KINDS = [("wrong: ..", r"wrong: "), ("does not ..", r"does not "), ("fails at ..", r"fails at "), ("cook: ..", r"cook: "), ("N duals", r"\d+ dual"),
         ("main defence named", r"sound.*; main defence"), ("sound, duals waste time", r"sound, "), ("sound", r"sound$"),
         ("correct, no solution yet", r"correct, "), ("not read", r"not read")]


def kind(verdict):
    return next((name for name, form in KINDS if re.match(form, verdict)), "left out")


def main(table, slips):
    with open(table, encoding="latin-1", newline="") as file:
        rows = {int(row["Number"]): row for row in csv.DictReader(file) if row["Number"]}
    with open(slips, encoding="utf-8") as file:
        planted = {int(line.split("\t")[0]): line.rstrip("\n").split("\t")[1] for line in file if not line.startswith("#")}
    counts, missed = {}, []
    for number, slip in planted.items():
        verdict = rows[number]["Verdict"] if number in rows else "no row"
        name = slip.split(" ")[0]
        counts.setdefault(name, {}).setdefault(kind(verdict), []).append(number)
        if name in WANTED and not re.match(WANTED[name], verdict):
            missed.append(f"game {number} ({slip or 'clean'}): {verdict}" + (f" ({rows[number]['Worst dual']})" if rows.get(number, {}).get("Worst dual") else ""))
    for name in sorted(counts):
        for verdict, numbers in sorted(counts[name].items()):
            print(f"{name or 'clean':18} {verdict:26} {len(numbers):4}  {', '.join(map(str, numbers)) if len(numbers) < 8 else ''}".rstrip())
    for line in missed:
        print("UNSAID", line)
    print(f"{len(planted)} games, {len(missed)} whose verdict does not say their slip")
    return not missed


if __name__ == "__main__":
    if len(sys.argv) != 3:
        sys.exit(__doc__)
    sys.exit(0 if main(*sys.argv[1:]) else 1)
