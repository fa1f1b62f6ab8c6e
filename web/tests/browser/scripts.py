"""Scripts through `studyboard.run`: those of the gallery give the expected replies, and random ones those of the native
program. The words and the remarks that stand in for the program in node tests are its own.

    scripts.py TABLES N

Of the gallery those are tried whose tables are all in TABLES: each where N is more than 50, else every second.
STUDYBENCH names the native program; without it the gallery alone is tried.
"""
import os
import random
import re
import subprocess
import sys

from user import TOP, User

EXAMPLES = os.path.join(TOP, "examples")
DATA = os.path.join(TOP, "web", "tests", "data")
NATIVE = os.environ.get("STUDYBENCH", os.path.join(TOP, "crates", "studybench", "out", "studybench"))
FENS = [
    "8/8/8/6k1/8/8/1P5K/8 w - - 0 1",
    "8/k1P5/2K5/8/8/8/8/8 w - - 0 1",
    "k7/8/1K6/8/8/8/8/7R w - - 0 1",
    "7k/8/5K2/8/8/8/8/6Q1 w - - 0 1",
    "8/3k4/8/3KP3/8/8/8/8 b - - 0 1",
    "8/8/8/8/8/2k5/8/K1R5 b - - 0 1",
    "8/8/8/8/8/k7/8/8 w - - 0 1",
    "nonsense",
    "8/8/8/8/8/k7/8/K6P w - - 0 1",
]
SANS = [
    "Kg3",
    "Kf5",
    "Kf3",
    "b4",
    "c8=Q",
    "c8=R",
    "Rh8",
    "Qg7",
    "Ke7",
    "Kd8",
    "e6",
    "Kh1",
    "Kb1",
    "Rb1",
    "O-O",
    "zzz",
    "Kb8",
    "Ka6",
]


def random_script(dice, tables):
    lines = (
        [f"load {name}" for name in ("KK", "KQK", "KRK", "KBK", "KNK", "KPK") if dice.random() < 0.97] if tables else []
    )
    paths = ["root", "0", "1", "0.0", "0.0.0", "1.0", "9"]
    for _ in range(dice.randrange(3, 40)):
        kind = dice.random()
        if kind < 0.15:
            lines.append("position " + dice.choice(FENS))
        elif kind < 0.27:
            lines.append(
                "stipulate "
                + dice.choice(
                    ["white win", "white draw", "black draw", "black win", "white mate 2", "white mate 0", "red win"]
                )
            )
        elif kind < 0.62:
            lines.append(f"insert {dice.choice(paths)} {dice.choice(SANS)}")
        elif kind < 0.72:
            lines.append(f"{dice.choice(['delete', 'promote', 'fen', 'moves'])} {dice.choice(paths)}")
        elif kind < 0.85:
            lines.append(f"mark {dice.choice(paths)}")
        elif kind < 0.9:
            text = "".join(dice.choice('abc <>&"') for _ in range(dice.randrange(0, 70)))
            lines.append(f"tag {dice.choice(['White', 'Event', 'Nobody'])} {text}")
        elif kind < 0.94:
            lines.append("shift " + dice.choice(FENS))
        else:
            lines.append(dice.choice(["pgn", "solve 2 root", "# note", "", "dance", "é", "mark", "verify KK"]))
    return "\n".join(lines) + "\n"


def text_of(name):
    """The text of a file of the gallery."""
    with open(os.path.join(EXAMPLES, name), encoding="utf-8") as file:
        return file.read()


def gallery(classes):
    """The names of the gallery's scripts with expected replies whose tables are all of these classes."""
    names = [name[:-7] for name in sorted(os.listdir(EXAMPLES)) if name.endswith(".script")]
    names = [name for name in names if os.path.exists(os.path.join(EXAMPLES, name + ".expected"))]
    return [
        name
        for name in names
        if set(re.findall(r"^(?:build|load) (\w+)$", text_of(name + ".script"), flags=re.M)) <= set(classes)
    ]


def own_words(user):
    """How many of the answers differ that node tests have from a file."""
    names = ("words.txt", "remarks.script", "remarks.rows", "up_to_fault.pgn", "up_to_fault.script")
    data = {name: text_of(os.path.join(DATA, name)) for name in names}
    answers = [
        (user.promise("studyboard.words()"), data["words.txt"]),
        (user.promise("studyboard.remarks(a[0])", data["remarks.script"]), data["remarks.rows"]),
        (
            user.promise("studyboard.import(a[0], 'white draw', true)", data["up_to_fault.pgn"]),
            data["up_to_fault.script"],
        ),
    ]
    differ = [(answer, wanted) for answer, wanted in answers if answer != wanted]
    for answer, wanted in differ:
        print(f"words or remarks NOT EQUAL\n{answer}---\n{wanted}", flush=True)
    return len(differ)


def main():
    folder, count = os.path.abspath(sys.argv[1]), int(sys.argv[2])
    user, bad = User(), 0
    classes = [name[:-4] for name in sorted(os.listdir(folder)) if name.endswith(".dtm")]
    names = gallery(classes)[:: 1 if count > 50 else 2]
    if not names:
        bad += 1
        print("no script of the gallery can be tried with these tables")
    user.open_tables(folder, classes)
    bad += own_words(user)
    for name in names:
        script = re.sub(r"^build (\w+)$", r"load \1", text_of(name + ".script"), flags=re.M)
        expected = re.sub(
            r"^built (\w+) cells (\d+) win \S+$", r"loaded \1 cells \2", text_of(name + ".expected"), flags=re.M
        )
        for pages in (64, 1000):
            if user.promise("studyboard.run(a[0], a[1])", script, pages) != expected:
                bad += 1
                print(name, pages, "NOT EQUAL", flush=True)
    print(f"gallery: {len(names)} scripts", flush=True)
    if not os.access(NATIVE, os.X_OK):
        print("no native program: random scripts are not tried")
    else:
        dice = random.Random(37)
        for i in range(count):
            script, pages = random_script(dice, True), dice.choice([None, 1, 64])
            words = [NATIVE, "--separate", "--tables", folder] + (["--pages", str(pages)] if pages else [])
            native = subprocess.run(words, input=script.encode(), capture_output=True, check=False).stdout.decode()
            answer = user.promise("studyboard.run(a[0], a[1] || undefined)", script, pages)
            if answer != native:
                bad += 1
                print(f"script {i} NOT EQUAL\n{script}---\n{answer}---\n{native}", flush=True)
        print(f"random: {count} scripts, {bad} differ")
    user.no_faults()
    user.end()
    sys.exit(bool(bad))


main()
