"""Each study of the gallery, set up and played by mouse alone: its game is that of the expected replies, byte by byte.

    gallery.py TABLES [NAME ..]
"""
import os
import re
import sys
import time

from user import TOP, User

EXAMPLES = os.path.join(TOP, "examples")


def games(expected):
    """The games among replies: from `[Event` to the second empty line."""
    found, rows, empty = [], None, 0
    for line in expected.split("\n"):
        if line.startswith("[Event ") and rows is None:
            rows, empty = [], 0
        if rows is not None:
            rows.append(line)
            empty += line == ""
            if empty == 2:
                found.append("\n".join(rows) + "\n")
                rows = None
    return found


def play(user, script, wanted):
    """The edits of a script by mouse, up to its first `pgn`."""
    lines = [line for line in script.split("\n") if line and not line.startswith("#")]
    lines = lines[: lines.index("pgn")]
    fen = aim = ""
    for line in lines:
        word, _, rest = line.strip().partition(" ")
        if word == "position":
            fen = rest
        elif word == "stipulate" and not aim:
            aim = rest
            user.set_up(fen, aim)
        elif word == "stipulate":
            side, goal, *k = rest.split()
            user.choose("aimHero", side)
            user.choose("aimGoal", goal)
            if k:
                user.fill("aimK", k[0])
        elif word == "tag":
            name, _, text = rest.partition(" ")
            user.fill("tag" + name, text)
        elif word == "insert":
            path, san = rest.split()
            if not refused(lines, wanted, line):
                user.go(path)
                user.play(san)
        elif word in ("delete", "promote") and not refused(lines, wanted, line):
            user.go(rest)
            user.click(word)
            user.settle()
        elif word == "shift" and not refused(lines, wanted, line):
            user.click("setUp")
            user.fill("fen", rest)
            user.until("document.getElementById('start') && !document.getElementById('start').disabled")
            user.click("start")
            user.settle()


def refused(lines, expected, line):
    """Whether the expected replies refuse this line: replies of all but games are one a line."""
    replies = expected.split("\n")
    return replies[lines.index(line)].startswith("error ")


def main():
    scripts = [name[:-7] for name in os.listdir(EXAMPLES) if name.endswith(".script")]
    names = sys.argv[2:] or sorted(
        name for name in scripts if os.path.exists(os.path.join(EXAMPLES, name + ".expected"))
    )
    user, bad = User(), 0
    for name in names:
        with open(os.path.join(EXAMPLES, name + ".script"), encoding="utf-8") as file:
            script = file.read()
        with open(os.path.join(EXAMPLES, name + ".expected"), encoding="utf-8") as file:
            expected = file.read()
        need = re.findall(r"^build (\w+)$", script, re.M)
        began = time.time()
        user.open_tables(sys.argv[1], need)
        play(user, script, expected)
        answer = user.promise("studyboard.pgn()")
        right = answer == games(expected)[0]
        bad += not right
        print(f"{name}: {'equal' if right else 'NOT EQUAL'}, {time.time() - began:.1f} s", flush=True)
        if not right:
            print(answer, games(expected)[0], sep="\n---\n")
        user.until("document.getElementById('review').textContent.indexOf('being found') < 0")
        user.picture("gallery_" + name)
        user.no_faults()
    assert not user.requests(), "the page asked for something"
    user.end()
    sys.exit(bool(bad))


main()
