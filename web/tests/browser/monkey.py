"""Random actions of a user who does not know what he does: after each, the games shown are those of the script, run
alone. After each fortieth the page is loaded again, and the tree, patched in place until then, is the one that is
drawn anew.

    monkey.py TABLES SEED N
"""
import os
import random
import re
import sys

from selenium.common.exceptions import (
    ElementClickInterceptedException,
    ElementNotInteractableException,
    StaleElementReferenceException,
)
from user import By, Keys, User

SMALL = "KK KQK KRK KBK KNK KPK".split()
FENS = [
    "8/8/8/6k1/8/8/1P5K/8 w - - 0 1",
    "8/k1P5/2K5/8/8/8/8/8 w - - 0 1",
    "k7/8/1K6/8/8/8/8/7R w - - 0 1",
    "8/3k4/8/3KP3/8/8/8/8 b - - 0 1",
    "Kb6 Pc6 / Ka1 Rd5 Bh8",
    "nonsense",
]


def act(user, dice):
    kind = dice.random()
    if user.has("start"):
        name = dice.choice(
            ["start", "cancel", "fen", "manq", "clear", "moverb", "survey", "press", "press", "startEmpty"]
        )
        if name == "fen":
            user.fill("fen", dice.choice(FENS))
        elif name == "press":
            user.press(dice.choice("abcdefgh") + dice.choice("12345678"))
        elif user.has(name) and user.by(name).is_enabled():
            user.click(name)
        return name
    chips = user.d.find_elements(By.CSS_SELECTOR, ".moves .chip, #review .add, .faults .chip")
    nodes = user.d.find_elements(By.CSS_SELECTOR, ".tree [data-path]")
    if kind < 0.45 and chips:
        chip = dice.choice(chips)
        user.js("arguments[0].scrollIntoView({block: 'center'})", chip)
        chip.click()
        return "chip"
    if kind < 0.6 and nodes:
        node = dice.choice(nodes)
        user.js("arguments[0].scrollIntoView({block: 'center'})", node)
        node.click()
        return "node"
    if kind < 0.68:
        user.drag(*(dice.choice("abcdefgh") + dice.choice("12345678") for _ in range(2)))
        return "drag"
    name = dice.choice(
        [
            "undo",
            "redo",
            "delete",
            "promote",
            "first",
            "flip",
            "theme",
            "setUp",
            "more",
            "new",
            "aim",
            "tag",
            "san",
            "key",
            "tidy",
        ]
    )
    if name == "aim":
        user.choose("aimGoal", dice.choice(["win", "draw", "mate"])) if user.has("aimGoal") else None
    elif name == "tag":
        user.fill("tagWhite", dice.choice(["Réti", "<b>", "", "x" * 70, "中"])) if user.has("tagWhite") else None
    elif name == "san":
        user.fill("san", dice.choice(["Kg3", "zzz", "1. Kg3 Kf5", "O-O", "Kb1"])) if user.has("san") else None
    elif name == "key":
        user.keys(
            dice.choice([Keys.ARROW_LEFT, Keys.ARROW_RIGHT, Keys.ARROW_UP, Keys.END, Keys.DELETE, "f", Keys.ESCAPE])
        )
    elif user.has(name) and user.by(name).is_displayed() and user.by(name).is_enabled():
        user.click(name)
    return name


def main():
    dice, count = random.Random(int(sys.argv[2])), int(sys.argv[3])
    user, bad = User(), 0
    user.open_tables(os.path.abspath(sys.argv[1]), SMALL)
    for i in range(count):
        try:
            what = act(user, dice)
        except (StaleElementReferenceException, ElementClickInterceptedException, ElementNotInteractableException):
            continue
        user.settle()
        script = user.promise("studyboard.script()")
        classes = user.promise("studyboard.tables(a[0])", script)
        lines, begun = [f"load {name}" for name in SMALL + [name for name in classes if name not in SMALL]], False
        for line in script.split("\n"):
            if line.startswith("position "):
                lines += ["pgn"] * begun
                begun = True
            if line.strip() and not line.startswith("#"):
                lines.append(line)
        text = user.promise("studyboard.run(a[0], 1000)", "\n".join(lines + ["pgn"] * begun) + "\n")
        games = "".join(re.findall(r"^\[Event [\s\S]*?\n\n[\s\S]*?\n\n", text, re.M))
        if games != user.promise("studyboard.pgn()"):
            bad += 1
            print(
                f"action {i}, {what}: NOT EQUAL\n{script}---\n{games}---\n{user.promise('studyboard.pgn()')}",
                flush=True,
            )
        if i % 40 == 39:
            tree = "return document.getElementById('tree').innerHTML"
            before = user.js(tree)
            user.d.refresh()
            user.idle()
            if user.js(tree) != before:
                bad += 1
                print(f"action {i}, {what}: ANOTHER TREE\n{before}\n---\n{user.js(tree)}", flush=True)
    user.no_faults()
    user.end()
    print(f"{count} random actions, {bad} differ")
    sys.exit(bool(bad))


main()
