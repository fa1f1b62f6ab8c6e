#!/usr/bin/python3
"""Draws the pictures of the documents from the board, in headless Chromium: docs/board.png, docs/report.png, docs/pictures/*.png.

    tools/release/draw_pictures.py [PAGE]            writes the pictures, and the words on them into docs/pictures/words.txt
    tools/release/draw_pictures.py --check [PAGE]    goes through the same steps and compares the words only; exit status 1 if one has changed

PAGE is web/out/studyboard.html if it is not named. The page builds its tables, of up to three men. The words are those of the whole parts of the page
that a picture shows, also where its frame cuts them, so they do not depend on the fonts. Debian: chromium-driver, python3-selenium; pngquant and
zopfli to write.
"""
import base64
import difflib
import os
import re
import shutil
import subprocess
import sys
import tempfile

from selenium.webdriver.common.action_chains import ActionChains
from selenium.webdriver.common.by import By

SIZE, NARROW = (1366, 625), (1060, 625)
TOP = os.path.abspath(os.path.join(os.path.dirname(os.path.abspath(__file__)), "..", ".."))
WORDS = f"{TOP}/docs/pictures/words.txt"
MEN = {"h2": "K", "b2": "P", "g5": "k"}
TAGS = {"tagEvent": "The distant opposition", "tagWhite": "A. Composer", "tagDate": "2026"}
# The text of an element: with the choice made in each list and what stands in each field, without the squares of diagrams.
TEXT = """const element = document.querySelector(arguments[0]), back = [];
    for (const it of element.querySelectorAll('select, input:not([type=file]), textarea, svg')) {
        if (!it.checkVisibility()) continue;
        const text = document.createElement('span'), shown = it.style.display;
        text.textContent = it.selectedOptions ? it.selectedOptions[0].text : it.value || it.placeholder || '';
        it.before(text);
        it.style.display = 'none';
        back.push(() => { text.remove(); it.style.display = shown; });
    }
    const words = element.innerText;
    back.forEach(undo => undo());
    return words;"""
FRAME = """const boxes = arguments[0].map(it => document.querySelector(it).getBoundingClientRect());
    return [Math.min(...boxes.map(it => it.left)), Math.min(...boxes.map(it => it.top)), Math.max(...boxes.map(it => it.right)),
            Math.max(...boxes.map(it => it.bottom))];"""


class Pictures:
    """The words of each picture, in order, and the pictures themselves if they are drawn."""

    def __init__(self, user, drawn):
        self.user, self.words, self.drawn, self.bytes = user, {}, drawn, {}

    def take(self, name, parts, cut=(), height=2000, edge=6):
        """These parts of the page, as one rectangle of at most this height; and words of other parts that show in it, cut off."""
        user = self.user
        user.js("document.activeElement.blur(); scrollTo(0, 0)")
        mouse = ActionChains(user.d, duration=0).w3c_actions
        mouse.pointer_action.move_to_location(1, user.js("return innerHeight") - 1)
        mouse.perform()
        user.promise("window.studyboard && studyboard.idle()")
        lines = [re.sub(r"\s+", " ", line).strip() for part in (*parts, *cut) for line in user.js(TEXT, part).split("\n")]
        self.words[name] = [line for line in lines if line]
        if not self.drawn:
            return
        left, top, right, bottom = user.js(FRAME, parts)
        left, top = max(0, left - edge), max(0, top - edge)
        clip = {"x": left, "y": top, "width": round(right + edge - left), "height": min(height, round(bottom + edge - top)), "scale": 1}
        shot = user.d.execute_cdp_cmd("Page.captureScreenshot", {"captureBeyondViewport": True, "clip": clip})
        self.bytes[name] = base64.b64decode(shot["data"])


def judged(user):
    """The study is marked, and its facts are there."""
    user.settle()
    user.until("studyboard.last().reviewed && document.getElementById('progress').hidden")
    user.settle()


def compose(user, pictures):
    """A study of king and pawn, from the empty board to the printed page."""
    def typed(path, moves):
        user.go(path)
        user.fill("san", moves)
        judged(user)

    for square, man in MEN.items():
        user.click("man" + man)
        user.press(square)
    user.until("document.getElementById('start') && !document.getElementById('start').disabled", 120)
    pictures.take("docs/pictures/1_set_up.png", ["#left", "#middle"], ["#texts"])

    user.click("start")
    user.until("document.getElementById('san')")
    typed("root", "Kg3 (b4 Kf6) Kf5 Kf3 (b4 Ke6)")
    user.go("0.0")
    user.size(*NARROW)
    pictures.take("docs/pictures/2_play.png", ["#left", "#middle", "#right"])
    user.size(*SIZE)

    typed("0.0.0", "Ke5 Ke3 Kd5 Kd3 Kc5 Kc3 Kb5 Kb3 Kc5 Ka4")
    typed("0", "Kg6 Kf4")
    for name, text in TAGS.items():
        user.fill(name, text)
    judged(user)
    user.go("root")
    pictures.take("docs/pictures/3_verdict.png", ["#middle", "#right"])
    report = user.download("saveReport")[1]

    user.d.find_element(By.CSS_SELECTOR, "#mend [data-cut]").click()
    judged(user)
    user.go("0.1")
    user.click("delete")
    judged(user)
    user.go("root")
    pictures.take("docs/pictures/4_remedy.png", ["#middle", "#right"])

    user.d.find_element(By.CSS_SELECTOR, "#tags summary").click()
    user.size(*NARROW)
    user.d.find_element(By.CSS_SELECTOR, "#saveMenu summary").click()
    pictures.take("docs/pictures/6_save.png", [".bar", "#left", "#middle"], ["#right"])
    user.d.find_element(By.CSS_SELECTOR, "#saveMenu summary").click()
    user.size(*SIZE)
    return report


def find(user, pictures):
    user.click("findButton")
    user.choose("findClass", "KPK")
    user.choose("findTheme", "win N")
    user.js("const e = document.getElementById('findN'); e.value = '6'; e.dispatchEvent(new Event('input', {bubbles: true}))")
    user.click("findGo")
    user.until("document.getElementById('findState').innerText.includes('all there are')")
    pictures.take("docs/pictures/5_find.png", ["#finding"], edge=0)
    user.click("closeFinding")


def sample(user, pictures):
    user.tab()
    user.size(*SIZE)
    user.click("sample")
    user.until("document.getElementById('stamp')")
    judged(user)
    user.go("root")
    pictures.take("docs/board.png", [".bar", "#left", "#middle", "#right"], ["#below"], 600)


def printed(user, pictures, report):
    with tempfile.NamedTemporaryFile("w", suffix=".html", encoding="utf8") as file:
        file.write(report)
        file.flush()
        user.d.get("file://" + file.name)
        user.size(860, 1216)
        pictures.take("docs/report.png", ["html"], height=1160, edge=0)


def main():
    words = sys.argv[1:]
    check = words[:1] == ["--check"]
    page = (words[1:] if check else words) or [f"{TOP}/web/out/studyboard.html"]
    if len(page) != 1 or not os.path.isfile(page[0]):
        sys.exit(__doc__)
    lacking = [it for it in ("chromedriver", *(() if check else ("pngquant", "zopflipng"))) if not shutil.which(it)]
    if lacking:
        sys.exit(f"tools/release/draw_pictures.py: not here: {' '.join(lacking)}")
    os.environ["STUDYBOARD"] = os.path.abspath(page[0])
    sys.path.insert(0, f"{TOP}/web/tests/browser")
    from user import User
    user = User(1366, 900, flags=("--hide-scrollbars",))
    pictures = Pictures(user, not check)
    try:
        user.size(*SIZE)
        report = compose(user, pictures)
        find(user, pictures)
        sample(user, pictures)
        printed(user, pictures, report)
    finally:
        user.end()
    text = "".join(f"== {name}\n" + "".join(line + "\n" for line in lines) for name, lines in pictures.words.items())
    return compare(text) if check else write(text, pictures.bytes)


def compare(text):
    old = open(WORDS, encoding="utf8").read() if os.path.isfile(WORDS) else ""
    name, changed = "", 0
    for line in difflib.ndiff(old.splitlines(), text.splitlines()):
        if line[2:].startswith("== "):
            name = line[5:]
        if line[0] in "+-":
            changed += 1
            print(f"{name}: {'new' if line[0] == '+' else 'no longer'}: {line[2:]}")
    print(f"words on the pictures: {changed} lines changed: run tools/release/draw_pictures.py and look at them" if changed
          else f"words on the pictures: {text.count('== ')} pictures as they are drawn")
    return 1 if changed else 0


def write(text, pictures):
    os.makedirs(os.path.dirname(WORDS), exist_ok=True)
    for name, picture in pictures.items():
        with tempfile.TemporaryDirectory() as folder:
            big, small = f"{folder}/big.png", f"{folder}/small.png"
            with open(big, "wb") as file:
                file.write(picture)
            subprocess.run(["pngquant", "--strip", "--output", small, "256", big], check=True)
            subprocess.run(["zopflipng", "-y", small, f"{TOP}/{name}"], check=True, stdout=subprocess.DEVNULL)
        print(f"{name}: {os.path.getsize(f'{TOP}/{name}')} bytes")
    with open(WORDS, "w", encoding="utf8") as file:
        file.write(text)
    return 0


if __name__ == "__main__":
    sys.exit(main())
