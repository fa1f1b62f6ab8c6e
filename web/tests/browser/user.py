"""A user at studyboard.html in headless Chromium, opened from its file: mouse, keys and files alone."""
import base64
import os
import sys
import tempfile
import time
import traceback

from selenium import webdriver
from selenium.common.exceptions import StaleElementReferenceException
from selenium.webdriver.chrome.service import Service
from selenium.webdriver.common.action_chains import ActionChains
from selenium.webdriver.common.by import By
from selenium.webdriver.common.keys import Keys

HERE = os.path.dirname(os.path.abspath(__file__))
TOP = os.path.join(HERE, "..", "..", "..")
PAGE = os.environ.get("STUDYBOARD", os.path.join(TOP, "web", "out", "studyboard.html"))
FILL = (
    "const e = document.getElementById(arguments[0]); e.value = arguments[1]; e.dispatchEvent(new Event('change',"
    " {bubbles: true}))"
)
PIECES = {"K": "king", "Q": "queen", "R": "rook", "B": "bishop", "N": "knight", "P": "pawn"}


def square_name(n):
    return "abcdefgh"[n % 8] + str(n // 8 + 1)


def men_of(fen):
    men = {}
    for i, rank in enumerate(fen.split()[0].split("/")):
        file = 0
        for c in rank:
            if c.isdigit():
                file += int(c)
            else:
                men[square_name(8 * (7 - i) + file)] = c
                file += 1
    return men


class User:
    def __init__(self, width=1280, height=1000, phone=False, flags=()):
        options = webdriver.ChromeOptions()
        common = ("--headless=new", "--no-sandbox", "--disable-gpu", "--disable-dev-shm-usage")
        for flag in (*common, f"--window-size={width},{height}", *flags):
            options.add_argument(flag)
        options.set_capability("goog:loggingPrefs", {"browser": "ALL", "performance": "ALL"})
        self.d = webdriver.Chrome(options=options, service=Service("/usr/bin/chromedriver"))
        self.d.set_script_timeout(1200)
        if phone:
            self.d.execute_cdp_cmd(
                "Emulation.setDeviceMetricsOverride",
                {"width": 390, "height": 844, "deviceScaleFactor": 2, "mobile": True},
            )
            self.d.execute_cdp_cmd("Emulation.setTouchEmulationEnabled", {"enabled": True})
        self.phone = phone
        self.open()

    def size(self, width, height):
        """The page's own size, without the frame of the window."""
        metrics = {"width": width, "height": height, "deviceScaleFactor": 1, "mobile": False}
        self.d.execute_cdp_cmd("Emulation.setDeviceMetricsOverride", metrics)
        self.until(f"innerWidth === {width} && innerHeight === {height}", 10)

    def tab(self, fragment=""):
        """One more page beside this one; its handle."""
        self.d.switch_to.new_window("tab")
        self.open(fragment)
        return self.d.current_window_handle

    def to(self, handle):
        self.d.switch_to.window(handle)

    def download(self, name):
        """What a button saves: the name of the file, and its text."""
        folder = tempfile.mkdtemp()
        self.d.execute_cdp_cmd("Browser.setDownloadBehavior", {"behavior": "allow", "downloadPath": folder})
        self.click(name)
        for _ in range(500):
            saved = [file for file in os.listdir(folder) if not file.endswith(".crdownload")]
            # (the browser makes an empty file of this name first)
            if saved and os.path.getsize(os.path.join(folder, saved[0])):
                with open(os.path.join(folder, saved[0]), encoding="utf-8") as file:
                    return saved[0], file.read()
            time.sleep(0.02)
        raise AssertionError("nothing was saved")

    def open_file(self, name, text):
        """A file is chosen; the page is not waited for."""
        path = os.path.join(tempfile.mkdtemp(), name)
        with open(path, "w", encoding="utf-8") as file:
            file.write(text)
        self.by("file").send_keys(path)

    def open(self, fragment=""):
        self.d.get("about:blank")
        self.d.get("file://" + os.path.abspath(PAGE) + fragment)
        self.idle()

    def js(self, code, *args):
        return self.d.execute_script(code, *args)

    def promise(self, code, *args):
        """The value of an async expression; a rejection raises."""
        script = (
            "const done = arguments[arguments.length - 1], a = arguments; (async () => { try { done([true, await ("
            + code
            + ")]); } catch (e) { done([false, String(e)]); } })()"
        )
        done = self.d.execute_async_script(script, *args)
        if not done[0]:
            raise AssertionError(done[1])
        return done[1]

    def idle(self):
        self.promise("studyboard.idle()")

    def until(self, code, seconds=60, what=""):
        end = time.time() + seconds
        while time.time() < end:
            if self.js("return " + code):
                return
            time.sleep(0.02)
        raise AssertionError(f"not within {seconds} s: {what or code}")

    def by(self, name):
        return self.d.find_element(By.ID, name)

    def has(self, name):
        return bool(self.d.find_elements(By.ID, name))

    def click(self, name):
        """A press on a button; the menu that it stands in is opened first."""
        if self.js("return Boolean(document.getElementById(arguments[0]).closest('.menu:not([open])'))", name):
            self.press_on("#saveMenu > summary")
        self.js("document.getElementById(arguments[0]).scrollIntoView({block: 'nearest'})", name)
        self.press_on("#" + name)

    def press_on(self, selector):
        """A press on what a selector names; again for two seconds, if that part of the page is drawn anew meanwhile."""
        for left in range(10, -1, -1):
            try:
                return self.d.find_element(By.CSS_SELECTOR, selector).click()
            except StaleElementReferenceException:
                if not left:
                    raise
                time.sleep(0.2)

    def text(self, name):
        return self.js("return document.getElementById(arguments[0]).innerText", name).strip()

    def point(self, square):
        board = (
            "const b = document.querySelector('#board svg'); b.scrollIntoView({block: 'nearest'}); const r ="
            " b.getBoundingClientRect();"
        )
        left, top, width = self.js(board + "return [r.left, r.top, r.width]")
        unit = width / 377
        return int(left + (14 + 45 * "abcdefgh".index(square[0]) + 22) * unit), int(
            top + (3 + 45 * (8 - int(square[1])) + 22) * unit
        )

    def drag(self, here, there):
        (x, y), (u, v) = self.point(here), self.point(there)
        mouse = ActionChains(self.d, duration=5).w3c_actions
        at = mouse.pointer_action
        at.move_to_location(x, y)
        at.pointer_down()
        at.move_to_location((x + u) // 2, (y + v) // 2)
        at.move_to_location(u, v)
        at.pointer_up()
        mouse.perform()

    def press(self, square):
        x, y = self.point(square)
        mouse = ActionChains(self.d, duration=5).w3c_actions
        mouse.pointer_action.move_to_location(x, y)
        mouse.pointer_action.pointer_down()
        mouse.pointer_action.pointer_up()
        mouse.perform()

    def keys(self, *keys):
        ActionChains(self.d).send_keys(*keys).perform()

    def control(self, key):
        ActionChains(self.d).key_down(Keys.CONTROL).send_keys(key).key_up(Keys.CONTROL).perform()

    def open_tables(self, folder, names):
        self.by("tableFiles").send_keys(
            "\n".join(os.path.join(os.path.abspath(folder), name + ".dtm") for name in names)
        )
        self.until("document.getElementById('sayBoard').textContent.includes('table')", 120)
        self.idle()

    # ---- what a composer does
    def settle(self):
        """The last action is done and drawn."""
        self.idle()

    def set_up(self, fen, aim, first=True):
        if not self.has("start"):
            self.click("new" if first else "more")
        self.click("clear")
        for square, man in men_of(fen).items():
            self.click("man" + man)
            self.press(square)
        if fen.split()[1] == "b":
            self.click("moverb")
        self.choose("draftHero", aim.split()[0])
        self.choose("draftGoal", aim.split()[1])
        if aim.split()[1] == "mate":
            self.fill("draftK", aim.split()[2])
        self.until("document.getElementById('start') && !document.getElementById('start').disabled", 120)
        if fen.split()[3] != "-":
            self.until("document.getElementById('passedSquare')")
            self.choose("passedSquare", fen.split()[3])
            self.until("document.getElementById('start') && !document.getElementById('start').disabled", 120)
        if fen.split()[4:] not in ([], ["0", "1"]):
            self.fill("fen", fen)
            self.until("document.getElementById('start') && !document.getElementById('start').disabled", 120)
        self.click("start")
        self.until("document.getElementById('nav').children.length > 0", 600, "start")
        self.settle()

    def choose(self, name, value):
        self.js(FILL, name, value)
        self.settle()

    def fill(self, name, value):
        self.js("document.getElementById(arguments[0]).focus(); " + FILL, name, value)
        self.settle()

    def go(self, path):
        if path == "root":
            self.js("const e = document.getElementById('first'); if (!e.disabled) e.click()")
        else:
            self.d.find_element(By.CSS_SELECTOR, f'.tree [data-path="{path}"]').click()
        self.settle()

    def play(self, san):
        """The move of this text, by the mouse: its squares are those of the view."""
        view = self.promise("studyboard.view(studyboard.study(), studyboard.path())")
        rows = [line.split() for line in view.split("\n") if line.startswith("move ")]
        squares = next((row[2] for row in rows if row[1].rstrip("+#") == san.rstrip("+#")), None)
        assert squares, f"{san} is not offered"
        self.drag(squares[:2], squares[2:4])
        if len(squares) > 4:
            name = PIECES[squares[4].upper()]
            self.until("document.querySelector('.choose')")
            self.d.find_element(By.CSS_SELECTOR, f'.choose [aria-label="{name}"]').click()
        self.settle()

    def picture(self, name, whole=True):
        folder = os.environ.get("SHOTS")
        if not folder:
            return
        os.makedirs(folder, exist_ok=True)
        width, height = self.js("return [innerWidth, document.documentElement.scrollHeight]")
        clip = {"x": 0, "y": 0, "width": width, "height": min(height, 4000), "scale": 1}
        shot = self.d.execute_cdp_cmd("Page.captureScreenshot", {"captureBeyondViewport": whole, "clip": clip})
        with open(os.path.join(folder, name + ".png"), "wb") as file:
            file.write(base64.b64decode(shot["data"]))

    def no_faults(self):
        bad = [e["message"] for e in self.d.get_log("browser") if e["level"] == "SEVERE"]
        assert not bad, bad

    def requests(self):
        """What the page asked of any network since the last time."""
        import json

        urls = []
        for entry in self.d.get_log("performance"):
            message = json.loads(entry["message"])["message"]
            if message["method"] == "Network.requestWillBeSent":
                urls.append(message["params"]["request"]["url"])
        return [u for u in urls if not u.startswith(("data:", "blob:", "about:")) and os.path.basename(PAGE) not in u]

    def seen(self, name):
        """Whether an element stands whole in the window, without scrolling, and nothing lies over it."""
        return self.js(
            """const e = document.getElementById(arguments[0]), r = e && e.getBoundingClientRect();
            if (!r || !r.width || r.top < -1 || r.left < 0 || r.bottom > innerHeight + 1 || r.right > innerWidth)
                return false;
            const over = document.elementFromPoint(r.left + r.width / 2, r.top + r.height / 2);
            return e.contains(over) || (over && over.contains(e));""",
            name,
        )

    def end(self):
        self.d.quit()


def run(tests, names, more=lambda name, user: user.no_faults()):
    """Tests by name, each in a new profile; a picture of each that fails. Ends the program."""
    names, bad = names or [name[5:] for name in tests if name.startswith("test_")], 0
    for name in names:
        user, began = User(), time.time()
        try:
            tests["test_" + name](user)
            more(name, user)
            print(f"{name}: passed, {time.time() - began:.1f} s", flush=True)
        except Exception as fault:
            bad += 1
            line = traceback.extract_tb(fault.__traceback__)[1]
            print(f"{name}: FAILED, line {line.lineno}, {type(fault).__name__}: {str(fault)[:400]}", flush=True)
            user.picture("failed_" + name)
        user.end()
    print(f"{len(names) - bad} of {len(names)} passed")
    sys.exit(bool(bad))


__all__ = ["User", "Keys", "By", "FILL", "TOP", "men_of", "run", "square_name"]
