"""The page on a laptop's screen, by keys, for a screen reader and on paper; and that nobody waits for a build that he
does not need.

    screen.py TABLES [NAME ..]
"""
import os
import re
import sys
import time

from user import FILL, By, Keys, run

TABLES = os.path.abspath(sys.argv[1])
FEN = "8/8/8/6k1/8/8/1P5K/8 w - - 0 1"
SMALL = "KK KQK KRK KBK KNK KPK".split()
SCROLLS = """return [...document.querySelectorAll('main, main *, .bar')].filter(e => e.tagName !== 'TEXTAREA' &&
    e.scrollHeight > e.clientHeight + 1 && /auto|scroll/.test(getComputedStyle(e).overflowY)
    ).map(e => e.id || e.className)"""
CHIPS = """const all = [...document.querySelectorAll('.moves .chip')];
    return [all.length, Math.max(...all.map(chip => chip.getBoundingClientRect().bottom))]"""
LABELS = "return [...document.querySelectorAll(arguments[0])].map(chip => chip.getAttribute('aria-label'))"
SIDE = "return document.querySelector('#board svg').getBoundingClientRect()"
VALUE = r"(White mates in \d+|Black mates in \d+|draw|mate)"


def judged(user, words="correct", seconds=60):
    user.until(f"document.getElementById('judged').textContent.includes('{words}')", seconds)


def small(user):
    user.open_tables(TABLES, SMALL)


def test_a_laptop(user):
    small(user)
    user.size(1366, 625)
    for man, square in (("K", "g2"), ("k", "h5"), ("P", "b2")):
        user.click("man" + man)
        user.press(square)
    judged(user)
    user.picture("laptop_first", whole=False)
    assert user.js("return scrollY") == 0
    for name in ("board", "judged", "start", "survey", "draftHero", "fen", "clear"):
        assert user.seen(name), name
    user.click("start")
    user.settle()
    queen, pawn = "8/8/8/3k4/8/8/8/Q3K3 w - - 0 1", "8/3k4/8/3KP3/8/8/8/8 b - - 0 1"
    for fen, aim in ((FEN, "white win"), (queen, "white win"), (pawn, "black draw")):
        user.set_up(fen, aim)
        for name in ("stamp", "value", "board", "first", "setUp", "aimGoal", "solution"):
            assert user.seen(name), name
        count, bottom = user.js(CHIPS)
        assert count and bottom <= 625, (fen, count, bottom)
        assert user.js("return scrollY") == 0 and not user.js(SCROLLS), user.js(SCROLLS)
    user.picture("laptop_study", whole=False)
    user.click("setUp")
    user.until("document.getElementById('survey')")
    user.click("survey")
    user.until("document.getElementById('stands')")
    for name in ("board", "judged", "start", "survey", "stands", "cancel"):
        assert user.seen(name), name
    user.picture("laptop_survey", whole=False)


def test_sizes(user):
    """The board's side follows the height, and there is no scrolling sideways."""
    small(user)
    user.set_up(FEN, "white win")
    sides = []
    for size in "1366x625 1366x768 1920x950 1024x700 757x700 640x900 390x844 320x640 3000x1500".split():
        width, height = (int(n) for n in size.split("x"))
        user.size(width, height)
        side = user.js(SIDE + ".width")
        assert side <= height and user.js("return document.documentElement.scrollWidth") <= width, (width, height, side)
        sides.append(side)
    assert sides[0] > 490 and sides[1] > sides[0] + 80 and sides[2] > 750, sides
    user.size(757, 700)
    user.click("setUp")
    user.until("document.getElementById('survey')")
    user.click("survey")
    user.until("document.getElementById('stands')")
    user.js("scrollTo(0, 0)")
    assert user.seen("survey") and user.seen("start") and user.js(SIDE + ".bottom") < 700


def test_a_refusal_does_not_lie_over_buttons(user):
    small(user)
    user.size(757, 420)
    user.set_up(FEN, "white win")
    user.play("Kg3")
    user.click("setUp")
    user.until("document.getElementById('startEmpty')")
    user.js("scrollTo(0, 0)")
    user.fill("fen", "8/8/8/6k1/8/8/1PPP3K/7R w - - 0 1")
    user.until("document.getElementById('setup').innerText.includes('four men')")
    for name in ("startEmpty", "cancel"):
        user.js("document.getElementById(arguments[0]).scrollIntoView({block: 'nearest'})", name)
        time.sleep(0.2)
        assert user.seen(name), name


def test_names_for_a_screen_reader(user):
    small(user)
    user.set_up(FEN, "white win")
    user.play("Kg3")
    user.go("root")
    names = user.js(LABELS, ".moves .chip")
    assert all(re.match(r"^[KQRBNa-h][a-h1-8x=]*[+#QRBN]*: " + VALUE + "(;|$)", name) for name in names), names
    assert any(name.startswith("Kg3: White mates in 27; the only one that works; in the tree") for name in names), names
    user.go("0")
    user.until("document.querySelector('#defences .add')")
    names = user.js(LABELS, "#defences .add")
    assert all(re.match(r"^K[a-h][1-8]: White mates in \d+", name) for name in names), names
    nameless = """return [...document.querySelectorAll('button')]
        .filter(button => !(button.getAttribute('aria-label') || button.textContent).trim()).length"""
    assert user.js(nameless) == 0


def test_keys(user):
    small(user)
    user.fill("fen", FEN)
    judged(user)
    user.js("document.querySelector('#board svg').focus()")
    user.keys(Keys.ENTER)
    user.until("document.getElementById('san')")
    user.settle()
    focus = "return document.activeElement.tagName.toLowerCase() + (document.activeElement.id || '')"
    assert user.js(focus) == "svg", user.js(focus)
    user.keys("m")
    user.keys("Kg3 Kf5 2. Kf3", Keys.ENTER)
    user.settle()
    count = "return document.querySelectorAll('.tree [data-path]').length"
    assert user.js(count) == 3
    user.keys("m")
    assert user.js(focus) == "inputsan"
    user.keys("Kh", Keys.ESCAPE)
    user.settle()
    assert user.js(focus) == "svg" and not user.text("sayBoard")
    for key in (Keys.HOME, Keys.ARROW_RIGHT):
        user.keys(key)
        user.settle()
    assert user.promise("studyboard.path()") == "0"
    user.keys(Keys.BACKSPACE)
    user.settle()
    assert user.js(count) == 3
    user.keys(Keys.DELETE)
    user.settle()
    assert user.js(count) == 0
    user.click("setUp")
    user.keys(Keys.ESCAPE)
    user.by("fen").click()
    user.keys(Keys.ESCAPE)
    assert user.js(focus) == "svg"


def test_a_field_is_left_by_tab(user):
    """What is typed is taken, and the focus goes on to what comes next, though the set-up is drawn anew."""
    user.open_tables(TABLES, ["KK", "KQK", "KRK", "KBK", "KNK", "KPK"])
    user.click("new")
    user.settle()
    field = user.by("fen")
    field.send_keys(Keys.CONTROL, "a")
    field.send_keys("8/8/8/6k1/8/8/1P5K/8 w - - 0 1", Keys.TAB)
    user.settle()
    user.until("document.activeElement.tagName === 'BUTTON'")
    assert user.js("return document.getElementById('judgedBox').contains(document.activeElement) || "
                   "document.activeElement.hasAttribute('data-turn')")


def test_moves_as_they_are_typed(user):
    small(user)
    user.set_up(FEN, "white win")
    user.fill("san", "1. Kh2-g3 (1. b2b4 kf6) 1... Kf5")
    tree = user.text("tree").replace("\u00a0", " ")
    assert "1. Kg3" in tree and "1. b4" in tree and "Kf6" in tree and "1... Kf5" in tree, tree
    assert user.promise("studyboard.path()") == "0.0" and user.text("stamp") == "sound"
    user.go("root")
    user.fill("san", "h2g3")
    assert user.promise("studyboard.path()") == "0" and not user.text("sayBoard")
    user.set_up("8/k1P5/2K5/8/8/8/8/8 w - - 0 1", "white mate 2")
    user.fill("san", "c7-c8T")
    assert "c8=R" in user.text("tree") and user.text("stamp") == "sound"


def test_a_surveyed_man_is_what_a_press_moves(user):
    small(user)
    user.set_up(FEN, "white win")
    user.click("setUp")
    user.until("document.getElementById('survey')")
    user.choose("surveyMan", "15")
    user.until("document.getElementById('stands')")
    user.press("a8")
    user.settle()
    assert user.js("return document.getElementById('fen').value").startswith("K7/8/8/6k1/8/8/1P6/8 ")
    judged(user, "White to win: ")
    user.click("survey")
    user.until("document.getElementById('stands')")
    user.js("document.querySelector('#board svg').focus()")
    user.keys(Keys.ESCAPE)
    user.until("!document.getElementById('stands')")


def test_tags(user):
    small(user)
    user.set_up(FEN, "white win")
    for typed, written in (("12 May 1921", "1921.05.12"), ("1921-05", "1921.05"), ("1895", "1895")):
        user.fill("tagDate", typed)
        by = user.js("return document.querySelector('#head .by').textContent")
        assert written in by and "??" not in by
    user.fill("tagDate", "in spring")
    assert "a date is" in user.text("head") and "in spring" not in user.promise("studyboard.script()")
    assert user.by("tagDate").get_attribute("value") == "in spring"
    user.promise("studyboard.open(a[0])", f"position {FEN}\nstipulate white win\ntag Date May 1921\n")
    assert "May 1921: PGN writes a date" in user.text("head")
    user.click("mendDate")
    user.settle()
    assert "tag Date 1921.05.??" in user.promise("studyboard.script()") and not user.has("mendDate")
    user.promise("studyboard.open(a[0])", f"position {FEN}\nstipulate white win\ntag Date 32 May 1921\n")
    user.click("mendDate")
    assert user.js("return document.activeElement.id") == "tagDate" and user.seen("tagDate")
    long = "The longest title that was ever given to a study of a king and a pawn"
    user.fill("tagEvent", long)
    assert "60" in user.text("head") and user.by("tagEvent").get_attribute("value") == long
    user.fill("tagEvent", long[:60])
    assert user.text("head").startswith(long[:60])


def luminance(colour):
    parts = [int(c) / 255 for c in re.findall(r"\d+", colour)[:3]]
    linear = [c / 12.92 if c <= 0.03928 else ((c + 0.055) / 1.055) ** 2.4 for c in parts]
    return 0.2126 * linear[0] + 0.7152 * linear[1] + 0.0722 * linear[2]


def contrast(one, two):
    low, high = sorted((luminance(one), luminance(two)))
    return (high + 0.05) / (low + 0.05)


def colours(user):
    """Text and ground of all that has text of its own and is shown."""
    return user.js(
        """const out = [];
        for (const e of document.querySelectorAll('main *, .bar *, #paper *')) {
            const text = [...e.childNodes].some(n => n.nodeType === 3 && n.textContent.trim());
            if (!text || !e.getClientRects().length || e.disabled || e.closest('svg, option')) continue;
            let at = e, ground = '';
            for (; at && !ground; at = at.parentElement) {
                const colour = getComputedStyle(at).backgroundColor;
                if (!/, 0\\)$|transparent/.test(colour)) ground = colour;
            }
            out.push([getComputedStyle(e).color, ground || 'rgb(255, 255, 255)', e.textContent.slice(0, 30)]);
        }
        return out;"""
    )


def test_colours_and_paper(user):
    small(user)
    user.set_up("8/k1P5/2K5/8/8/8/8/8 w - - 0 1", "white mate 2")
    user.play("c8=Q")
    user.until("document.querySelector('.faults')")
    for _ in range(2):
        low = [row for row in colours(user) if contrast(row[0], row[1]) < 4.5]
        assert not low, low
        user.click("theme")
    user.js("document.documentElement.classList.add('dark')")
    user.d.execute_cdp_cmd("Emulation.setEmulatedMedia", {"media": "print"})
    user.js("dispatchEvent(new Event('beforeprint'))")
    rows = colours(user)
    assert rows and all(contrast(text, "rgb(255, 255, 255)") > 4.5 for text, _, _ in rows), rows
    assert not any(user.by(name).is_displayed() for name in ("saveMenu", "nav", "stamp", "value"))
    assert user.d.find_element(By.CSS_SELECTOR, "#paper .stamp").is_displayed()
    user.picture("print_from_dark")


def test_a_draft_does_not_wait_for_a_build(user):
    """While a class of four men is built: a draft whose tables are there is judged at once, a study is played on, and
    the page says which class is built and how long the rest takes, KRKP at the end with those that it needs."""
    small(user)
    user.click("sample2")
    user.until("document.getElementById('progressText').textContent.includes('K')")
    user.until("document.getElementById('head').innerText.includes('Saavedra')")
    user.js(
        """window.texts = [];
        new MutationObserver(() => texts.push(document.getElementById('progressText').textContent))
            .observe(document.getElementById('progressText'), {childList: true});"""
    )
    user.js("document.getElementById('new').click()")
    began = time.time()
    user.js(FILL, "fen", FEN)
    judged(user, "White mates in 28", 15)
    assert time.time() - began < 5 and user.by("progress").is_displayed()
    user.js("document.getElementById('start').click()")
    user.until("document.querySelector('.moves [data-san=\"Kg3\"]')")
    user.js("document.querySelector('.moves [data-san=\"Kg3\"]').click()")
    user.until("document.getElementById('value').textContent.includes('Kg3')")
    assert user.by("progress").is_displayed() and user.text("stamp") == "sound"
    user.until("document.getElementById('progress').hidden", 900)
    texts = user.js("return texts")
    said = r"Building (K\w+(?:, K\w+)*): (?:about (\d+) (minutes|s) left|almost done), \d+ of \d+ tables done"
    found = [re.match(said, text) for text in texts]
    assert all(found), texts
    assert found[-1][1] == "KRKP" and not any("KRKP" in one[1] and "KQKR" in one[1] for one in found), texts
    left = [int(one[2]) * (60 if one[3] == "minutes" else 1) for one in found if one[2]]
    assert len(left) > 3 and left[0] >= 17, left  # KRKP alone takes no less, and it begins when KQKR is there
    print(f"the time left: {left[0]} s at first, {len(texts) / 2:.0f} s in all", flush=True)
    user.click("undo")
    user.until("document.getElementById('stamp').textContent.startsWith('correct')")
    assert not user.by("undo").is_enabled()


run(globals(), sys.argv[2:])
