"""Find, from the list to a study: looked at one after the other, kept once changed, all as a script; in headless
Chromium.

    finding.py TABLES [NAME ..]

TABLES has those of two and three men at least.
"""
import os
import re
import sys
import time

from user import By, Keys, run

TABLES = os.path.abspath(sys.argv[1])
SMALL = "KK KQK KRK KBK KNK KPK".split()
MINE = "position 8/8/8/6k1/8/8/1P5K/8 w - - 0 1\nstipulate white win\ninsert root Kg3\n"


def script(user):
    return user.promise("studyboard.script()")


def documents(user):
    """How many documents the browser keeps."""
    return user.js("return Object.keys(localStorage).filter(key => key.startsWith('studyboard.head.')).length")


def find(user, theme, n="", row=""):
    """A search in KPK to its end, for rows that have this; the positions in the list."""
    user.open_tables(TABLES, SMALL)
    user.click("findButton")
    user.choose("findClass", "KPK")
    user.choose("findTheme", theme)
    if n:
        user.fill("findN", n)
        user.js("document.getElementById('findN').dispatchEvent(new Event('input', {bubbles: true}))")
    if row:
        user.choose("findRow", row)
    user.click("findGo")
    user.until("/: all there are\\.$/.test(document.getElementById('findState').innerText)", 120)
    return user.js("return [...document.querySelectorAll('[data-found]')].map(e => e.getAttribute('data-found'))")


def position(user):
    return script(user).split("\n")[0].replace("position ", "")


def shown(user, fen):
    """Waits for the hit that a key asked for."""
    for _ in range(100):
        user.settle()
        if position(user) == fen:
            return
        time.sleep(0.1)
    raise AssertionError(position(user))


def test_hits_are_looked_at_and_kept_once_changed(user):
    user.promise("studyboard.open(a[0])", MINE)
    fens = find(user, "win N", "6")
    assert len(fens) == 15 and documents(user) == 1
    user.press_on("[data-found]")
    user.settle()
    assert position(user) == fens[0] and user.text("finds").startswith("KPK win 6: 1 of 15"), user.text("finds")
    assert user.by("hitBefore").get_attribute("disabled") and not user.text("sayBoard")
    user.picture("hit", whole=False)
    user.click("hitNext")
    user.settle()
    user.keys(Keys.PAGE_DOWN)
    user.settle()
    shown(user, fens[2])
    user.until("(document.getElementById('stamp') || {}).innerText === 'sound'", 20)
    user.keys(Keys.PAGE_UP)
    shown(user, fens[1])
    assert documents(user) == 1
    assert user.js("return document.getElementById('undo').disabled")
    user.click("new")
    user.settle()
    user.click("cancel")
    user.settle()
    assert position(user) == fens[1] and documents(user) == 1
    user.fill("tagWhite", "A. Composer")
    assert documents(user) == 2
    kept = script(user)
    assert "2 of 15, kept as a document" in user.text("finds"), user.text("finds")
    user.click("hitNext")
    user.settle()
    assert "3 of 15 Previous" in user.text("finds").replace("\n", " "), user.text("finds")
    user.keys(Keys.PAGE_UP)
    user.settle()
    assert script(user) == kept and "2 of 15, kept as a document" in user.text("finds"), user.text("finds")
    assert not user.js("return document.getElementById('undo').disabled")
    user.keys(Keys.PAGE_DOWN)
    user.settle()
    assert position(user) == fens[2] and documents(user) == 2
    user.click("hitList")
    user.settle()
    current = user.d.find_element(By.CSS_SELECTOR, "#foundList [aria-current]")
    assert current.get_attribute("data-found") == fens[2]
    assert user.js("return document.activeElement === arguments[0]", current)
    assert user.d.find_elements(By.CSS_SELECTOR, "#findPreview svg")
    user.click("closeFinding")
    user.click("hitsBack")
    user.settle()
    assert script(user).strip() == MINE.strip() and not user.text("finds")
    user.click("documentsButton")
    user.settle()
    user.d.find_element(By.XPATH, "//*[@data-kept][contains(., 'Composer')]").click()
    user.settle()
    assert script(user) == kept


def test_rows_with_a_feature(user):
    """By an independent program: eight of the 15 wins have a zugzwang in their row, and six draws a stalemate."""
    fens = find(user, "win N", "6", "row-zugzwang")
    assert len(fens) == 8 and "8/8/8/1k6/8/8/K5P1/8 w - - 0 1" in fens, fens
    user.choose("findTheme", "zugzwang")
    assert not user.has("findRow")
    user.click("closeFinding")
    fens = find(user, "draw N", "1", "row-stalemate")
    assert len(fens) == 6 and "K7/8/P7/2k5/8/8/8/8 b - - 0 1" in fens, fens
    user.press_on('[data-found="K7/8/P7/2k5/8/8/8/8 b - - 0 1"]')
    user.settle()
    assert re.findall(r"^insert \S+ (.*)$", script(user), re.M) == ["Kb6", "a7", "Kc7"], script(user)
    assert user.text("finds").startswith("KPK draw 1 row-stalemate: "), user.text("finds")


def test_one_of_each_family(user):
    """Counted by an independent program: eleven of the 15 wins are the first of their family."""
    find(user, "win N", "6")
    user.click("findFamilies")
    user.click("findGo")
    user.until("/: all there are\\.$/.test(document.getElementById('findState').innerText)", 120)
    assert user.text("findState") == "KPK win 6 families: 11 positions found: all there are.", user.text("findState")


def test_a_reload_shows_the_document_before_a_look(user):
    user.promise("studyboard.open(a[0])", MINE)
    find(user, "win N", "6")
    user.press_on("[data-found]")
    user.settle()
    user.d.refresh()
    user.idle()
    assert script(user).strip() == MINE.strip() and documents(user) == 1, script(user)


def test_words_at_a_hit_that_are_being_typed(user):
    """A reload shows the hit with them, as a document."""
    user.promise("studyboard.open(a[0])", MINE)
    fens = find(user, "win N", "6")
    user.press_on("[data-found]")
    user.settle()
    user.click("hitNext")
    user.settle()
    user.by("note").click()
    user.keys("A lone pawn")
    user.d.refresh()
    user.until("document.getElementById('stamp')")
    user.settle()
    lines = script(user).split("\n")
    assert lines[:2] == ["#! note -: A lone pawn", "position " + fens[1]], lines
    assert documents(user) == 2


def test_all_hits_as_a_script(user):
    fens = find(user, "win N", "6")
    user.click("findAll")
    user.until("document.querySelectorAll('#studies option').length === 15", 120)
    user.settle()
    text = script(user)
    assert re.findall(r"^position (.*)$", text, re.M) == fens and documents(user) == 1
    assert not user.text("sayBoard")
    assert re.findall(r"^tag Event (.*)$", text, re.M)[-1] == "KPK win 6, 15"
    verdicts = user.promise("studyboard.run(a[0], 1000)", "".join(f"load {name}\n" for name in SMALL) + text + "pgn\n")
    assert "error" not in verdicts
    user.until("document.querySelector('#list [data-kind=sound]')", 60)
    assert user.d.find_element(By.CSS_SELECTOR, "#list [data-kind=sound]").text.split()[0] == "15"


def test_zugzwangs_as_a_script(user):
    fens = find(user, "zugzwang")
    user.click("findAll")
    user.until(f"document.querySelectorAll('#studies option').length === {len(fens)}", 120)
    user.settle()
    assert len(fens) == 80 and script(user).count("stipulate") == 80


def test_a_search_ends_with_its_panel(user):
    """Three workers at most, and none once the panel is closed."""
    user.js(
        """const Own = window.Worker; window.alive = new Set(); window.most = 0;
        window.Worker = class extends Own {
            constructor(...all) { super(...all); alive.add(this); most = Math.max(most, alive.size); }
            terminate() { alive.delete(this); super.terminate(); }
        };"""
    )
    large = os.path.exists(os.path.join(TABLES, "KRKN.dtm"))
    user.open_tables(TABLES, "KK KRK KNK KRKN".split() if large else SMALL)
    user.until("alive.size === 0")
    user.js("most = 0")
    user.click("findButton")
    user.choose("findClass", "KRKN" if large else "KPK")
    user.choose("findTheme", "win N")
    user.js("document.getElementById('findGo').click()")
    user.until("most > 0 && /looked at|all there/.test(document.getElementById('findState').innerText)", 60)
    user.js("document.getElementById('closeFinding').click()")
    user.until("alive.size === 0")
    assert 1 <= user.js("return most") <= 3 + 3, user.js("return most")
    user.settle()
    user.click("findButton")
    assert user.has("findGo") and not user.has("findStop"), user.text("finding")


def test_the_longest_introduction(user):
    """Only moves of the hero are put in front; it is stopped, and ends with its panel."""
    user.open_tables(TABLES, SMALL)
    user.promise("studyboard.open(a[0])", "position 8/8/8/4k3/8/4K3/1P6/8 b - - 0 1\nstipulate white win\n")
    user.settle()
    user.click("beginEarlier")
    user.until("document.getElementById('longest')", 60)
    user.settle()
    user.click("longest")
    user.until("document.getElementById('longestBegin')", 120)
    said = r"\d+ only moves? in front so far; [\d,]+ positions? looked at in \d+ s\."
    assert re.match(said, user.text("longestState")), user.text("longestState")
    user.picture("longest", whole=False)
    user.js("document.getElementById('longestStop').click()")
    user.until("!document.getElementById('longestStop')", 60)
    user.click("longestBegin")
    user.settle()
    marks = user.js("return [...document.querySelectorAll('.tree [data-path]')].map(e => e.className)")
    assert marks and user.text("stamp") == "sound", (marks, user.text("stamp"))
    assert script(user).count("insert") == len(marks) and any("only" in mark for mark in marks), marks
    user.control("z")
    user.settle()
    assert "insert" not in script(user)


run(globals(), sys.argv[2:])
