"""What judges and editors do, and what goes on paper: in headless Chromium, by mouse and keys.

    judging.py TABLES [NAME ..]

TABLES has those of two and three men at least.
"""
import base64
import os
import re
import subprocess
import sys
import tempfile

from user import By, Keys, run

TABLES = os.path.abspath(sys.argv[1])
FEN = "8/8/8/6k1/8/8/1P5K/8 w - - 0 1"
MIRRORED = "8/8/8/1k6/8/8/K5P1/8 w - - 0 1"
SMALL = "KK KQK KRK KBK KNK KPK".split()
GAME = '[Event "{event}"]\n[White "{author}"]\n[Result "{result}"]\n[FEN "{fen}"]\n\n{moves} {result}\n\n'
PGN = (
    GAME.format(event="One", author="Réti, R.", fen=FEN, result="1-0", moves="{Quiet.} 1. Kg3! {The only move} Kf5")
    + GAME.format(event="Two", author="Čech, A.", fen=MIRRORED, result="1-0", moves="1. Kb3 Kb6 2. Kc4")
    + GAME.format(event="Three", author="Novák", fen=FEN, result="1-0", moves="1. b4 Kf6")
    + GAME.format(event="Four", author="Novák", fen="8/3k4/8/3KP3/8/8/8/8 w - - 0 1", result="1-0", moves="1. Kh9")
)
ROWS = "return [...document.querySelectorAll('#list tbody tr')].map(r => r.cells[1].innerText.split('\\n')[0])"
SMALLER = """return [...document.querySelectorAll('button, select, input, summary, textarea')]
    .filter(e => e.offsetParent).map(e => [e.id || e.textContent, e.getBoundingClientRect()])
    .filter(([, r]) => r.width < 43.5 || r.height < 43.5).map(([name, r]) => [name, r.width, r.height])"""
HEARD = "return document.getElementById('spoken').textContent.trim()"


def opened(user, text=PGN):
    user.open_tables(TABLES, SMALL)
    user.open_file("entries.pgn", text)
    user.until("document.getElementById('stamp')", 60)
    user.settle()
    user.until("[...document.querySelectorAll('#list .stamped')].length > 3", 60)
    user.until("document.querySelector('[data-kind=cook], [data-kind=main], [data-kind=mistake]')", 60)


def script(user):
    return user.promise("studyboard.script()").split("\n")


def pages(user, name):
    """The page as a PDF, as the browser prints it: its text; SHOTS has its first page as a picture."""
    paper = {"printBackground": False, "paperWidth": 8.27, "paperHeight": 11.7}
    done = user.d.execute_cdp_cmd("Page.printToPDF", paper)
    folder = os.environ.get("SHOTS") or tempfile.mkdtemp()
    os.makedirs(folder, exist_ok=True)
    path = os.path.join(folder, name + ".pdf")
    with open(path, "wb") as file:
        file.write(base64.b64decode(done["data"]))
    try:
        subprocess.run(["pdftoppm", "-r", "60", "-png", path, path[:-4]], check=True)
        return subprocess.run(["pdftotext", "-layout", path, "-"], stdout=subprocess.PIPE, check=True, text=True).stdout
    except FileNotFoundError:
        return None  # no poppler-utils


def test_paper(user):
    """Whatever node is shown, in light and in dark: the start with its men, its FEN and its code, and the facts in the
    order of the report, the list of all studies on a page before it; and the page is as before once it is printed."""
    opened(user)
    user.go("0.0")
    before = user.text("middle")
    for name in ("paper_light", "paper_dark"):
        text = pages(user, name)
        if text is None:
            return
        first, rest = text.split("\f", 1)
        assert "Entries and verdicts" in first and "Two" in first and "Solution" not in first, first
        order = ["One", "White to win (from the Result)", "2 + 1, 0000.10 h2g5", "Kh2 Pb2 / Kg5", FEN, "Solution",
                 "Quiet.", "The only move", "Mutual zugzwangs", "Defences not given",
                 "Best play after the last move given", "Remarks of the judge:"]
        flat = re.sub(r"\s+", " ", rest)
        places = [flat.find(words) for words in order]
        assert -1 not in places, [words for words, at in zip(order, places) if at < 0]
        assert places[5:] == sorted(places[5:]), list(zip(order, places))
        assert "Entries and verdicts" not in flat
        assert "After 1... Kf5" not in flat and "Save report" not in flat and "accepted" not in flat
        user.click("theme")
    assert user.text("middle") == before and not user.js("return document.getElementById('paper').children.length")


def test_paper_waits_for_facts(user):
    """`Print` waits until the faults of all studies are found; where the browser prints first, the list says which
    verdicts may change."""
    user.open_tables(TABLES, SMALL)
    paper = """dispatchEvent(new Event('beforeprint'));
        const text = document.querySelector('#paper .listed').textContent;
        dispatchEvent(new Event('afterprint'));
        return text"""
    for printed in ("by keys", "by the button"):
        user.promise("studyboard.open('')")
        user.js("window.print = () => { window.printed = (() => { " + paper + " })(); }")
        user.open_file("entries.pgn", PGN.replace("0 1", f"0 {len(printed)}"))
        user.until("document.getElementById('stamp') && document.querySelectorAll('#list tbody tr').length === 4", 60)
        if printed == "by keys":
            text = user.js(paper)
            assert re.search(r"(sound|\d faults?) …", text), text
            assert re.search(r"Printed before all faults were found: those of \d of 3 studies are known\.", text), text
            continue
        user.click("print")
        user.until("window.printed", 60)
        text = user.js("return window.printed")
        assert "…" not in text and "Printed before" not in text, text
        assert re.search(r"fails at \d+\. b4", text), text
        user.settle()
        assert user.js("return document.getElementById('progress').hidden")


def test_tries_on_paper(user):
    """A try has on paper what the saved report says of it: how many of the legal replies refute it."""
    user.open_tables(TABLES, SMALL)
    moves = "1. Kg3 (1. b4 Kf6) Kf5"
    user.open_file("try.pgn", GAME.format(event="One", author="A", fen=FEN, result="1-0", moves=moves))
    user.until("document.getElementById('tries')", 60)
    user.until("studyboard.last().reviewed", 60)
    user.settle()
    shown = user.text("tries")
    count = re.search(r"\((\d+) of (\d+)\)", shown)
    assert count and int(count[1]) < int(count[2]), shown
    assert "in all" not in shown
    user.js("dispatchEvent(new Event('beforeprint'))")
    paper = user.js(
        "return [...document.querySelectorAll('#paper tr')].filter(r => r.textContent.includes('1. b4'))"
        ".map(r => [...r.cells].map(c => c.textContent.replace(/\\s+/g, ' ').trim()))")
    user.js("dispatchEvent(new Event('afterprint'))")
    report = user.promise("studyboard.report(studyboard.script() + 'pgn\\n')")
    row = next(row for row in re.findall(r"<tr>.*?</tr>", report) if "1. b4" in row)
    row = [" ".join(re.sub(r"<[^>]*>", "", cell).split()) for cell in re.findall(r"<td>(.*?)</td>", row)]
    assert paper[0] == row and count[0] in row[2], (paper, row)


def test_a_defence_elsewhere(user):
    """A defence that is not given, and leads where another move leads, says so, and is not added with the others."""
    user.open_tables(TABLES, ["KK", "KQK"])
    fen, moves = "1k6/8/8/K7/8/4Q3/8/8 w - - 0 1", "1. Kb6 (1. Qe2 Kc8 2. Qe3 Kb8 3. Kb6 Kc8) Ka8 2. Qe8#"
    user.open_file("twice.pgn", GAME.format(event="One", author="A", fen=fen, result="1-0", moves=moves))
    user.until("studyboard.last().reviewed && document.getElementById('defences')", 60)
    user.settle()
    cells = "[...document.querySelectorAll('#defences tbody tr')].map(r => r.textContent.replace(/\\s+/g, ' '))"
    rows = user.js("return " + cells)
    first = next(row for row in rows if row.startswith("1. Kb6"))
    assert "Kc8" in first and "(as after 3... Kc8)" in first, rows


def test_words(user):
    """The comments and signs of a PGN are shown; others are written at a node and above the study, and saved."""
    opened(user)
    assert "Quiet." in user.text("tree") and "The only move" in user.text("tree")
    user.go("0.0")
    user.fill("note", "Black goes to the pawn.")
    user.choose("signOfMove", "$5")
    assert "Black goes to the pawn." in user.text("tree") and "!?" in user.text("tree")
    user.go("root")
    user.fill("note", "A quiet study")
    user.picture("words", whole=False)
    lines = script(user)
    for line in ("#! note -: A quiet study", "#! note Kg3 Kf5: $5", "#! note Kg3 Kf5: Black goes to the pawn."):
        assert line in lines, lines
    assert "#! note -: Quiet." not in lines
    saved = re.sub(r"\s+", " ", user.download("savePgn")[1])
    assert ". A quiet study} 1. Kg3 $1 {The only move; White mates in 27} 1... Kf5 $5 {Black goes to the pawn." in saved
    plain = re.sub(r"\s+", " ", user.download("savePlain")[1])
    assert "{A quiet study} 1. Kg3 $1 {The only move} 1... Kf5 $5 {Black goes to the pawn.} 1-0" in plain, plain
    for _ in range(3):
        user.click("undo")
        user.settle()
    assert "Black goes" not in user.text("tree") and "Quiet." in user.text("tree")


def test_words_above_a_study_without_moves(user):
    """They are shown as soon as they are written, and go when they are deleted."""
    user.open_tables(TABLES, SMALL)
    user.open_file("two.script", f"position {FEN}\nstipulate white win\n\nposition {FEN}\nstipulate white win\n")
    user.until("document.getElementById('note')")
    user.settle()
    user.fill("note", "A first thought")
    assert "A first thought" in user.text("tree"), user.text("tree")
    user.fill("note", "")
    assert "A first thought" not in user.text("tree"), user.text("tree")


def test_the_list(user):
    """It sorts by each column, finds names, filters by kinds of faults, and says which have the same position."""
    opened(user)
    assert user.js(ROWS) == ["One", "Two", "Three", "Four"]
    assert user.js("return document.querySelector('.bar').offsetHeight") < 50  # one row of buttons
    sort = "#list [data-sort='{}']"
    for column, names in (("title", ["Four", "One", "Three", "Two"]), ("author", ["Two", "Three", "Four", "One"])):
        user.press_on(sort.format(column))
        user.settle()
        assert user.js(ROWS) == names, user.js(ROWS)
    user.press_on(sort.format("number"))
    user.by("findEntry").send_keys("novak")
    assert user.js(ROWS) == ["Three", "Four"]
    for key, shown in ((Keys.ENTER, "Three"), (Keys.PAGE_DOWN, "Three")):
        user.by("findEntry").send_keys(key)
        user.settle()
        assert user.text("head").startswith(shown), user.text("head")
    user.by("findEntry").send_keys(Keys.ESCAPE)
    user.by("findEntry").send_keys("čech", Keys.ENTER)
    user.settle()
    assert user.text("head").startswith("Two") and user.js(ROWS) == ["Two"], user.text("head")
    user.by("findEntry").send_keys(Keys.ESCAPE)
    user.by("findEntry").send_keys(Keys.PAGE_DOWN)
    user.settle()
    assert user.text("head").startswith("Three"), user.text("head")
    user.by("findEntry").send_keys(Keys.PAGE_UP, Keys.PAGE_UP)
    user.settle()
    assert user.text("head").startswith("One"), user.text("head")
    user.settle()
    user.press_on("[data-kind=mistake]")
    user.settle()
    assert user.js(ROWS) == ["Three"] and "fails at 1. b4: 1... K" in user.text("list"), user.text("list")
    name, text = user.download("saveList")
    assert text.count("\n") == 2 and "Three" in text and user.text("saveList") == "Save list (1 of 4)", text
    name, text = user.download("saveSheet")
    assert text.count("<figure>") == 1 and "<b>3. White to win</b>" in text, text
    name, text = user.download("saveReport")
    assert text.count("<article id=") == 3 and "(all 4)" in user.js("return saveReport.textContent")
    user.press_on("[data-kind=mistake]")
    user.settle()
    assert "same position as No. 2 (mirrored), No. 3" in user.text("list"), user.text("list")
    assert "It has the same position as No. 2 (mirrored), No. 3." == user.text("same")
    user.picture("judging_list", whole=False)
    name, text = user.download("saveSheet")
    assert name == "entries.checked.sheet.html" and text.count("<figure>") == 3 and "1. White to win" in text
    name, text = user.download("saveList")
    assert "First fault,Same position" in text and "fails at 1. b4: 1... K" in text
    assert user.text("saveList") == "Save list" and text.count("\n") == 5, text


def test_accepted_duals(user):
    """A tick at a dual is kept as a remark, and the verdict says so."""
    opened(user)
    user.d.find_element(By.XPATH, "//*[@id='rows']//button[.='2']").click()
    user.settle()
    user.until("document.querySelector('[data-accept]')", 60)
    duals = len(user.d.find_elements(By.CSS_SELECTOR, "[data-accept]"))
    for at in range(duals):
        user.d.find_elements(By.CSS_SELECTOR, "[data-accept]")[at].click()
        user.settle()
        user.until("document.querySelectorAll('[data-accept]').length", 60)
    words = "1 accepted dual" if duals == 1 else f"{duals} accepted duals"
    assert user.text("stamp") == f"sound but for {words}; main defence 1... Kc5 not given", user.text("stamp")
    assert sum(line.startswith("#! accepted Kb3 ") for line in script(user)) == duals
    assert f"1 sound but for accepted duals" in user.text("list")
    user.picture("accepted", whole=False)
    assert "accepted" in (pages(user, "accepted") or "accepted")


def test_a_tick_moves_no_row(user):
    """In a list with the worst first each row stays where it was read until the list is sorted again."""
    five = GAME.format(event="Five", author="Novák", fen=MIRRORED, result="1-0", moves="1. Kb3 Kb6 2. Kc4")
    opened(user, PGN + five)
    user.until("!document.querySelector('#list .stamped.open')", 60)
    user.press_on("[data-sort=verdict]")
    user.settle()
    before = user.js(ROWS)
    assert before.index("Two") < before.index("Five"), before
    user.press_on("[data-kind=duals]")
    user.d.find_element(By.XPATH, "//*[@id='rows']//button[.='2']").click()
    user.settle()
    user.until("document.querySelector('[data-accept]')", 60)
    for at in range(len(user.d.find_elements(By.CSS_SELECTOR, "[data-accept]"))):
        user.d.find_elements(By.CSS_SELECTOR, "[data-accept]")[at].click()
        user.settle()
        user.until("document.querySelectorAll('[data-accept]').length", 60)
    assert user.js(ROWS) == ["Five"], user.js(ROWS)
    user.press_on("[data-kind=duals]")
    user.settle()
    assert user.js(ROWS) == before and "last changes" in user.text("late"), user.js(ROWS)
    user.click("sortAgain")
    user.settle()
    after = user.js(ROWS)
    assert after.index("Two") > after.index("Five") and not user.has("late"), after


def test_one_numbering(user):
    """A study that is moved keeps its number, in the saved report too, where a game that was left out has its own."""
    opened(user)
    user.click("studyDown")
    user.settle()
    listed = user.js("return [...document.querySelectorAll('#list tbody tr')].map(row => row.cells[0].innerText)")
    assert listed == ["2", "1", "3", "4"], listed
    _, text = user.download("saveReport")
    assert re.findall(r'<article id="e\d"><p class="note">No. (\d)<', text) == ["2", "1", "3"], text
    assert re.findall(r"<tr><td>(\d)</td><td>", text[text.index('class="sum"'):]) == listed, text
    assert "of 4" in user.text("texts"), user.text("texts")


def test_mate_and_stalemate_on_the_board(user):
    """A study that begins in mate or stalemate has no solution to give; its saved game is read again."""
    user.open_tables(TABLES, SMALL)
    mate, stalemate = "k7/1Q6/1K6/8/8/8/8/8 b - - 0 1", "k7/2K5/1Q6/8/8/8/8/8 b - - 0 1"
    studies = ((mate, "white win"), (stalemate, "black draw"), (FEN, "white win"))
    text = "\n".join(f"position {fen}\nstipulate {aim}\n" for fen, aim in studies)
    user.promise("studyboard.open(a[0])", text)
    user.until("!document.querySelector('#list .stamped.open')", 60)
    stamps = "return [...document.querySelectorAll('#list .stamped')].map(stamp => stamp.innerText)"
    said = ["begins in mate", "begins in stalemate", "correct, no solution yet"]
    user.until("document.getElementById('list').innerText.includes('in stalemate')", 30)
    assert user.js(stamps) == said, user.js(stamps)
    assert "mate stands on the board, and no move is left" in user.text("sentence"), user.text("sentence")
    name, saved = user.download("savePgn")
    assert all(f": {words}, " in saved.replace("\n", " ") for words in said), saved
    user.open_file(name, saved)
    user.until("document.querySelectorAll('#list .stamped').length === 3 && document.getElementById('import')", 60)
    user.settle()
    assert "#! note" not in "\n".join(script(user)), script(user)


def test_what_is_heard(user):
    """One region says the move with its mark and value, and the verdict; a set-up too; and no other is live."""
    opened(user)
    live = "return [...document.querySelectorAll('[role=status], [aria-live]')].map(e => e.id)"
    assert user.js(live) == ["spoken"], user.js(live)
    user.go("0")
    user.until("document.getElementById('spoken').textContent.includes('g3')")
    assert user.js(HEARD).startswith("white king g3, the only move that works, White mates in 27"), user.js(HEARD)
    assert "The only move" in user.js(HEARD)
    user.d.find_element(By.XPATH, "//*[@id='rows']//button[.='3']").click()
    user.until("document.getElementById('spoken').textContent.includes('Verdict: fails at 1. b4')")
    user.click("setUp")
    user.until("document.getElementById('spoken').textContent.includes('White to win: correct')")


def test_targets_on_a_phone(user):
    user.end()
    user.__init__(phone=True)
    opened(user)
    user.go("0")
    assert not user.js(SMALLER), user.js(SMALLER)
    assert user.js("return document.documentElement.scrollWidth") <= 390
    user.picture("phone_targets")
    user.click("setUp")
    user.settle()
    assert not user.js(SMALLER), user.js(SMALLER)


run(globals(), sys.argv[2:])
