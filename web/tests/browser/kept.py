"""Nothing that is made is lost: documents kept for each tab and file, with their undo; scripts that studybench takes as
they are saved.

    kept.py TABLES [NAME ..]

TABLES has those of two and three men at least. STUDYBENCH names the native program; without it the module's own run
stands for it.
"""
import os
import re
import subprocess
import sys
import tempfile
import time

from user import TOP, By, Keys, run

TABLES = os.path.abspath(sys.argv[1])
NATIVE = os.environ.get("STUDYBENCH", os.path.join(TOP, "crates", "studybench", "out", "studybench"))
FEN = "8/8/8/6k1/8/8/1P5K/8 w - - 0 1"
SMALL = "KK KQK KRK KBK KNK KPK".split()
PGN = """[Event "Rigaer Tageblatt"]
[Site "?"]
[Date "1902.??.??"]
[White "Réti, R."]
[Black "?"]
[Result "1-0"]
[Annotator "an editor"]
[Source "a book"]
[SetUp "1"]
[FEN "8/8/8/6k1/8/8/1P5K/8 w - - 0 1"]

{A study for practice.} 1. Kg3! {The only move} (1. b4? $4 Kf6 {draws [%cal Gg5f6]}) 1... Kf5 2. Kf3 $1 1-0
"""


def script_of(name):
    with open(os.path.join(TOP, "examples", name + ".script"), encoding="utf-8") as file:
        return file.read()


def documents(user):
    """The rows of the list: title, verdict, where it is open."""
    user.click("documentsButton")
    user.until("!document.getElementById('documents').hidden")
    rows = user.js(
        """return [...document.querySelectorAll('#documents tbody tr')].map(row => {
        const cells = [...row.cells].map(cell => cell.innerText.trim());
        return [cells[1].split('\\n')[0], cells[2], cells[1].split('\\n').slice(1).join(' ')];
    })"""
    )
    user.keys(Keys.ESCAPE)
    assert user.js("return document.getElementById('documents').hidden")
    return rows


def open_document(user, title):
    user.click("documentsButton")
    user.until("!document.getElementById('documents').hidden")
    user.d.find_element(By.XPATH, f"//*[@id='documents']//button[@data-kept][contains(., '{title}')]").click()
    user.settle()


def reload(user):
    user.d.refresh()
    user.idle()


def script(user):
    return user.promise("studyboard.script()")


def started(user, fen, title):
    user.set_up(fen, "white win")
    user.fill("tagEvent", title)


def test_two_tabs_and_a_copied_one(user):
    user.open_tables(TABLES, SMALL)
    first = user.d.current_window_handle
    started(user, FEN, "First")
    second = user.tab()
    assert user.has("start") and script(user).strip() == "", "a second tab begins with an empty board"
    started(user, "8/3k4/8/3KP3/8/8/8/8 w - - 0 1", "Second")
    two = script(user)
    user.to(first)
    user.play("Kg3")
    one = script(user)
    assert sorted(row[0] for row in documents(user)) == ["First", "Second"]
    for handle, text in ((first, one), (second, two)):
        user.to(handle)
        reload(user)
        assert script(user) == text
    user.to(first)
    old = set(user.d.window_handles)
    user.js("window.open(location.href)")
    user.to((set(user.d.window_handles) - old).pop())
    user.until("window.studyboard")
    user.idle()
    assert script(user) == one, "a tab that was copied has the document"
    user.play("Kf6")
    copied = script(user)
    user.to(first)
    user.click("undo")
    user.settle()
    user.play("b4")
    ours = script(user)
    assert copied != ours
    rows = documents(user)
    assert sorted(row[0] for row in rows) == ["First, version 1", "First, version 2", "Second"], rows
    reload(user)
    assert script(user) == ours
    for handle in set(user.d.window_handles) - {first, second}:
        user.to(handle)
        reload(user)
        assert script(user) == copied


def test_what_another_window_has_open(user):
    """A second window says so of the one document that the first shows; the others it opens without a copy."""
    user.open_tables(TABLES, SMALL)
    first = user.d.current_window_handle
    started(user, FEN, "First")
    started(user, FEN, "Second")
    second = user.tab()
    said = {row[0]: row[2] for row in documents(user)}
    assert "open in another window" in said["Second"] and "open" not in said["First"], said
    open_document(user, "First")
    said = {row[0]: row[2] for row in documents(user)}
    assert len(said) == 2 and "open here" in said["First"], said
    assert "copy of it" not in user.text("sayBoard")
    user.play("Kg3")
    own = script(user)
    user.to(first)
    said = {row[0]: row[2] for row in documents(user)}
    assert "open in another window" in said["First"] and "open here" in said["Second"], said
    open_document(user, "First")
    assert "this is a copy of it" in user.text("sayBoard")
    user.play("Kf5")
    user.to(second)
    reload(user)
    assert script(user) == own


def test_another_document_and_a_closed_browser(user):
    user.end()
    profile = "--user-data-dir=" + tempfile.mkdtemp()
    user.__init__(flags=(profile,))
    user.open_tables(TABLES, SMALL)
    started(user, FEN, "My own")
    user.play("Kg3")
    user.play("Kf5")
    own = script(user)
    user.open_file("other.script", "position 8/3k4/8/3KP3/8/8/8/8 w - - 0 1\nstipulate white draw\ntag Event Another\n")
    user.until("document.getElementById('head').innerText.includes('Another')")
    user.settle()
    assert "Documents lists it" in user.text("sayBoard")
    user.end()
    user.__init__(flags=(profile,))
    user.until("document.getElementById('head').innerText.includes('Another')")
    open_document(user, "My own")
    assert script(user) == own and user.text("stamp") == "sound"
    steps = [own]
    while not user.js("return document.getElementById('undo').disabled"):
        user.click("undo")
        user.settle()
        steps.append(script(user))
    assert len(steps) == 4 and "insert" not in steps[2] and "tag Event" not in steps[3], steps
    reload(user)
    for text in reversed(steps[:-1]):
        user.click("redo")
        user.settle()
        assert script(user) == text
    assert user.text("stamp") == "sound"


def test_a_file_whose_tables_lack(user):
    """It stands there at once, unmarked, is kept, and is judged once the tables are built."""
    user.open_tables(TABLES, SMALL)
    started(user, FEN, "My own")
    user.open_file("saavedra.script", script_of("saavedra_1895"))
    user.until("document.getElementById('head').innerText.includes('Barbier and Saavedra')")
    user.until("!document.getElementById('progress').hidden")
    for _ in range(2):
        assert "Not judged yet" in user.text("verdict") and not user.has("stamp")
        assert "1. c7" in user.text("tree").replace("\u00a0", " ") and "8. Kb3" not in user.text("tree")
        assert user.js("return document.querySelectorAll('#board use').length") == 4
        user.picture("unmarked", whole=False)
        user.d.refresh()
        user.until("document.getElementById('head').innerText.includes('Barbier and Saavedra')")
    user.until("!document.getElementById('progress').hidden")
    user.click("stop")
    user.until("document.getElementById('progress').hidden && document.getElementById('buildNow')")
    user.settle()
    assert "Stopped" in user.text("verdict") and "1. c7" in user.text("tree").replace("\u00a0", " ")
    user.fill("tagSite", "Glasgow")
    assert "Glasgow" in user.text("head") and not user.has("stamp")
    title = "Glasgow Weekly Citizen, Barbier and Saavedra and 1 more study"
    assert sorted(row[:2] for row in documents(user)) == [[title, "not judged"], ["My own", "correct, no solution yet"]]
    if os.path.exists(os.path.join(TABLES, "KRKP.dtm")):
        user.open_tables(TABLES, "KQKR KRKR KRKB KRKN KRKP".split())
        user.click("buildNow") if user.has("buildNow") else None
        user.settle()
        user.until(
            "document.getElementById('stamp') && document.getElementById('stamp').innerText.includes('2 duals')", 60
        )
        assert "Glasgow" in user.text("head")


def test_a_set_up_that_was_not_started(user):
    user.open_tables(TABLES, SMALL)
    started(user, FEN, "Behind")
    behind = script(user)
    user.click("new")
    for man, square in (("K", "g2"), ("k", "h5"), ("P", "b2")):
        user.click("man" + man)
        user.press(square)
    placed = "8/8/8/7k/8/8/1P4K1/8 w - - 0 1"
    reload(user)
    fen = "return document.getElementById('fen').value"
    assert user.js(fen) == placed
    assert ["Set-up: Kg2 Pb2 / Kh5", "–"] in [row[:2] for row in documents(user)]
    user.d.find_element(By.CSS_SELECTOR, "#board svg").send_keys("")
    user.control("z")
    user.settle()
    assert user.js(fen) == "8/8/8/7k/8/8/6K1/8 w - - 0 1"
    assert script(user) == behind, "the study behind the set-up is as it was"
    user.control("z")
    user.control("y")
    user.control("y")
    user.settle()
    assert user.js(fen) == placed
    user.until("!document.getElementById('start').disabled")
    user.click("start")
    user.settle()
    assert script(user).startswith("position " + placed) and user.text("stamp") == "correct, no solution yet"
    assert sorted(row[0] for row in documents(user)) == ["Behind", "Kg2 Pb2 / Kh5"]
    user.click("setUp")
    user.click("manQ")
    user.press("a8")
    reload(user)
    assert user.js(fen).startswith("Q7/") and script(user).startswith("position " + placed)
    user.click("cancel")
    reload(user)
    assert not user.has("fen")


def replies(text):
    """What studybench answers, and its exit status; the module's own run where there is no native program."""
    answer = subprocess.run([NATIVE], input=text.encode(), capture_output=True, check=False)
    return answer.stdout.decode(), answer.returncode


def test_studybench_takes_what_is_saved(user):
    remark = "# " + "x" * 1022
    text = (
        f"position {FEN}\nstipulate white win\n{remark}\n# Réti\ntag Event A\n"
        "insert root Kg3\nmark 9\ninsert root Kz9\nmark 0\n"
    )
    user.open_tables(TABLES, SMALL)
    user.promise("studyboard.open(a[0])", text)
    user.until("document.getElementById('stamp').innerText === 'not read: line 8, Kz9'")
    user.until("document.getElementById('refused').innerText === '2 lines of the script were refused'")
    name, saved = user.download("saveScript")
    assert name == "A.script" and remark in saved and saved.startswith("build KK\n")
    answer = replies(saved)[0] if os.access(NATIVE, os.X_OK) else user.promise("studyboard.run(a[0])", saved)
    assert re.findall(r"^error.*", answer, re.M) == ["error NoSuchNode", "error NotSan"]
    assert re.findall(r"^\[Event [\s\S]*?\n\n[\s\S]*?\n\n", answer, re.M) == [user.promise("studyboard.pgn()")]
    before = script(user)
    long, many = f"{text}{remark}x\n", text + "mark 0\n" * 100000
    for bad, words in ((long, "line 10 has more than 1024 characters"), (many, "a study has more than 100,000 lines")):
        user.promise("studyboard.open(a[0])", bad)
        assert words in user.text("sayBoard") and script(user) == before
        if os.access(NATIVE, os.X_OK):
            assert replies(bad)[1] == 3


def test_a_script_with_more_lines_than_the_programs_read(user):
    user.open_tables(TABLES, SMALL)
    study = f"position {FEN}\nstipulate white win\ninsert root Kg3\n"
    user.promise("studyboard.open(a[0])", "#! comment: good\n" * 100000 + study + "\n" + study)
    user.until("document.getElementById('stamp')")
    user.settle()
    _, saved = user.download("saveScript")
    count = f"it has {saved.count(chr(10)):,} lines, and the programs read at most 100,000."
    assert saved.startswith("build KK\n")
    assert user.text("sayBoard") == "The script is saved, for this page alone: " + count
    user.click("saveReport")
    user.until("document.getElementById('sayBoard').textContent.startsWith('No report: it has 100,00')")
    assert user.download("savePgn")[1].count("[FEN ") == 2
    script_box = "document.getElementById('script')"
    assert user.js(f"return {script_box}.readOnly && document.getElementById('runScript').disabled")
    user.js("document.querySelector('#scriptBox summary').click()")
    assert user.js(f"return {script_box}.value").strip() == study.strip()
    user.js("document.querySelector('#scriptBox summary').click()")
    user.promise("studyboard.open(a[0])", saved)
    user.until("document.querySelectorAll('#studies option').length === 2")
    user.promise("studyboard.open(a[0])", "#> a line of a whole game\n" * 100000 + study)
    user.until("document.querySelectorAll('#studies option').length === 1")
    assert "White to win" in user.download("saveReport")[1]


def test_what_a_pgn_says_beside_its_moves_is_kept(user):
    user.open_tables(TABLES, SMALL)
    user.open_file("entries.pgn", PGN)
    user.until("document.getElementById('stamp')")
    user.settle()
    assert "1 game, 1 study" in user.text("notKept")
    name, saved = user.download("savePgn")
    said = (
        '[Annotator "an editor"]',
        '[Source "a book"]',
        ". A study for practice.}",
        "{The only move; White mates in",
        "{draws [%cal Gg5f6] draw}",
    )
    assert name == "entries.checked.pgn" and all(words in saved.replace("\n", " ") for words in said), saved
    reload(user)
    assert "1 game, 1 study" in user.text("notKept") and user.download("savePgn") == (name, saved)
    own = user.promise("studyboard.pgn()")
    user.open_file("own.pgn", own)
    user.until("!document.getElementById('notKept')")
    user.settle()
    assert user.promise("studyboard.pgn()") == own


def test_words_in_a_field_that_was_not_left(user):
    """What stands in a field when the page is loaded again is part of the study then; Undo takes it back."""
    user.open_tables(TABLES, SMALL)
    started(user, FEN, "Words")
    user.play("Kg3")
    for field, text, line in (
        ("note", "The only move", "#! note Kg3: The only move"),
        ("note", " of all", "#! note Kg3: The only move of all"),
        ("tagSite", "Praha", "tag Site Praha"),
        ("tagEvent", " again", "tag Event Words again"),
    ):
        before = script(user)
        user.js("const e = document.getElementById(arguments[0]).closest('details'); if (e) e.open = true", field)
        user.js("const e = document.getElementById(arguments[0]); e.focus(); e.setSelectionRange(999, 999)", field)
        user.keys(text)
        user.d.refresh()
        user.until("document.getElementById('stamp')")
        user.settle()
        assert line in script(user).splitlines(), (field, script(user))
        assert script(user) != before
    user.click("undo")
    user.settle()
    assert script(user) == before
    reload(user)
    assert script(user) == before


def test_a_move_and_a_script_that_are_being_typed(user):
    """After a reload they stand in their fields again, and are entered and run when the user says so, not before."""
    value = "document.getElementById('{}')?.value"

    def typed(field, text):
        user.js("const e = document.getElementById(arguments[0]); e.focus(); e.setSelectionRange(9999, 9999)", field)
        user.keys(text)
        user.d.refresh()
        user.until(value.format(field) + "?.endsWith('" + text.split("\n")[-1] + "')")
        user.settle()

    user.open_tables(TABLES, SMALL)
    user.until("document.getElementById('scriptBox')")
    user.press_on("#scriptBox > summary")
    typed("script", "position 8/8/8/6k1")
    assert user.js("return " + value.format("script")) == "position 8/8/8/6k1"
    started(user, FEN, "Typed")
    before = script(user)
    typed("san", "Kg3 Kf5 Kf")
    assert script(user) == before
    user.keys("3", Keys.ENTER)
    user.until("document.querySelectorAll('.tree [data-path]').length >= 3")
    user.settle()
    assert "insert 0.0 Kf3" in script(user) and user.js("return " + value.format("san")) == "", script(user)
    reload(user)
    assert user.js("return " + value.format("san")) == ""
    before = script(user)
    if not user.js("return document.getElementById('scriptBox').open"):
        user.press_on("#scriptBox > summary")
    typed("script", "\ntag White Nob")
    user.keys("ody")
    user.press_on("#first")
    user.settle()
    reload(user)
    assert user.js("return document.getElementById('scriptBox').open") and script(user) == before
    assert user.js("return " + value.format("script")).endswith("\ntag White Nobody")
    user.click("runScript")
    user.until("document.getElementById('head').innerText.includes('Nobody')")
    user.settle()
    user.fill("tagSite", "Praha")
    before = script(user)
    reload(user)
    assert user.js("return " + value.format("script")).rstrip("\n") == before.rstrip("\n")


def test_a_refused_position_of_the_same_men(user):
    """After a right position a refused one of the same men, and the right one again: its tables are built and laid."""
    fen = "document.getElementById('judged').textContent"
    user.fill("fen", "8/8/8/8/8/1k6/1Q6/K7 b - - 0 1")
    user.until(fen + ".includes('correct') || " + fen + ".includes('does not')", 60)
    user.open()
    for text, words in (("8/8/8/8/8/1k6/1Q6/K7 w - - 0 1", "in check"), ("8/8/8/8/8/1k6/7Q/K7 w - - 0 1", "correct")):
        user.fill("fen", text)
        user.until(f"{fen}.includes('{words}')", 60)
    pair = (
        ("4k3/8/8/8/8/8/8/4K2R", "correct"),
        ("7k/8/8/8/8/8/8/4K2R", "in check"),
        ("4k3/8/8/8/8/8/8/4K1R1", "correct"),
    )
    for placed, words in pair:
        user.fill("fen", placed + " w - - 0 1")
        user.until(f"{fen}.includes('{words}')", 60)
    user.until("!document.getElementById('start').disabled")
    user.click("start")
    user.settle()
    assert user.text("stamp") == "correct, no solution yet"


def tick(user, title):
    """Chooses a document of the open list by its name."""
    row = f"//*[@id='documents']//tr[.//button[@data-kept][.='{title}']]//input[@data-tick]"
    user.until(f"[...document.querySelectorAll('#documents [data-kept]')].some(e => e.textContent === '{title}')")
    user.d.find_element(By.XPATH, row).click()
    user.settle()


def test_many_documents(user):
    """At the head of the list stands how many there are; the rest comes as one scrolls, and stays while one ticks."""
    user.promise("studyboard.open(a[0])", f"position {FEN}\nstipulate white win\ntag Event First\n")
    user.settle()
    user.click("documentsButton")
    for _ in range(75):
        user.press_on("[data-copy]")
    rows = "document.querySelectorAll('#documents tbody tr').length"
    assert user.text("howMany") == "76 documents." and user.js(f"return {rows}") == 60
    user.js("const panel = document.getElementById('documents'); panel.scrollTop = panel.scrollHeight")
    user.until(f"{rows} === 76", 10)
    box = "document.querySelectorAll('#documents [data-tick]')[70]"
    user.js(f"{box}.scrollIntoView(); {box}.click()")
    user.settle()
    assert user.js(f"return {rows}") == 76 and user.js("return document.getElementById('documents').scrollTop") > 0
    assert user.js(f"return {box}.checked")


def test_the_document_that_was_changed_last_comes_first(user):
    """Also if another one was looked at since; the heading says by what the list is sorted."""
    user.open_tables(TABLES, SMALL)
    for name in ("First", "Second"):
        started(user, FEN, name)
        time.sleep(0.05)
    open_document(user, "First")
    user.settle()
    user.click("documentsButton")
    user.settle()
    names = "return [...document.querySelectorAll('#documents [data-kept]')].map(e => e.innerText)"
    assert user.js(names) == ["Second", "First"], user.js(names)
    assert user.js("return document.querySelector('#documents [data-sort=time]').innerText") == "Changed ↓"


def test_several_are_removed(user):
    user.open_tables(TABLES, SMALL)
    for name in ("First", "Second", "Third"):
        started(user, FEN, name)
    user.click("documentsButton")
    for name in ("First", "Second", "Third"):
        tick(user, name)
    for words in ("Remove 2, not the open one", "Remove 2 for good, not the open one"):
        assert user.text("removeKept") == words, user.text("removeKept")
        user.click("removeKept")
    user.keys(Keys.ESCAPE)
    assert [row[0] for row in documents(user)] == ["Third"]
    assert "Third" in user.text("head")


TABLE = "return [...document.querySelectorAll('#documents tbody tr')].map(r => [...r.cells].map(c => c.innerText))"


def test_versions(user):
    """A document has a diagram, a name and versions; two of them stand side by side with the moves that differ."""
    user.open_tables(TABLES, SMALL)
    started(user, FEN, "Pawn")
    user.play("Kg3")
    user.click("documentsButton")
    user.until("document.querySelector('#documents [data-copy]')")
    user.press_on("#documents [data-copy]")
    user.settle()
    user.press_on("#documents [data-name]")
    user.fill("nameKept", "Draft of a pawn study")
    user.keys(Keys.ESCAPE)
    names = [row[0] for row in documents(user)]
    assert sorted(names) == ["Draft of a pawn study, version 1", "Pawn, version 2"], names
    user.go("root")
    user.play("b4")
    user.go("root")
    user.click("documentsButton")
    assert len(user.d.find_elements(By.CSS_SELECTOR, "#documents tbody svg")) == 2
    user.press_on('#documents [data-sort="name"]')
    for box in range(2):
        user.js("document.querySelectorAll('#documents [data-tick]')[arguments[0]].click()", box)
        user.settle()
    user.click("compare")
    user.until("document.getElementById('sides')")
    rows = user.js(TABLE)
    assert len(rows) == 1 and rows[0][0] == "1. b4" and sorted(rows[0][1:]) == ["not given", "throws it away"], rows
    user.picture("versions", whole=False)
    before = user.promise("studyboard.script()")
    user.press_on("#documents [data-take]")
    user.settle()
    after = user.promise("studyboard.script()")
    assert after.startswith(before.rstrip()) and after.count("position ") == before.count("position ") + 1, after
    user.until("document.getElementById('sayBoard').textContent.includes('Taken over as No. ')")
    user.settle()
    assert "No move differs in mark." in user.text("documents"), user.text("documents")
    user.control("z")
    user.settle()
    assert user.js(TABLE) == rows, user.js(TABLE)
    user.js("document.getElementById('on').click()")
    user.settle()
    user.js("document.getElementById('delete').click()")
    user.settle()
    assert sorted(row[0] for row in user.js(TABLE)) == ["1. Kg3", "1. b4"], user.js(TABLE)
    assert "The positions differ" not in user.text("documents"), user.text("documents")
    user.js("document.getElementById('setUp').click()")
    user.fill("fen", FEN.replace("1P5K", "1P4K1"))
    user.until("!document.getElementById('start').disabled")
    user.js("document.getElementById('start').click()")
    user.settle()
    said = user.text("documents")
    assert "The positions differ." in said and "Only in" not in said, said
    user.click("endComparing")
    user.keys(Keys.ESCAPE)


def test_undo_stays_in_its_document(user):
    user.open_tables(TABLES, SMALL)
    started(user, FEN, "First")
    started(user, FEN, "Second")
    while not user.js("return document.getElementById('undo').disabled"):
        user.click("undo")
        user.settle()
    assert script(user).startswith("position") and "First" not in script(user)
    assert sorted(row[0] for row in documents(user))[0] == "First"


def test_storage_that_is_full(user):
    user.open_tables(TABLES, SMALL)
    user.js(
        """let text = 'x'.repeat(1 << 20);
        for (let i = 0; text; i++)
            try { localStorage.setItem('filled' + i, text); } catch { text = text.slice(text.length >> 1 || 1); }"""
    )
    started(user, FEN, "Not kept")
    assert user.by("unkept").is_displayed() and user.text("stamp") == "correct, no solution yet"
    user.js("for (const key of Object.keys(localStorage)) if (key.startsWith('filled')) localStorage.removeItem(key)")
    user.play("Kg3")
    assert not user.by("unkept").is_displayed()


run(globals(), sys.argv[2:])
