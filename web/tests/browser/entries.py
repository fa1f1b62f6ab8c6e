"""Entries that come in as PGN, lists, what is found in tables, and composing: in headless Chromium, by mouse and keys.

    entries.py TABLES [NAME ..]

TABLES has those of two and three men at least; what needs more is left out where they are not there.
"""
import csv
import io
import os
import re
import sys
import tempfile

from user import TOP, run

TABLES = os.path.abspath(sys.argv[1])
FEN = "8/8/8/6k1/8/8/1P5K/8 w - - 0 1"
SMALL = "KK KQK KRK KBK KNK KPK".split()
GAME = """[Event "{event}"]
[White "{author}"]
[Annotator "an editor"]
[Result "{result}"]
[FEN "{fen}"]

{moves} {result}

"""
BAD = "8/8/8/6k1/8/8/1PPP3K/7R w - - 0 1"


def game(event, author, moves, result="1-0", fen=FEN):
    return GAME.format(event=event, author=author, moves=moves, result=result, fen=fen)


def script(user):
    return user.promise("studyboard.script()")


def rows(user):
    """The list of entries: number, title, author, stipulation, verdict without the other studies of its position."""
    return user.js(
        """return [...document.querySelectorAll('#list tbody tr')].map(row => [...row.cells].flatMap(cell =>
        [...Array(cell.colSpan - 1).fill('–'), cell.innerText.trim().replace(/\\nsame position as .*$/, '')]))"""
    )


def opened(user, name, text, waited="document.getElementById('stamp')"):
    user.open_file(name, text)
    user.until(waited, 60)
    user.settle()


def test_a_comment_behind_a_null_move_is_counted(user):
    """What stands in a line with a null move is not kept, and the page says how much of it."""
    user.open_tables(TABLES, SMALL)
    moves = "1. Kg3 {the key} Kf5 (1... -- 2. Kf3 {threat} Kf6) 2. Kf3 (2. Kg2 -- {zugzwang})"
    opened(user, "null.pgn", game("One", "A", moves) + game("Two", "B", "1. Kg3 {only} Kf5"))
    said = "Not kept of this PGN: 2 null moves (game 1), 2 moves behind null moves (game 1), 2 comments and NAGs there."
    assert said in user.text("import"), user.text("import")


def test_letters_of_another_language_and_words(user):
    """A game in German letters, with words among its moves: read, said, and saved with its comment at its move."""
    user.open_tables(TABLES, SMALL)
    text = game("Deutsch", "Autor", "1... Kg8 2.Dg2+ {gut} Kf8 3.Th8 matt", fen="7k/8/5K2/8/8/8/8/5Q1R b - - 0 1")
    opened(user, "deutsch.pgn", text, "document.getElementById('letters')")
    assert user.text("letters") == "The file has its moves in German letters.", user.text("letters")
    lines = script(user).split("\n")
    for line in ("#! letters: German", "#! not taken over: words 1", "insert 0.0.0 Rh8#"):
        assert line in lines, lines
    saved = user.download("savePgn")[1]
    assert re.search(r"Qg2\+[^{]*\{gut", saved), saved


def test_a_game_with_more_men_has_its_tails(user):
    """Five men: a pawn is taken in the solution and in a try. Each part with four men is an entry, with its comment."""
    if not os.path.exists(os.path.join(TABLES, "KRRK.dtm")):
        return
    user.open_tables(TABLES, SMALL + ["KRRK"])
    moves = "1. Rxb2 {four are left} (1. Rc2 Kb8 2. Rcxb2 {too} Ka8 3. Rh2) 1... Kb8 2. Rbc2"
    text = game("Five", "Autor", moves, fen="k7/8/1K6/8/8/8/1p6/1RR5 w - - 0 1")
    opened(user, "five.pgn", text, "document.querySelectorAll('#list tbody tr').length === 2")
    user.until("document.getElementById('list').innerText.includes('works from here')", 60)
    found = rows(user)
    assert [row[:2] for row in found] == [["1.1", "Five (after 1. Rxb2)"], ["1.2", "Five (after 2. Rcxb2)"]], found
    lines = script(user).split("\n")
    for line in ("#> insert root Rc2", "#! note -: four are left", "#! note -: too", "insert root Ka8"):
        assert line in lines, lines
    user.js("document.querySelectorAll('#list tbody tr')[1].querySelector('a, button').click()")
    user.until("(document.getElementById('tail') || {innerText: ''}).innerText.includes('beside the solution')", 20)
    user.until("studyboard.last().reviewed", 60)
    words = "unless there is a better defence before. At the start: White mates in"
    assert words in user.text("verdict"), user.text("verdict")
    assert "stipulation is wrong" not in user.text("middle") and "Say instead" not in user.text("middle")


def test_parts_of_one_name_stay_apart_in_a_reopened_script(user):
    """A script is opened behind a PGN that has one of its games, too: the parts of the other keep the moves before."""
    user.open_tables(TABLES, SMALL + ["KRRK"])
    fen = "k7/8/1K6/8/8/8/1p6/1RR5 w - - 0 1"
    first = game("One", "A", "1. Rxb2 Kb8 2. Rbc2", fen=fen)
    two = "1. Rd1 (1. Re1 Kb8 2. Rxb2 Ka8 3. Re8#) 1... Kb8 2. Rxb2 Ka8 3. Rd8#"
    opened(user, "both.pgn", first + game("Two", "B", two, fen=fen), "document.querySelectorAll('#list tbody tr')[2]")
    names = ["One (after 1. Rxb2)", "Two (after 1. Rd1 .. 2. Rxb2)", "Two (after 1. Re1 .. 2. Rxb2)"]
    assert [row[1] for row in rows(user)] == names, rows(user)
    saved = user.download("saveScript")[1].replace("game 2,", "game 5,")
    opened(user, "both.script", saved, "document.getElementById('list').innerText.includes('5.2')")
    assert [row[1] for row in rows(user)] == names, rows(user)


def test_a_part_of_a_game_has_its_names(user):
    """Five men and Czech names: each part has them in their letters, in list, head, print and saved PGN, after a reload
    too; and the page says which moves are not judged."""
    if not os.path.exists(os.path.join(TABLES, "KRRK.dtm")):
        return
    user.open_tables(TABLES, SMALL + ["KRRK"])
    moves = "1. Rxb2 (1. Rc2 Kb8 2. Rcxb2 Ka8 3. Rh2) 1... Kb8 2. Rbc2"
    text = game("Čtyři kameny", "Fritz, Jindřich", moves, fen="k7/8/1K6/8/8/8/1p6/1RR5 w - - 0 1")
    opened(user, "czech.pgn", text, "document.querySelectorAll('#list tbody tr').length === 2")
    for _ in range(2):
        assert [row[1:3] for row in rows(user)] == [
            ["Čtyři kameny (after 1. Rxb2)", "Fritz, Jindřich"], ["Čtyři kameny (after 2. Rcxb2)", "Fritz, Jindřich"]
        ], rows(user)
        assert user.text("head").startswith("Čtyři kameny") and "Fritz, Jindřich" in user.text("head")
        user.d.refresh()
        user.idle()
    user.choose("studies", "1")
    said = "Judged from there on; the moves before, with more than four men, are not judged: 1. Rc2 Kb8 2. Rcxb2."
    assert said in user.text("tail"), user.text("tail")
    user.js("dispatchEvent(new Event('beforeprint'))")
    paper = user.js("return document.getElementById('paper').textContent")
    user.js("dispatchEvent(new Event('afterprint'))")
    assert said in paper and "Fritz, Jindřich" in paper and "Jindrich" not in paper, paper
    for button in ("savePgn", "savePlain"):
        saved = user.download(button)[1]
        assert saved.count('[White "Fritz, Jindřich"]') == 2 and saved.count('[Event "Čtyři kameny"]') == 2, saved


def test_ten_entries_are_ten_rows(user):
    user.open_tables(TABLES, SMALL)
    pgn = "% made by hand\n" + "".join(
        (
            game("One", "Réti, Richard", "1. Kg3 Kf5 2. Kf3"),
            game("Two", "Троицкий", "1. Kg3! {The only move} Kf5"),
            game("Three", "A", "1. Kh9"),
            game("Four", "B", "1. Kg3", fen=BAD),
            game("Five", "C", "", "1-0"),
            game("Six", "D", "1. Kg3 --"),
            game("Seven", "E", "1. b4 Kf6"),
            game("Eight", "F", "1. Kg3", "*"),
            game("Nine", "G", "1. Kg3", "0-1"),
            game("Ten", "H", "1. Kg3 Kf5 2. Kf3 (2. Kg2 --) Ke5"),
        )
    )
    opened(user, "entries.pgn", pgn)
    user.until("document.getElementById('rows').textContent.includes('fails at')")
    list_ = rows(user)
    assert len(list_) == 10, list_
    assert [
        row[4].split(":")[0].split(" ")[0] for row in list_
    ] == "sound sound left left correct, left fails left does sound".split(), list_
    assert list_[0][2] == "Réti, Richard" and list_[1][2] == "Троицкий"
    assert "Kh9" in list_[2][4] and "6 men" in list_[3][4] and "null move" in list_[5][4], list_
    assert list_[2][1:3] == ["Three", "A"] and list_[3][1:3] == ["Four", "B"], list_
    assert [row[0] for row in list_] == [str(n) for n in range(1, 11)], list_
    assert list_[0][3] == "White to win" and "(line 24, column 4)" in list_[2][4], list_
    assert user.text("shared") == "All stipulations are from the Result.", "what all have is said once"
    menu = user.js("return [...document.getElementById('studies').options].map(o => o.innerText)")
    assert len(menu) == 10 and menu[2] == "3. Three, A: left out", menu
    assert menu[8].startswith("9. Nine, G: does not win"), menu
    user.choose("studies", "5")
    assert user.text("head").split("\n\n")[:2] == ["Ten", "No. 10 \u00b7 H"], user.text("head")
    user.js("const e = document.getElementById('studies'); e.selectedIndex = 3; e.dispatchEvent(new Event('change'))")
    user.settle()
    assert user.has("gameText") and "6 men" in user.text("middle"), user.text("middle")
    assert user.js("return document.getElementById('studies').selectedIndex") == 9
    note = user.text("import")
    assert (
        "10 games, 6 studies. Left out: 4 games" in note and "Not kept of this PGN: 1 null move (game " in note
    ), note
    user.size(1366, 625)
    top = user.js("return document.querySelector('#list tbody tr').getBoundingClientRect().top")
    assert top < 300, top
    for height in (768, 625):
        user.size(1366, height)
        assert user.js("const s = document.querySelector('#list .scroll'); return s.scrollWidth <= s.clientWidth")
    counts = user.js("return [...document.querySelectorAll('#list [data-kind]')].map(b => b.innerText)")
    assert counts[:5] == [
        "3 sound", "1 whose own move fails", "1 wrong", "1 correct, no solution yet", "4 left out"
    ], counts
    user.js("document.querySelector('#list [data-kind=wrong]').click()")
    assert [row[0] for row in rows(user)] == ["9"]
    user.js("document.querySelector('#list [data-kind=wrong]').click()")
    user.promise("new Promise(on => setTimeout(on, 3000))")
    name, text = user.download("saveList")
    table = list(csv.reader(io.StringIO(text)))
    assert (
        name == "entries.checked.csv" and len(table) == 11 and table[2][2] == "Троицкий" and table[1][5] == "sound"
    ), table
    assert table[7][5].startswith("fails at 1. b4: 1... K") and int(table[7][6]) + 1 >= 1 and int(table[1][8]) > 0
    name, saved = user.download("savePgn")
    assert name == "entries.checked.pgn" and '[White "Троицкий"]' in saved and '[Annotator "an editor"]' in saved
    assert "{The only move; White mates in" in saved.replace("\n", " ")
    user.press_on('[data-import="white draw"]')
    user.settle()
    stamp = rows(user)[7][4]
    assert len(rows(user)) == 10 and re.match(r"sound|wrong: |does not |fails at |\d+ (dual|fault)", stamp), stamp
    user.picture("entries")
    user.click("undo")
    user.settle()
    assert rows(user)[7][4].startswith("left out")
    for name, number in (("copyStudy", 11), ("drop", 10), ("drop", 9), ("tidy", 9)):
        user.js(f"document.getElementById('{name}').click()")
        user.settle()
        assert len(rows(user)) == number and sum("left out" in row[4] for row in rows(user)) == 4, rows(user)


def test_a_game_without_stipulation_beside_a_set_up(user):
    """The four buttons stand on the first page, after New, and beside a set-up in a study; without a refusal."""
    user.open_tables(TABLES, SMALL)
    star = game("Chapter 1", "Réti", "1. Kg3 Kf5 2. Kf3", "*")
    for state in ("the first page", "after New"):
        opened(user, "star.pgn", star, "document.getElementById('aims')")
        assert user.by("start").is_displayed() and user.by("aims").is_displayed(), state
        assert not user.by("sayBoard").is_displayed(), user.text("sayBoard")
        assert user.text("aims").startswith("1 game of this PGN does not say what is to be done. Read it as:")
        user.picture("aims_" + state.replace(" ", "_"), whole=False)
        user.press_on('[data-import="white win"]')
        user.until("document.getElementById('stamp')", 60)
        user.settle()
        assert user.text("stamp") == "sound" and "stipulate white win" in script(user)
        user.click("new")
    user.click("cancel")
    opened(user, "both.pgn", star + game("Chapter 2", "B", "1. Kg3"))
    user.click("setUp")
    assert user.by("start").is_displayed() and user.by("aims").is_displayed()
    user.click("new")
    opened(user, "more.pgn", star + game("Seven", "B", "1. Kg3", fen=BAD), "document.getElementById('tried')")
    assert "6 men" in user.text("tried") and user.by("aims").is_displayed()
    user.set_up(FEN, "white win")
    assert not user.has("aims") and not user.has("tried")


def test_the_source_of_a_stipulation_in_a_saved_file(user):
    """The comment of a saved game is the page's own: no comment of the author is said to state what is to be done."""
    user.open_tables(TABLES, SMALL)
    opened(user, "entries.pgn", game("One", "A", "1. Kg3") + game("Two", "B", "1. Kg3 Kf5"))
    assert user.text("source") == "(from the Result)" and user.text("shared").endswith("are from the Result.")
    saved = user.download("savePgn")[1]
    opened(user, "again.pgn", saved)
    assert [row[:2] for row in rows(user)] == [["1", "One"], ["2", "Two"]], rows(user)
    assert not user.has("source") and not user.has("shared"), rows(user)
    assert rows(user)[0][3] == "White to win", rows(user)
    assert user.download("savePgn")[1] == saved
    own = game("One", "A", "{White to win} 1. Kg3") + game("Two", "B", "{White to win} 1. Kg3 Kf5")
    opened(user, "own.pgn", own)
    assert user.text("shared") == "All stipulations are from the comment.", user.text("shared")


def test_no_other_stipulation_where_a_game_was_not_read(user):
    """A study to draw that White wins is to be called so, but not before all of its moves were read."""
    user.open_tables(TABLES, SMALL)
    opened(user, "draws.pgn", game("One", "A", "1. Kg3 Kf5", "1/2-1/2") + game("Two", "B", "1. Kg3 Kh9", "1/2-1/2"))
    assert user.text("stamp") == "wrong: White wins", user.text("stamp")
    user.until("document.body.innerText.includes('Say instead')", 60)
    user.press_on('[data-upto="2"]')
    user.until("document.getElementById('cut')", 60)
    user.settle()
    assert user.text("stamp") == "not read: 1... Kh9", user.text("stamp")
    user.until("studyboard.last().reviewed", 60)
    user.settle()
    assert "Say instead" not in user.js("return document.body.innerText")


def test_numbers_in_a_saved_file(user):
    """A judge's number of an entry stays, though others were left out of the saved file or moved."""
    user.open_tables(TABLES, SMALL)
    pgn = game("One", "A", "1. Kg3") + game("Two", "B", "1. Kg9") + game("Three", "C", "1. Kg3 Kf5") + \
        game("Four", "D", "1. Kg9") + game("Five", "E", "{Good!} 1. Kg3 Kf5", "1/2-1/2")
    opened(user, "entries.pgn", pgn)
    saved = user.download("savePgn")[1]
    assert [" of the first file" in " ".join(one.split()) for one in saved.split("[Event")[1:]] == [False, True, True]
    opened(user, "again.pgn", saved)
    assert [row[:2] for row in rows(user)] == [["1", "One"], ["3", "Three"], ["5", "Five"]], rows(user)
    assert "first file" not in script(user) and "#! note -: Good!" in script(user), script(user)
    assert user.download("savePgn") == ("again.pgn", saved)
    assert "first file" not in user.download("savePlain")[1]


def test_a_game_with_a_bad_move_is_opened_up_to_there(user):
    """Its part is shown and never called sound; its text is mended in place, and the game is read again."""
    user.open_tables(TABLES, SMALL)
    line = "(2... Kg5 3. Ke4 Kf6 4. Kd5 Ke7 5. Kc6 Kd8 (5... Ke6 6. b4 Ke7 7. b6) 6. Kb7)"
    bad = f"1. Kg3! {{The key}} Kf5 2. Kf3 Ke5 {line} 3. Ke3"
    pgn = game("One", "A", "1. Kg3") + game("Two", "Smith, John", bad) + game("Three", "C", "1. Kg3 Kf5")
    opened(user, "entries.pgn", pgn)
    assert rows(user)[1][:3] == ["2", "Two", "Smith, John"] and "b6: no legal move" in rows(user)[1][4], rows(user)
    user.press_on('[data-upto="2"]')
    user.until("document.getElementById('cut')", 60)
    user.settle()
    assert user.text("stamp") == "not read: 7. b6" and user.text("head").startswith("Two\n\nNo. 2"), user.text("head")
    user.press_on("#pgnBox > summary")
    game_text = user.js("return document.getElementById('pgn').value").replace("\n", " ")
    assert "{White to win: not read: 7. b6, White mates in" in game_text, game_text
    assert user.text("pgnUnread") == "Of this document 1 game was not read to its end.", user.text("pgnUnread")
    user.click("setUp")
    user.press_on('[data-turn="mirror"]')
    user.until("!document.getElementById('start').disabled")
    user.click("start")
    user.settle()
    assert user.text("stamp") == "not read: 7. b6" and "position 8/8/8/1k6/8/8/K5P1/8 w" in script(user), script(user)
    user.js("document.getElementById('tidy').click()")
    user.settle()
    assert user.text("stamp") == "not read: 7. b6"
    for _ in range(2):
        user.click("undo")
        user.settle()
    row = rows(user)[1]
    assert row == ["2", "Two", "Smith, John", "White to win", "not read: 7. b6"], row
    assert user.text("shared") == "All stipulations are from the Result."
    sans = re.findall(r"^insert \S+ (\S+)$", script(user), re.M)
    assert sans[1:-2] == "Kg3 Kf5 Kf3 Ke5 Kg5 Ke4 Kf6 Kd5 Ke7 Kc6 Kd8 Ke6 b4 Ke7".split(), sans
    assert "Kb7" not in sans and "Ke3" not in sans and "b6: no legal move of this position" in user.text("cut")
    user.picture("up_to", whole=False)
    user.d.refresh()
    user.idle()
    assert user.text("stamp") == "not read: 7. b6"
    for button in ("savePgn", "savePlain"):
        assert "not read: 7. b6" in user.download(button)[1].replace("\n", " ")
    report = user.download("saveReport")[1]
    assert "not read: line" in report and "BadArguments" not in report, report
    assert "No. 2: 7. b6 was not read: b6: no legal move of this position" in report, report
    text = user.js("return document.getElementById('cutText').value")
    assert text.count("[Event") == 1 and bad in text.replace("\n", " "), text
    type_ = "const e = document.getElementById('cutText'); e.value = a[0]; e.dispatchEvent(new Event('input'))"
    user.js(type_.replace("a[0]", "arguments[0]"), text.replace("b6)", "b5)").replace("3. Ke3", "3. Kh9"))
    user.click("readAgain")
    user.until("document.getElementById('stamp').innerText.includes('3. Kh9')", 60)
    user.settle()
    assert user.text("stamp") == "not read: 3. Kh9" and "b5" in script(user) and rows(user)[1][0] == "2"
    text = user.js("return document.getElementById('cutText').value")
    user.js(type_.replace("a[0]", "arguments[0]"), text.replace('[Result "1-0"]', "").replace("1-0", "*"))
    user.click("readAgain")
    user.until("document.querySelector('#cut [role=alert]')", 60)
    assert "write {White to win}" in user.text("cut") and "b5" not in user.text("cut"), user.text("cut")
    user.js(type_.replace("a[0]", "arguments[0]"), text.replace("3. Kh9", "3. Ke3"))
    user.click("readAgain")
    user.until("!document.getElementById('cut')", 60)
    user.settle()
    user.until("/^\\d+ dual|^fails at /.test(document.getElementById('stamp').textContent)")
    assert "#! up to" not in script(user), user.text("stamp")
    assert "#! game 2, line 9: stipulated by its tag Result" in script(user) and "insert 0.0.0.0 Ke3" in script(user)
    assert [row[0] for row in rows(user)] == ["1", "2", "3"] and "The key" in script(user)


def test_what_is_set_beside_a_bad_move_stays(user):
    """Author, site and stipulation are set for a game up to its bad move; they stay once its text is read again."""
    user.open_tables(TABLES, SMALL)
    opened(user, "bad.pgn", game("One", "A", "1. Kg3 Kf5 2. Kf3 Ke5 3. Ke9"), "document.querySelector('[data-held]')")
    user.press_on("[data-held]")
    user.until("document.getElementById('cut')", 60)
    user.settle()
    for name, text in (("White", "Троицкий"), ("Site", "Praha")):
        user.fill("tag" + name, text)
    user.choose("aimGoal", "draw")
    mend = "const e = document.getElementById('cutText'); e.value = e.value.replace('Ke9', 'Ke3');"
    user.js(mend + "e.dispatchEvent(new Event('input', {bubbles: true}))")
    user.click("readAgain")
    user.until("!document.getElementById('cut')", 60)
    user.settle()
    assert "Троицкий" in user.text("head") and "Praha" in user.text("head"), user.text("head")
    assert "stipulate white draw" in script(user) and "stipulated by hand" in script(user), script(user)
    assert "insert 0.0.0.0 Ke3" in script(user) and "One" in user.text("head")


def test_a_game_alone_with_a_bad_move(user):
    user.open_tables(TABLES, SMALL)
    opened(user, "mine.pgn", game("One", "A", "1. Kg3 Kf5 2. Kf9 Ke5"), "document.querySelector('[data-held]')")
    assert not user.by("sayBoard").is_displayed() and "Kf9: not a move" in user.text("tried")
    user.picture("held", whole=False)
    user.press_on("[data-held]")
    user.until("document.getElementById('stamp')", 60)
    user.settle()
    assert user.text("stamp") == "not read: 2. Kf9" and not user.has("start")
    user.click("endHere")
    user.until("!document.getElementById('cut')", 60)
    user.settle()
    assert user.text("stamp") == "sound" and "Kf9" not in script(user)
    user.click("undo")
    user.settle()
    assert user.text("stamp") == "not read: 2. Kf9" and "no verdict" in user.text("sentence")
    user.click("new")
    opened(user, "mine.pgn", game("One", "A", "1. Kg3 Kf9", "*"), "document.querySelector('[data-held]')")
    user.press_on("[data-held]")
    user.until("document.getElementById('ask')", 60)
    user.press_on('#ask [data-import="white draw"]')
    user.until("document.getElementById('stamp').innerText === 'not read: 1... Kf9'", 60)
    user.settle()
    assert "stipulate white draw" in script(user) and not user.has("ask")


def test_a_file_without_a_study_beside_a_document(user):
    """It says which file that is, why, and that the study below is of another document, which stays as it was."""
    user.open_tables(TABLES, SMALL)
    opened(user, "mine.pgn", game("One", "A", "1. Kg3"))
    user.settle()
    before, bad = script(user), game("Seven", "B", "1. Kg3", fen=BAD)
    opened(user, "seven.pgn", bad, "document.getElementById('tried')")
    said = user.text("tried")
    assert said.startswith("seven.pgn: no study could be read. 1 game, 0 studies.") and "6 men" in said, said
    assert said.endswith("What stands below is another document, mine, as it was."), said
    assert script(user) == before and user.js("return document.querySelector('[data-held]') !== null")
    user.click("new")
    assert "What stands below" not in user.text("tried")
    user.click("cancel")
    paths = []
    for name, text in (("seven.pgn", bad), ("two.pgn", game("Two", "B", "1. Kg3"))):
        paths.append(os.path.join(tempfile.mkdtemp(), name))
        with open(paths[-1], "w", encoding="utf-8") as file:
            file.write(text if isinstance(text, str) else text.decode())
    user.by("file").send_keys("\n".join(paths))
    user.until("document.getElementById('sayBoard').textContent.includes('1 of 2 files opened')", 60)
    assert "seven.pgn: no study could be read" in user.text("sayBoard"), user.text("sayBoard")


def test_sources_that_differ_are_a_filter(user):
    user.open_tables(TABLES, SMALL)
    text = "".join(
        f"#! game {n}, line {9 * n}: stipulated by its {source}\n{against}position {FEN}\nstipulate white win\n"
        f"tag Event {name}\ninsert root Kg3\npgn\n\n"
        for n, name, source, against in (
            (2, "Two", "tag Result", ""),
            (5, "Five", "comment", "#! the stipulation differs from its tag Result\n"),
            (7, "Seven", "result", "#! the stipulation of its comment is not understood\n"),
        )
    )
    user.promise("studyboard.open(a[0])", text)
    user.settle()
    # In a narrow list they stand in one line, with a blank that is none of the text.
    assert [row[:2] + [row[3].replace("\n", "")] for row in rows(user)] == [
        ["2", "Two", "White to win(from the Result)"],
        ["5", "Five", "White to win(from the comment)its tag Result differs"],
        ["7", "Seven", "White to win(from the final result)its comment is not understood"],
    ], rows(user)
    assert user.text("source") == "(from the Result)" and not user.has("against")
    chip = "#list [data-kind=differ]"
    assert user.js("return document.querySelector(arguments[0]).innerText", chip) == "2 whose sources differ"
    user.press_on(chip)
    assert [row[0] for row in rows(user)] == ["5", "7"]
    user.choose("studies", "1")
    assert user.text("against") == "Compare the sources of the stipulation: its tag Result differs."
    user.picture("differ", whole=False)
    user.choose("aimGoal", "draw")
    assert not user.has("against") and not user.has("source")
    assert "#! game 5, line 45: stipulated by hand" in script(user)
    assert [row[0] for row in rows(user)] == ["7"]


def test_numbers_and_what_is_carried(user):
    """A study has one number on the board, in report and list; lines have theirs; what is carried is said."""
    user.open_tables(TABLES, SMALL)
    one = f"position {FEN}\n\n# why\nstipulate white win\ntag Event One\ntag White Adam\ninsert root Kg3\npgn\n\n"
    two = one.replace("Kg3", "Kg3\ninsert 0 Kh9\nmark 5").replace("One", "Two").replace("Adam", "Berta")
    three = f"position {FEN}\ntag Event Three\ninsert root Kg3\n"
    opened(user, "numbers.script", "# first\n" + one.replace("8/1P5K", "9/1P5K") + one + two + three)
    assert [row[0] for row in rows(user)] == ["\u2013", "1", "2", "3"], rows(user)
    assert rows(user)[3][2:4] == ["Berta (set for an earlier study)", "White to win (set for an earlier study)"]
    cells = "document.querySelectorAll('#refused + .scroll td:first-child')"
    refused = user.js(f"return [...{cells}].map(e => +e.innerText)")
    _, report = user.download("saveReport")
    assert refused == [2, 27, 28] and all(f"Line {n} was refused" in report for n in refused), refused
    listed = re.findall(r"<tr><td>(\d*)</td>", report[report.index("Entries and verdicts"):])
    assert listed[-3:] == ["1", "2", "3"], listed
    options = user.js("return [...document.getElementById('studies').options].map(o => o.innerText)")
    assert options[0] == "One, Adam: left out", options
    assert options[3].startswith("3. Three:") and "Berta" not in options[3], options
    user.choose("studies", "2")
    user.click("keepAim")
    user.settle()
    assert script(user).count("stipulate white win") == 4 and not user.has("keepAim")
    user.fill("tagWhite", "Cecil")
    user.fill("tagWhite", "")
    assert "tag White ?" in script(user) and rows(user)[3][2] == "", rows(user)
    user.choose("studies", "0")
    user.fill("tagSite", "Riga")
    assert "stipulate white win\ntag Site Riga" in script(user)


def test_letters_of_another_code(user):
    user.open_tables(TABLES, SMALL)
    path = os.path.join(tempfile.mkdtemp(), "latin1.pgn")
    with open(path, "wb") as file:
        file.write(game("Léger", "Réti", "1. Kg3").encode("latin-1"))
    user.by("file").send_keys(path)
    user.until("document.getElementById('stamp')", 60)
    user.settle()
    assert "Léger" in user.text("head") and "Réti" in user.text("head") and "tag White Reti" in script(user)
    user.fill("tagWhite", "Л. Каспарян")
    user.until("document.getElementById('head').innerText.includes('Л. Каспарян')")
    assert re.search(r"^tag White [ -~]+$", script(user), re.M) and "#! White was: Л. Каспарян" in script(user)
    user.d.refresh()
    user.idle()
    assert "Л. Каспарян" in user.text("head")
    user.fill("tagWhite", "Prokes")
    assert "was: Л" not in script(user)


def test_names_in_a_code_page(user):
    """Games with names that are no UTF-8 are named, and can be read in three code pages."""
    user.open_tables(TABLES, SMALL)
    path = os.path.join(tempfile.mkdtemp(), "mixed.pgn")
    with open(path, "wb") as file:
        file.write(game("One", "Réti", "1. Kg3").encode("utf-8"))
        file.write(game("Two", "Троицкий", "1. Kg3 {Конец}").encode("cp1251"))
        file.write(game("Three", "Šojka", "1. Kg3").encode("cp1250"))
    user.by("file").send_keys(path)
    user.until("document.getElementById('codes')", 60)
    user.settle()
    assert "The tags of games 2, 3 have letters that are no UTF-8, read as Latin 1: Òðîèöêèé." in user.text("import")
    codes = user.js("return [...document.querySelectorAll('[data-code]')].map(e => e.innerText)")
    assert codes[1] == "Cyrillic, 1251: Троицкий" and codes[2] == "Western, 1252: Òðîèöêèé", codes
    assert [row[2] for row in rows(user)][:2] == ["Réti", "Òðîèöêèé"]
    user.picture("codes", whole=False)
    user.press_on('[data-code="windows-1251"]')
    user.until("document.querySelector('[data-code=\"windows-1251\"]').classList.contains('on')", 60)
    user.settle()
    assert [row[2] for row in rows(user)][:2] == ["Réti", "Троицкий"] and "tag White Troickij" in script(user)
    saved = user.download("savePgn")[1]
    assert '[White "Троицкий"]' in saved and "{Конец; White mates in" in saved.replace("\n", " "), saved
    user.fill("tagWhite", "Somebody")
    user.press_on('[data-code="windows-1250"]')
    user.settle()
    assert "without what was changed since it was opened" in user.text("undoes"), user.text("import")
    assert rows(user)[0][2] == "Somebody", rows(user)
    user.press_on('[data-code="windows-1250"]')
    user.until("document.querySelector('[data-code=\"windows-1250\"]').classList.contains('on')", 60)
    user.settle()
    assert rows(user)[2][2] == "Šojka", rows(user)


def test_comments_in_a_code_page(user):
    """Where the tags are plain and only comments are in an older code, it is chosen in the same way."""
    user.open_tables(TABLES, SMALL)
    path = os.path.join(tempfile.mkdtemp(), "plain.pgn")
    with open(path, "wb") as file:
        file.write(game("One", "Troitzky", "1. Kg3 {Конец}").encode("cp1251"))
    user.by("file").send_keys(path)
    user.until("document.getElementById('codes')", 60)
    user.settle()
    assert "The comments of game 1 have letters that are no UTF-8" in user.text("import"), user.text("import")
    user.press_on('[data-code="windows-1251"]')
    user.until("document.querySelector('[data-code=\"windows-1251\"]').classList.contains('on')", 60)
    user.settle()
    assert "#! note Kg3: Конец" in script(user), script(user)


def test_neither_script_nor_pgn(user):
    user.open_tables(TABLES, SMALL)
    user.set_up(FEN, "white win")
    before = script(user)
    for name, text in (
        ("a.json", '{"position": 1}'),
        ("b.txt", "prose\nand more\n"),
        ("e.pgn", ""),
        ("c.pgn", '[Event "x"]\n\n1. e4 *\n'),
    ):
        user.open_file(name, text)
        user.until("document.body.textContent.includes('Nothing was changed')")
        user.settle()
        assert script(user) == before


def test_our_own_pgn_is_kept_whole(user):
    user.open_tables(TABLES, SMALL)
    user.set_up(FEN, "white win")
    for san in ("Kg3", "Kf5", "Kf3"):
        user.play(san)
    own = user.promise("studyboard.pgn()")
    opened(user, "own.pgn", own, "document.getElementById('stamp')")
    user.until("!document.getElementById('notKept')")
    assert user.download("savePgn") == ("own.pgn", own)
    assert "\n\n{White to win} 1. Kg3 Kf5" in user.download("savePlain")[1]


def test_a_file_goes_back_as_its_authors(user):
    """Results, comments and glyphs are theirs; what is saved is opened and saved again to the same bytes."""
    user.open_tables(TABLES, SMALL)
    black = "8/8/8/3k4/8/3K4/3P4/8 b - - 0 1"
    pgn = game("One", "A", "{Gewinn} 1. Kg3 $3 {the key} Kf5 (1... Kh5 $1 {und ...Kg5}) 2. Kf3!", "1-0")
    pgn += game("Two", "B", "{Black to move and draw} 1... Ke5 (1... Kc5 $2 {fails} 2. Kc3)", "1/2-1/2", black)
    opened(user, "entries.pgn", pgn)
    name, saved = user.download("savePgn")
    words = saved.replace("\n", " ")
    assert name == "entries.checked.pgn" and words.count('[Result "1/2-1/2"]') == 1 and words.count(" 1/2-1/2 ") == 1
    assert "Gewinn} 1. Kg3 $3 {the key; White mates in" in words, words
    assert "Kh5 $1 {und ...Kg5; White mates in" in words, words
    assert "Kc5 $2 {fails; White mates in" in words and not re.search(r"\} \{|\$\d \$\d", words), words
    name, plain = user.download("savePlain")
    assert name == "entries.unmarked.pgn" and not re.search("mates in|unsound|sound|wrong", plain), plain
    moves = [text.replace("\n", " ") for text in re.findall(r"\n\n(\S.*?)\n\n", plain, re.S)]
    assert moves == [
        "{Gewinn} 1. Kg3 $3 {the key} 1... Kf5 (1... Kh5 $1 {und ...Kg5}) 2. Kf3 $1 1-0",
        "{Black to move and draw} 1... Ke5 (1... Kc5 $2 {fails} 2. Kc3) 1/2-1/2",
    ], moves
    opened(user, "entries.checked.pgn", saved, "!document.getElementById('notKept')")
    assert user.download("savePgn") == ("entries.checked.pgn", saved)
    user.choose("aimGoal", "draw")
    assert "stipulated by hand" in script(user) and user.text("stamp") == "wrong: White wins", script(user)
    assert '[Result "1-0"]' in user.download("savePgn")[1]


def test_studies_are_copied_and_moved(user):
    user.open_tables(TABLES, SMALL)
    text = (
        f"position {FEN}\nstipulate white win\ntag Event One\ninsert root Kg3\n\nposition 8/3k4/8/3KP3/8/8/8/8 w - - 0"
        " 1\nstipulate white draw\ntag Event Two\n"
    )
    user.promise("studyboard.open(a[0])", text)
    user.settle()
    user.click("copyStudy")
    user.settle()
    assert [row[1] for row in rows(user)] == ["One", "One", "Two"]
    user.click("studyDown")
    user.settle()
    assert [row[1] for row in rows(user)] == ["One", "Two", "One"]
    assert [row[3] for row in rows(user)] == ["White to win", "White to draw", "White to win"]
    user.click("undo")
    user.click("undo")
    user.settle()
    assert [row[1] for row in rows(user)] == ["One", "Two"]


def test_the_diagram_is_turned_with_its_moves(user):
    user.open_tables(TABLES, SMALL)
    user.set_up(FEN, "white win")
    for san in ("Kg3", "Kf5", "Kf3"):
        user.play(san)
    user.click("setUp")
    user.press_on('[data-turn="mirror"]')
    user.press_on('[data-turn="colours"]')
    user.until("!document.getElementById('start').disabled")
    user.click("start")
    user.settle()
    assert script(user).startswith("position 8/k5p1/8/8/1K6/8/8/8 b - - 0 1\nstipulate black win\n"), script(user)
    assert re.findall(r"insert \S+ (\S+)", script(user)) == ["Kb6", "Kc4", "Kc6"] and user.text("stamp") == "sound"
    user.click("setUp")
    user.press_on('[data-turn="right"]')
    user.until("!document.getElementById('start').disabled")
    user.click("start")
    user.settle()
    assert script(user).startswith("position 8/1k5p/8/8/2K5/8/8/8 b") and len(re.findall("insert", script(user))) == 3


def test_what_is_legal_of_a_tree_is_kept(user):
    user.open_tables(TABLES, SMALL)
    user.set_up(FEN, "white win")
    for san in ("Kg3", "Kf5", "Kf3"):
        user.play(san)
    user.click("first")
    user.settle()
    user.play("b4")
    user.click("setUp")
    user.drag("h2", "a1")
    user.until("!document.getElementById('start').disabled")
    user.click("start")
    user.settle()
    said = user.text("sayBoard")
    assert re.findall(r"insert \S+ (\S+)", script(user)) == ["b4"] and "Kg3 with 2 below it" in said, said


def test_a_study_begins_earlier(user):
    user.open_tables(TABLES, SMALL)
    user.set_up(FEN, "white win")
    user.play("Kg3")
    user.click("first")
    user.settle()
    user.click("beginEarlier")
    user.until("document.querySelector('#earlier [data-before]')", 60)
    first = user.js("return document.querySelector('#earlier [data-before]').dataset.before")
    user.press_on("#earlier [data-before]")
    user.until(f"document.getElementById('earlierState').innerText.includes('before {first}')", 60)
    user.picture("earlier", whole=False)
    user.until("document.querySelector('#earlier [data-before]')", 60)
    second = user.js("return document.querySelector('#earlier [data-before]').dataset.before")
    user.press_on("#earlier [data-before]")
    user.settle()
    sans = re.findall(r"insert (\S+) (\S+)", script(user))
    assert [path for path, _ in sans] == ["root", "0", "0.0"] and [san for _, san in sans] == [
        second,
        first,
        "Kg3",
    ], sans
    user.promise("studyboard.open(a[0])", "position 3Q4/8/8/8/8/2k5/8/K7 b - - 0 1\nstipulate white win\n")
    user.click("beginEarlier")
    user.until("document.querySelector('#earlier [data-before=\"d8=Q\"]')", 60)
    user.press_on('#earlier [data-before="d8=Q"]')
    user.until("document.getElementById('beginOne')", 60)
    user.settle()
    user.click("beginOne")
    user.settle()
    lines = script(user).split("\n")
    assert "position 8/3P4/8/8/8/2k5/8/K7 w - - 0 1" in lines and "insert root d8=Q" in lines, lines


def test_a_mate_begins_earlier(user):
    user.open_tables(TABLES, SMALL)
    mate = "position 8/k1P5/2K5/8/8/8/8/8 w - - 0 1\nstipulate white mate 2\ninsert root c8=R\n"
    user.promise("studyboard.open(a[0])", mate)
    user.settle()
    user.click("first")
    user.settle()
    user.click("beginEarlier")
    for state in ("the start", "before Ka7"):
        user.until(f"document.getElementById('earlierState').innerText.includes('{state}')", 60)
        user.until("document.querySelector('#earlier [data-before]')", 60)
        chips = user.js("return [...document.querySelectorAll('#earlier [data-before]')].map(b => b.innerText)")
        assert len(chips) == len(set(chips)) > 1 and all(" from " in chip for chip in chips), chips
        user.press_on("#earlier [data-before]")
    user.settle()
    assert "\nstipulate white mate 3\n" in script(user) and not user.text("stamp").startswith("wrong"), script(user)


def test_a_diagram_is_saved(user):
    user.open_tables(TABLES, SMALL)
    user.set_up(FEN, "white win")
    name, text = user.download("saveSvg")
    assert name.endswith(".svg") and text.startswith("<svg") and text.count("<use") == 3 and "<symbol" in text


def test_find_all_zugzwangs_of_king_and_pawn(user):
    user.open_tables(TABLES, SMALL)
    user.click("findButton")
    user.choose("findClass", "KPK")
    user.choose("findTheme", "zugzwang")
    user.click("findGo")
    user.until("document.getElementById('findState').innerText.includes('all there are')", 120)
    assert user.text("findState").startswith("KPK zugzwang: 80 positions found"), user.text("findState")
    assert user.js("return document.querySelectorAll('#foundList li').length") == 80
    user.picture("find", whole=False)
    user.choose("findTheme", "win N")
    user.js(
        "const e = document.getElementById('findN'); e.value = '6'; e.dispatchEvent(new Event('input', {bubbles:"
        " true}))"
    )
    user.click("findGo")
    user.until("document.getElementById('findState').innerText.includes('all there are')", 120)
    assert "KPK win 6: 15 positions found" in user.text("findState"), user.text("findState")
    user.press_on("#foundList [data-found]")
    user.settle()
    user.until("document.getElementById('stamp')", 60)
    assert user.text("stamp") == "sound" and len(re.findall("insert", script(user))) == 11, script(user)


def test_zugzwangs_of_a_study(user):
    if not os.path.exists(os.path.join(TABLES, "KBPK.dtm")):
        return
    user.open_tables(TABLES, SMALL + "KQBK KRBK KBBK KBNK KBPK".split())
    with open(os.path.join(TOP, "examples", "kbpk_three_zugzwangs.script"), encoding="utf-8") as file:
        user.promise("studyboard.open(a[0])", re.sub(r"^build .*\n", "", file.read(), flags=re.M))
    user.settle()
    user.until("document.getElementById('zugzwangs')", 60)
    assert user.js("return document.querySelectorAll('.tree .zugzwang').length") >= 3


run(globals(), sys.argv[2:])
