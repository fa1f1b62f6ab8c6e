"""A man's other squares, what a remedy takes away, missing defences, a diagram: in headless Chromium, by mouse and
keys.

    composing.py TABLES [NAME ..]

TABLES has those of two and three men at least.
"""
import base64
import os
import re
import sys
import tempfile
import time

from user import ActionChains, By, Keys, run

TABLES = os.path.abspath(sys.argv[1])
FEN = "8/8/8/6k1/8/8/1P5K/8 w - - 0 1"
SMALL = "KK KQK KRK KBK KNK KPK".split()
STUDY = f"""position {FEN}
stipulate white win
insert root Kg3
insert 0 Kf5
insert 0.0 Kf3
insert 0.0.0 Ke5
insert 0.0.0.0 Ke3
insert 0 Kh5
insert 0.1 Kf4
insert 0.1.0 Kg6
insert 0.1 Kf3
"""


def script(user):
    return user.promise("studyboard.script()")


def reload(user):
    user.d.refresh()
    user.idle()


def opened(user):
    user.open_tables(TABLES, SMALL)
    user.promise("studyboard.open(a[0])", STUDY)
    user.settle()


def view(user, lines, path="root"):
    return [row.split(" ") for row in user.promise("studyboard.view(a[0], a[1])", lines, path).split("\n")]


class Rows:
    """Only moves in a row, by the marks of single positions."""

    def __init__(self, user):
        self.user, self.views = user, {}

    def moves(self, fen):
        """Whether White, or Black, wins; and of each move its mark and the position after it."""
        if fen not in self.views:
            rows = view(self.user, f"position {fen}\nstipulate white win\n")
            root = next(row for row in rows if row[0] == "node")
            moves = [(row, " ".join(row[-6:])) for row in rows if row[0] == "move"]
            self.views[fen] = root[4], moves
        return self.views[fen]

    def has(self, fen, n):
        value, moves = self.moves(fen)
        only = [after for row, after in moves if "only" in row]
        if value != "win" or n and len(only) != 1:
            return False
        return n < 2 or any(self.has(after, n - 1) for _, after in self.moves(only[0])[1])

    def most(self, fen):
        return max(n for n in range(13) if self.has(fen, n))


def surveyed(user, man):
    user.click("setUp")
    user.until("document.getElementById('survey')", 30)
    user.choose("surveyMan", str(man))
    user.until("document.getElementById('stands')", 30)
    user.settle()


def moved(square):
    """The king of FEN on another square of its ranks."""
    return {
        "g2": "8/8/8/6k1/8/8/1P4K1/8 w - - 0 1",
        "h3": "8/8/8/6k1/8/7K/1P6/8 w - - 0 1",
        "f2": "8/8/8/6k1/8/8/1P3K2/8 w - - 0 1",
    }[square]


def test_rows_of_only_moves_at_the_dots(user):
    opened(user)
    surveyed(user, 15)
    shown = user.js(
        "return Object.fromEntries([...document.querySelectorAll('#board [data-row]')].map(e => [e.dataset.row,"
        " e.textContent]))"
    )
    rows = Rows(user)
    assert shown == {square: str(rows.most(moved(square))) for square in ("g2", "h3")} == {"g2": "6", "h3": "6"}, shown
    assert "6: g2 (Kg3), h3 (Kg3)." in user.text("inRow"), user.text("inRow")
    user.picture("rows")
    user.choose("draftGoal", "mate")
    surveyed_again = "document.getElementById('survey') && !document.getElementById('stands')"
    user.until(surveyed_again, 30)
    user.click("survey")
    user.until("document.getElementById('stands')", 30)
    user.settle()
    assert not user.has("inRow")


def test_trees_on_other_squares(user):
    opened(user)
    surveyed(user, 15)
    user.click("lookAtTrees")
    user.until("document.querySelectorAll('#treesThere [data-there]').length", 60)
    user.settle()
    chips = dict(
        user.js(
            "return [...document.querySelectorAll('#treesThere [data-there]')].map(e => [e.dataset.there, e.innerText])"
        )
    )
    for square in ("g2", "h3", "f2"):
        rows = view(user, STUDY.replace(FEN, moved(square)))
        refused = [row for row in rows if row[0] == "refused"]
        stamp = " ".join(next(row[1:] for row in rows if row[0] == "stamp"))
        assert not refused and chips[square] == f"{square}: {stamp}", (square, stamp, chips)
    assert list(chips)[:2] == ["g2", "h3"] and "looked at" not in user.text("treesThere"), chips
    assert "no move stays" in user.text("treesThere"), user.text("treesThere")
    user.picture("trees")
    user.press_on('[data-there="h3"]')
    user.until("document.getElementById('fen').value.startsWith('8/8/8/6k1/8/7K/1P6/8 w')", 30)
    user.until("!document.getElementById('start').disabled", 30)
    user.click("start")
    user.settle()
    assert script(user).startswith(f"position {moved('h3')}") and len(re.findall("insert", script(user))) == 9
    user.until("document.getElementById('stamp').textContent.startsWith('1 dual')", 30)


def test_trees_are_given_up_with_the_survey(user):
    opened(user)
    surveyed(user, 15)
    user.click("lookAtTrees")
    user.press("h3")
    user.until("document.getElementById('judged').textContent.includes('correct')", 30)
    user.settle()
    assert not user.has("treesThere") and not user.has("stands")
    user.click("cancel")
    user.click("new")
    user.fill("fen", FEN)
    user.until("document.getElementById('survey')", 30)
    user.choose("surveyMan", "15")
    user.until("document.getElementById('stands')", 30)
    assert not user.has("lookAtTrees")


def test_an_ending_keeps_its_own_moves(user):
    """The position after a move becomes the start: the moves below it stay, with the author's words."""
    user.open_tables(TABLES, SMALL)
    said = "#! note Kg3: $3\n#! note Kg3 Kf5 Kf3 Ke5 Ke3: the opposition\n"
    moves = "insert root Kg3\ninsert 0 Kf5\ninsert 0.0 Kf3\ninsert 0.0.0 Ke5\ninsert 0.0.0.0 Ke3\n"
    moves += "insert 0.0.0.0.0 Kd5\ninsert 0.0.0.0.0.0 Kd3\n"
    user.promise("studyboard.open(a[0])", f"{said}position {FEN}\nstipulate white win\n{moves}")
    user.settle()
    user.go("0.0.0.0")
    user.click("setUp")
    user.click("fromNode")
    user.until("!document.getElementById('start').disabled", 30)
    assert user.text("start") == "Keep the moves after 2... Ke5"
    for side in ("left", "right"):
        user.press_on(f'[data-turn="{side}"]')
    reload(user)
    user.until("!document.getElementById('start').disabled", 30)
    user.click("start")
    user.settle()
    after = "position 8/8/8/4k3/8/5K2/1P6/8 w - - 4 3\nstipulate white win\n"
    after += "insert root Ke3\ninsert 0 Kd5\ninsert 0.0 Kd3"
    assert script(user).strip() == "#! note Ke3: the opposition\n" + after, script(user)
    assert user.text("stamp").split(";")[0] == "sound" and user.by("sayBoard").text == ""


def test_what_is_typed_stays_in_its_field(user):
    """A move arrives while words are being typed: they are those on this move, and none is lost."""
    opened(user)
    typed = ActionChains(user.d).send_keys
    user.by("note").click()
    typed("Not the").perform()
    user.js("document.querySelector('[data-san=Kg2]').click()")
    user.settle()
    field = user.d.switch_to.active_element
    assert field.get_attribute("id") == "note" and field.get_attribute("value") == "Not the", field
    typed(" king.").perform()
    typed(Keys.TAB).perform()
    user.settle()
    assert [line for line in script(user).splitlines() if line[0] == "#"] == ["#! note Kg2: Not the king."]
    assert "( or )" not in user.text("words")
    user.fill("note", "Not the {white} king.")
    assert "#! note Kg2: Not the (white) king." in script(user) and "written as ( or )." in user.text("words")
    user.by("san").click()
    typed("Kh4" + Keys.ENTER).perform()
    typed("Kf3" + Keys.ENTER).perform()
    user.until("document.getElementById('script').value.includes('insert 1.0 ')", 30)
    assert script(user).splitlines()[-2:] == ["insert 1 Kh4", "insert 1.0 Kf3"], script(user)


def test_which_of_several_typed_moves_is_refused(user):
    opened(user)
    before = script(user)
    user.fill("san", "1. Kg3 Kf5 2. Kf3 Ke5 3. Kh8 Kd5")
    user.settle()
    said = user.by("sayBoard").text
    assert said.startswith("3. Kh8, after 2... Ke5: "), said
    assert said.endswith(" None of the moves was entered."), said
    assert script(user) == before
    user.fill("san", "1. Kg3 Kf5 2. Kf3 Ke5 3. Kg3 Kd5")
    user.settle()
    assert script(user).splitlines()[-2:] == ["insert 0.0.0.0 Kg3", "insert 0.0.0.0.1 Kd5"], script(user)


def test_a_half_typed_line_stays_at_any_step(user):
    """By the buttons, by a move of the mouse and over a reload, until Enter takes it or Escape drops it."""
    value = "return document.getElementById('san').value"
    opened(user)
    before = script(user)
    for text in ("Kg", "Kg3 K"):
        user.by("san").click()
        user.keys(text)
        for button in ("on", "back"):
            user.click(button)
            user.settle()
            assert user.js(value) == text and script(user) == before, (text, button, user.js(value))
        user.by("san").click()
        user.keys(Keys.ESCAPE)
        user.click("on")
        user.settle()
        assert user.js(value) == "", text
        user.click("back")
        user.settle()
    user.by("san").click()
    user.keys("Kg2 Kf")
    user.play("Kh1")
    assert user.js(value) == "Kg2 Kf" and script(user) == before + "insert root Kh1\n", script(user)
    user.click("back")
    reload(user)
    assert user.js(value) == "Kg2 Kf"
    user.by("san").click()
    user.keys(Keys.END, "4", Keys.ENTER)
    user.settle()
    assert script(user).splitlines()[-2:] == ["insert root Kg2", "insert 2 Kf4"] and user.js(value) == ""


def test_refused_moves_stay_and_are_entered_elsewhere(user):
    """Moves that are not legal here stay in their field; Enter at another position plays them."""
    opened(user)
    user.by("san").click()
    user.keys("Kh6", Keys.ENTER)
    user.settle()
    assert user.text("sayBoard").startswith("Kh6")
    user.click("on")
    user.settle()
    assert user.js("return document.getElementById('san').value") == "Kh6"
    user.by("san").click()
    user.keys(Keys.ENTER)
    user.settle()
    assert script(user).splitlines()[-1] == "insert 0 Kh6", script(user)
    assert user.js("return document.getElementById('san').value") == ""


def test_a_mate_in_n_that_begins_two_moves_earlier(user):
    """? stands at those of White's moves, and at no others, before which the mate does not take as long."""
    user.open_tables(TABLES, SMALL)
    user.promise("studyboard.open(a[0])", "position 8/8/8/2K5/8/k7/1R6/8 w - - 0 1\nstipulate white mate 6\n")
    user.settle()
    moves = "[...document.querySelectorAll('#earlier [data-before]')]"
    for name in ("Kc5 from c6", "Kc5 from d6", "Rb2? from b1", "Kc5? from c4"):
        user.click("beginEarlier")
        for text in ("Ka3 from a4", name):
            move = f"{moves}.find(e => e.innerText.replace(/\\s+/g, ' ').trim() === '{text}')"
            user.until(move, 60)
            said = user.text("earlierState")
            user.js(f"{move}.click()")
            user.settle()
        assert said.endswith("; before one with ? the stipulation is wrong:"), said
        assert user.text("stamp").startswith("wrong: White mates in ") == ("?" in name), (name, user.text("stamp"))
        user.control("z")
        user.settle()


def test_what_a_remedy_takes_away(user):
    opened(user)
    user.until("document.querySelector('[data-cut]')", 30)
    cut = user.d.find_element(By.CSS_SELECTOR, '[data-cut="0.1.0"]')
    assert cut.text == "✕ Delete from 2. Kf4 on (2 moves; 2. Kf3 comes to its place)", cut.text
    assert cut.get_attribute("title") == "delete 2 moves: 2. Kf4 Kg6; 2. Kf3 comes to its place", cut.get_attribute(
        "title"
    )
    cut.click()
    user.settle()
    assert len(user.d.find_elements(By.CSS_SELECTOR, ".tree [data-path]")) == 7


def test_all_defences_with_one_answer(user):
    opened(user)
    user.until("document.getElementById('addAll')", 30)
    said, before = user.text("addAll"), len(re.findall("insert", script(user)))
    user.click("addAll")
    user.settle()
    count = int(re.fullmatch(r"Add all (\d+) with one answer", said).group(1))
    added = re.findall(r"insert \S+ (\S+)", script(user))[before:]
    assert count == 4 and added == "Kf6 Kf4 Ke6 Ke4 Kd5 Kd3 Kd6 Kd4".split(), (said, added)
    user.until("document.getElementById('stamp').textContent.startsWith('1 dual')", 30)


def test_a_fen_and_pictures(user):
    opened(user)
    user.click("copyFen")
    user.until(
        (
            "document.getElementById('sayBoard').textContent.includes('FEN') || "
            "document.getElementById('sayBoard').textContent.includes('Copied')"
        ),
        20,
    )
    assert FEN in user.text("sayBoard")
    folder = tempfile.mkdtemp()
    user.d.execute_cdp_cmd("Browser.setDownloadBehavior", {"behavior": "allow", "downloadPath": folder})
    user.click("savePng")
    for _ in range(500):
        names = [name for name in os.listdir(folder) if name.endswith(".png")]
        if names and os.path.getsize(os.path.join(folder, names[0])) > 5000:
            break
        time.sleep(0.02)
    with open(os.path.join(folder, names[0]), "rb") as file:
        data = file.read()
    assert data.startswith(base64.b64decode("iVBORw0KGgo=")) and len(data) > 5000
    name, text = user.download("saveSvg")
    assert name.endswith(".svg") and text.startswith("<svg")
    surveyed(user, 15)
    assert user.js("return document.querySelectorAll('#board .dot').length") == 2
    assert user.download("saveSvg") == (name, text)


def test_words_are_handed_over_before_a_file_is_dropped(user):
    """What is being typed when a file is dropped on the board stays with its own study."""
    user.open_tables(TABLES, SMALL)
    user.set_up("8/8/8/6k1/8/8/1P5K/8 w - - 0 1", "white win")
    user.play("Kg3")
    user.by("note").click()
    user.by("note").send_keys("My words")
    game = '[Event "Dropped"]\n[FEN "8/8/8/8/8/1k6/8/K1R5 w - - 0 1"]\n\n{White to win} 1. Rc8 Kb4 *\n'
    user.js(
        """const data = new DataTransfer();
        data.items.add(new File([arguments[0]], 'dropped.pgn'));
        const drop = new DragEvent('drop', {dataTransfer: data, bubbles: true, cancelable: true});
        document.querySelector('#board').dispatchEvent(drop)""",
        game,
    )
    user.until("document.getElementById('head').innerText.includes('Dropped')", 60)
    user.settle()
    assert "My words" not in user.promise("studyboard.script()")
    user.click("documentsButton")
    user.settle()
    user.js("[...document.querySelectorAll('#documents tbody button')].find(b => /Pb2/.test(b.innerText)).click()")
    user.until("document.getElementById('note')", 60)
    user.settle()
    assert "#! note Kg3: My words" in user.promise("studyboard.script()"), user.promise("studyboard.script()")


run(globals(), sys.argv[2:])
