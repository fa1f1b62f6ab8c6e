"""What the page owes its users, tried in headless Chromium from its file.

    page.py TABLES [NAME ..]

Each test begins in a new profile: no document, no table. TABLES has the files of the native program.
"""
import hashlib
import os
import re
import sys
import tempfile
import time
from html.parser import HTMLParser

from user import FILL, TOP, By, Keys, run

TABLES = os.path.abspath(sys.argv[1])
FEN = "8/8/8/6k1/8/8/1P5K/8 w - - 0 1"
SMALL = "KK KQK KRK KBK KNK KPK".split()


def digest(name):
    with open(os.path.join(TABLES, name + ".dtm"), "rb") as file:
        return hashlib.sha256(file.read()).hexdigest()


def kept(user, name):
    """The SHA-256 of a table in the browser's store, or nothing."""
    return user.promise(
        """(async () => {
        const base = await new Promise((ok, no) => {
            const r = indexedDB.open('studyboard', 1);
            r.onsuccess = () => ok(r.result);
            r.onerror = () => no(r.error);
        });
        const get = base.transaction('tables').objectStore('tables').get(a[0]);
        const blob = await new Promise(ok => { get.onsuccess = () => ok(get.result); });
        if (!blob) return '';
        const sum = new Uint8Array(await crypto.subtle.digest('SHA-256', await blob.arrayBuffer()));
        return [...sum].map(b => b.toString(16).padStart(2, '0')).join('');
    })()""",
        name,
    )


def put_forged(user, name):
    user.promise(
        """(async () => {
        const base = await new Promise((ok, no) => {
            const r = indexedDB.open('studyboard', 1);
            r.onsuccess = () => ok(r.result);
            r.onerror = () => no(r.error);
        });
        const s = base.transaction('tables', 'readwrite').objectStore('tables'), get = s.get(a[0]);
        const blob = await new Promise(ok => { get.onsuccess = () => ok(get.result); });
        const bytes = new Uint8Array(await blob.arrayBuffer());
        bytes[bytes.length - 100] ^= 1;
        const put = base.transaction('tables', 'readwrite').objectStore('tables').put(new Blob([bytes]), a[0]);
        await new Promise(ok => { put.onsuccess = ok; });
        return 0;
    })()""",
        name,
    )


class Tags(HTMLParser, list):
    """The names of a page's elements."""

    def __init__(self):
        HTMLParser.__init__(self)
        list.__init__(self)

    def handle_starttag(self, tag, attrs):
        self.append(tag)


def sample(user):
    user.click("sample")
    user.until("document.getElementById('stamp') && document.getElementById('progress').hidden", 120)
    user.settle()


def test_sample_in_one_click(user):
    sample(user)
    assert user.text("stamp") == "sound"
    for name in SMALL:
        assert kept(user, name) == digest(name), name


def test_composed_by_keys_alone(user):
    board = user.d.find_element(By.CSS_SELECTOR, "#board svg")
    board.send_keys(Keys.ARROW_UP)
    for key, steps in (("", 0), ("P", 1), ("K", 6)):
        board = user.d.find_element(By.CSS_SELECTOR, "#board svg")
        for _ in range(steps):
            user.keys(Keys.ARROW_RIGHT)
        if steps == 1:
            user.keys(Keys.ARROW_UP)
        if key:
            user.keys(key)
    for _ in range(3):
        user.keys(Keys.ARROW_UP)
    user.keys(Keys.ARROW_LEFT, "k")
    assert user.js("return document.getElementById('fen').value") == FEN, user.js(
        "return document.getElementById('fen').value"
    )
    user.until("!document.getElementById('start').disabled", 60)
    user.by("start").send_keys(Keys.ENTER)
    user.until("document.getElementById('san')", 60)
    user.settle()
    user.keys("m")
    user.keys("1. Kg3 Kf5 2. Kf3 Ke5", Keys.ENTER)
    user.settle()
    assert user.text("stamp") == "sound"
    user.by("san").send_keys(Keys.TAB)
    user.press_on("#board svg")
    user.keys(Keys.HOME)
    user.settle()
    user.keys(Keys.ARROW_RIGHT)
    user.settle()
    heard = "white king g3, the only move that works, White mates in 27"
    user.until(f"document.getElementById('spoken').textContent.includes('{heard}')")
    user.keys(Keys.DELETE)
    user.settle()
    assert not user.d.find_elements(By.CSS_SELECTOR, ".tree [data-path]")
    user.control("z")
    user.settle()
    assert len(user.d.find_elements(By.CSS_SELECTOR, ".tree [data-path]")) == 4


def test_undo_and_redo_of_everything(user):
    user.set_up(FEN, "white win")
    for san in ("Kg3", "b4"):
        user.go("root")
        user.play(san)
    user.fill("tagWhite", "A. Composer")
    user.choose("aimGoal", "draw")
    user.click("setUp")
    user.fill("fen", "8/8/8/7k/8/8/1P5K/8 w - - 0 1")
    user.until("document.getElementById('startEmpty') && !document.getElementById('startEmpty').disabled")
    user.click("start")
    user.settle()
    texts = [user.promise("studyboard.script()")]
    while not user.js("return document.getElementById('undo').disabled"):
        user.click("undo")
        user.settle()
        texts.append(user.promise("studyboard.script()"))
    assert len(texts) == 6 and texts[-1].split("\n")[0] == "position " + FEN, texts
    for text in reversed(texts[:-1]):
        user.click("redo")
        user.settle()
        assert user.promise("studyboard.script()") == text


def test_faults_and_their_repairs(user):
    user.set_up("8/k1P5/2K5/8/8/8/8/8 w - - 0 1", "white mate 2")
    user.play("c8=Q")
    user.until("document.querySelector('.faults')", 30, "the facts")
    user.until("document.getElementById('stamp').textContent === 'fails at 1. c8=Q'")
    assert "throws it away" in user.by("mend").text
    user.picture("fault")
    user.go("root")
    user.play("c8=R")
    user.until(
        "[...document.querySelectorAll('.faults button')].some(b => b.textContent === 'Put c8=R first')", 30, "a repair"
    )
    user.d.find_element(By.XPATH, "//button[text()='Put c8=R first']").click()
    user.settle()
    assert user.text("stamp") == "sound"
    user.until("document.querySelector('#ends .add')")
    user.d.find_element(By.XPATH, "//*[@id='ends']//button[text()='add the line']").click()
    user.settle()
    assert user.text("stamp") == "sound" and "Ra8#" in user.text("tree")


def test_where_else(user):
    user.set_up(FEN, "white win")
    user.click("setUp")
    user.until("document.getElementById('survey')")
    user.choose("surveyMan", "15")
    user.until("document.getElementById('stands')")
    assert "g2 (Kg3), h3 (Kg3)" in user.text("stands"), user.text("stands")
    user.picture("survey")
    user.press("h3")
    user.until("document.getElementById('judged').textContent.includes('correct')")
    assert user.js("return document.getElementById('fen').value").startswith("8/8/8/6k1/8/7K/1P6/8 w")


def composed(user, fen, aim, most=30):
    """Follows what the page offers: the only move of the hero, the best defence; ends before the first dual."""
    user.set_up(fen, aim)
    for _ in range(most):
        only = user.d.find_elements(By.CSS_SELECTOR, ".moves .chip.only")
        chips = only or user.d.find_elements(By.CSS_SELECTOR, ".moves .chip.reply")
        if not chips:
            break
        user.js("arguments[0].click()", chips[0])
        user.settle()
    # (a main defence may be missing: only the best one is followed)
    assert user.text("stamp").split(";")[0] == "sound", user.text("stamp")
    return len(user.d.find_elements(By.CSS_SELECTOR, ".tree [data-path]"))


def test_studies_from_nothing(user):
    assert composed(user, FEN, "white win") > 10
    user.picture("kpk")
    user.open_tables(TABLES, "KK KQK KRK KBK KNK KPK KQKR KRKR KRKB KRKN KRKP".split())
    assert composed(user, "8/2P5/8/8/3r4/8/2K5/k7 w - - 0 1", "white mate 7") > 2
    user.picture("krkp")


def test_a_study_from_a_node(user):
    sample(user)
    user.go("0.0")
    user.click("setUp")
    user.click("fromNode")
    user.until("document.getElementById('startEmpty') && !document.getElementById('startEmpty').disabled")
    user.click("startEmpty")
    user.settle()
    assert user.promise("studyboard.script()").startswith(
        "position 8/8/8/5k2/8/6K1/1P6/8 w - - 2 2\nstipulate white win\n"
    )
    assert not user.d.find_elements(By.CSS_SELECTOR, ".tree [data-path]")


def test_reload_in_the_middle(user):
    sample(user)
    user.go("0.0")
    user.play("Kf3")
    script = user.promise("studyboard.script()")
    user.d.refresh()
    user.until("document.getElementById('stamp')")
    user.idle()
    assert user.promise("studyboard.script()") == script and user.promise("studyboard.path()") == "0.0.0"


def test_a_stop_leaves_all_as_it_was(user):
    sample(user)
    before = user.promise("studyboard.script()")
    user.click("new")
    user.fill("fen", "8/8/1KP5/3r4/8/8/8/k7 w - - 0 1")
    user.until("document.getElementById('buildNow')")
    user.click("start")
    user.until("!document.getElementById('progress').hidden")
    time.sleep(1)
    began = time.time()
    user.picture("progress")
    user.click("stop")
    user.until("document.getElementById('progress').hidden")
    assert time.time() - began < 5
    user.settle()
    assert "Stopped" in user.text("setup") and user.promise("studyboard.script()") == before
    user.click("cancel")
    user.go("root")
    assert user.text("stamp") == "sound"


def test_forged_and_damaged_tables(user):
    sample(user)
    put_forged(user, "KQK")
    assert kept(user, "KQK") != digest("KQK")
    user.d.refresh()
    user.until("document.getElementById('stamp')", 60)
    user.idle()
    assert user.text("stamp") == "sound" and kept(user, "KQK") == digest("KQK")
    bad = os.path.join(os.environ.get("TMPDIR", "/tmp"), "KRK.dtm")
    with open(os.path.join(TABLES, "KRK.dtm"), "rb") as file:
        data = bytearray(file.read())
    data[5000] ^= 1
    with open(bad, "wb") as file:
        file.write(data)
    user.by("tableFiles").send_keys(bad)
    user.until("document.getElementById('sayBoard').textContent.includes('KRK')")
    assert "Nothing was taken" in user.text("sayBoard")
    os.remove(bad)


def test_hostile_texts_are_texts(user):
    tags = (
        'tag Event <img src=x onerror=alert(1)><script>alert(2)</script>\ntag White "><b>b\n<script>alert(3)</script>\n'
    )
    script = f"position {FEN}\nstipulate white win\n{tags}insert root Kg3\n"
    user.promise("studyboard.open(a[0])", script)
    user.settle()
    assert (
        user.by("head").find_element(By.TAG_NAME, "h1").text == "<img src=x onerror=alert(1)><script>alert(2)</script>"
    )
    assert not user.d.find_elements(By.CSS_SELECTOR, "#right img, #right script, h1 b")
    assert "1 line of the script was refused" in user.text("texts")
    user.picture("hostile")
    before = user.promise("studyboard.script()")
    user.fill("script", "tag Event " + "x" * 2000)
    user.click("runScript")
    user.settle()
    assert user.promise("studyboard.script()") == before and "1024" in user.text("texts")
    user.js("localStorage.setItem('studyboard', '{\"script\": 7')")
    user.d.refresh()
    user.idle()
    assert user.has("man" + "K") or "refused" in user.text("texts")


def test_a_pgn_where_a_script_is_meant(user):
    with open(os.path.join(TOP, "examples", "kpk_opposition.expected"), encoding="utf-8") as file:
        pgn = re.search(r"\[Event [\s\S]*?\n\n[\s\S]*?\n\n", file.read()).group(0)
    user.open_tables(TABLES, SMALL)
    user.promise("studyboard.open(a[0])", pgn)
    user.settle()
    assert user.promise("studyboard.pgn()") == pgn
    user.promise("studyboard.open(a[0])", '[Event "x"]\n\n1. e4 *\n')
    assert (
        "Nothing was changed" in user.js("return document.body.textContent") and user.promise("studyboard.pgn()") == pgn
    )


PASTE = """const field = document.getElementById(arguments[0]) || document.body, data = new DataTransfer();
field.focus();
data.setData('text/plain', arguments[1]);
const pasted = new ClipboardEvent('paste', {clipboardData: data, bubbles: true, cancelable: true});
if (!field.dispatchEvent(pasted) || field.value === undefined) return;
document.execCommand('insertText', false, arguments[1]);
field.dispatchEvent(new Event('change', {bubbles: true}));"""


def alerts(user):
    return user.js("return [...document.querySelectorAll('[role=alert]')].map(e => e.textContent).join(' ')")


def shown_fen(user):
    return user.js("const e = document.getElementById('fen'); return e && e.value")


def test_texts_from_elsewhere(user):
    """Pasted outside of a field, pasted into the field for a position, or dropped: by the look of the text."""
    sample(user)
    fen = "8/3k4/8/3KP3/8/8/8/8 b - - 0 1"
    before = user.promise("studyboard.script()")
    game = f'[White "A"]\n[Result "1-0"]\n[FEN "{FEN}"]\n\n1. Kg3 Kf5 1-0\n'
    script = f"position {FEN}\nstipulate white win\ninsert root Kg3\n"
    user.js(PASTE, "", "prose, and more of it")
    user.settle()
    assert user.text("sayBoard").startswith("This is neither a FEN"), user.text("sayBoard")
    user.js("const e = document.getElementById('san'); e.value = arguments[0]; e.select()", fen)
    user.control("c")
    user.js("document.getElementById('san').value = ''; document.querySelector('#board svg').focus()")
    user.control("v")
    user.settle()
    assert shown_fen(user) == fen
    assert user.text("sayBoard").startswith("The position is set up for a new study"), user.text("sayBoard")
    user.js(PASTE, "", "Kb6 Pc6 / Ka1")
    user.settle()
    assert shown_fen(user) == "8/8/1KP5/8/8/8/8/k7 b - - 0 1"
    user.click("undo")
    user.settle()
    assert shown_fen(user) == fen
    user.click("cancel")
    assert user.promise("studyboard.script()") == before
    user.js(PASTE, "", script)
    user.settle()
    assert user.promise("studyboard.script()") == script
    assert user.text("sayBoard").startswith("The document before is kept"), user.text("sayBoard")
    user.click("new")
    user.js(PASTE, "fen", game)
    user.until("document.getElementById('stamp')")
    user.settle()
    assert user.text("stamp") == "sound" and "tag White A" in user.promise("studyboard.script()")
    user.js(
        """const data = new DataTransfer();
        data.setData('text/plain', arguments[0]);
        document.body.dispatchEvent(new DragEvent('drop', {dataTransfer: data, bubbles: true, cancelable: true}));""",
        script,
    )
    user.settle()
    assert user.promise("studyboard.script()") == script


def test_several_files_at_once(user):
    """Each becomes a document; one that is neither a script nor a PGN is named."""
    script = "position 8/8/8/8/8/k7/p7/K7 w - - 0 1\nstipulate white draw\npgn\n"
    user.js(
        """const data = new DataTransfer();
        for (const [name, text] of arguments[0]) data.items.add(new File([text], name));
        document.dispatchEvent(new DragEvent('drop', {dataTransfer: data, bubbles: true, cancelable: true}))""",
        [["one.script", script], ["bad.txt", "a letter"], ["two.script", script]],
    )
    user.until("document.getElementById('sayBoard').textContent.includes('2 of 3 files opened')")
    assert "bad.txt: This is neither" in user.text("sayBoard"), user.text("sayBoard")
    user.click("documentsButton")
    user.until("document.querySelectorAll('#documents tbody tr').length >= 2")


def test_two_files_as_one_document(user):
    """A second file can be put behind the first, with numbers that go on; Undo takes it away again."""
    game = '[Event "{}"]\n[White "{}"]\n[FEN "8/8/8/6k1/8/8/1P5K/8 w - - 0 1"]\n\n{{White to win}} 1. Kg3 *\n\n'
    both = game.format("One", "A") + game.format("Two", "B")
    files = (("first", "One", both), ("second", "Three", game.format("Three", "C")))
    for name, title, text in files:
        user.open_file(name + ".pgn", text)
        user.until(f"document.getElementById('head').innerText.includes('{title}')", 60)
        user.settle()
        assert user.has("join") == (name == "second")
        if name == "first":
            user.click("copyStudy")
            user.settle()
    assert "Before stood first" in user.text("join") and "with 3 studies" in user.text("join"), user.text("join")
    user.click("joinFiles")
    user.until("document.querySelectorAll('#list tbody tr').length === 4", 60)
    user.settle()
    cells = "row => [0, 1].map(i => row.cells[i].innerText)"
    rows = user.js(f"return [...document.querySelectorAll('#list tbody tr')].map({cells})")
    assert rows == [["1", "One"], ["3", "One"], ["2", "Two"], ["4", "Three"]], rows
    assert user.text("head").startswith("Three") and "from No. 4 on" in user.text("sayBoard"), user.text("sayBoard")
    assert user.text("notKept").startswith("first.pgn and second.pgn: 3 games, 4 studies."), user.text("notKept")
    assert user.download("savePgn")[0] == "first.joined.pgn" and user.text("notKept").endswith("first.joined.pgn.")
    user.click("undo")
    user.settle()
    assert user.js("return document.querySelectorAll('#list tbody tr').length") == 3


def test_several_files_as_one_document(user):
    """Documents that are ticked become one more, in the order in which they were opened; each of them stays."""
    game = '[Event "{}"]\n[White "{}"]\n[FEN "8/8/8/6k1/8/8/1P5K/8 w - - 0 1"]\n\n{{White to win}} 1. Kg3 *\n\n'
    folder, paths = tempfile.mkdtemp(), []
    for name, titles in (("a", ("One", "Two")), ("b", ("Three",)), ("c", ("Four", "Five"))):
        paths.append(os.path.join(folder, name + ".pgn"))
        with open(paths[-1], "w", encoding="utf-8") as file:
            file.write("".join(game.format(title, "Somebody") for title in titles))
    user.by("file").send_keys("\n".join(paths))
    user.until("document.getElementById('sayBoard').textContent.includes('3 of 3 files opened')", 60)
    user.settle()
    assert "Documents can join them" in user.text("sayBoard")
    user.click("documentsButton")
    user.until("document.querySelectorAll('#documents [data-tick]').length === 3")
    assert user.js("return document.getElementById('joinKept').disabled")
    for at in range(3):
        user.js("document.querySelectorAll('#documents [data-tick]')[arguments[0]].click()", at)
    user.click("joinKept")
    user.until("document.querySelectorAll('#list tbody tr').length === 5", 60)
    user.settle()
    cells = "row => [0, 1].map(i => row.cells[i].innerText)"
    rows = user.js(f"return [...document.querySelectorAll('#list tbody tr')].map({cells})")
    assert rows == [["1", "One"], ["2", "Two"], ["3", "Three"], ["4", "Four"], ["5", "Five"]], rows
    assert user.text("sayBoard").startswith("One document of a, b, c, in this order"), user.text("sayBoard")
    assert user.text("notKept").startswith("a.pgn and b.pgn and c.pgn: 5 games, 5 studies."), user.text("notKept")
    assert user.download("savePgn")[0] == "a.joined.pgn"
    user.click("documentsButton")
    user.until("document.querySelectorAll('#documents tbody tr').length === 4")


def test_a_code_page_is_chosen_before_files_are_joined(user):
    """Once they are joined it cannot be: the page says so beside the button, until a code page is chosen."""
    game = '[Event "{}"]\n[White "{}"]\n[FEN "8/8/8/6k1/8/8/1P5K/8 w - - 0 1"]\n\n{{White to win}} 1. Kg3 *\n\n'
    user.open_file("first.pgn", game.format("One", "A"))
    user.until("document.getElementById('head').innerText.includes('One')", 60)
    user.settle()
    path = os.path.join(tempfile.mkdtemp(), "second.pgn")
    with open(path, "wb") as file:
        file.write(game.format("Two", "Троицкий").encode("cp1251"))
    user.by("file").send_keys(path)
    user.until("document.getElementById('codeFirst')", 60)
    user.settle()
    assert user.text("codeFirst").startswith("Choose the code page of its letters first"), user.text("join")
    user.press_on('[data-code="windows-1251"]')
    user.until("document.getElementById('head').innerText.includes('Троицкий')", 60)
    user.settle()
    assert user.has("joinFiles") and not user.has("codeFirst")
    user.click("joinFiles")
    user.until("document.querySelectorAll('#list tbody tr').length === 2", 60)
    user.settle()
    assert "The tags of game 2 have letters that are no UTF-8, read as Cyrillic" in user.text("notKept")
    assert '[White "Троицкий"]' in user.download("savePgn")[1]


def test_files_of_an_older_code_are_named(user):
    """Of several files those are named whose letters may be wrong, since the page offers the codes of one alone."""
    game = '[Event "?"]\n[White "{}"]\n[FEN "8/8/8/6k1/8/8/1P5K/8 w - - 0 1"]\n\n{{White to win}} 1. Kg3 *\n\n'
    files = [("cz.pgn", "Jelínek", "cp1250"), ("utf8.pgn", "Jelínek", "utf-8"), ("plain.pgn", "Troitzky", "ascii")]
    user.js(
        """const data = new DataTransfer();
        for (const [name, bytes] of arguments[0]) data.items.add(new File([new Uint8Array(bytes)], name));
        document.dispatchEvent(new DragEvent('drop', {dataTransfer: data, bubbles: true, cancelable: true}))""",
        [[name, list(game.format(author).encode(code))] for name, author, code in files],
    )
    user.until("document.getElementById('sayBoard').textContent.includes('3 of 3 files opened')")
    said = "With letters of an older code, read as Latin 1: cz.pgn; open each alone to choose the code."
    assert said in user.text("sayBoard"), user.text("sayBoard")


def test_a_link_to_the_study(user):
    sample(user)
    user.js(
        """Object.defineProperty(navigator, 'clipboard',
            {value: {writeText: async text => { window.copied = text; }}});"""
    )
    before = user.promise("studyboard.script()")
    user.click("copyLink")
    user.until("window.copied")
    user.settle()
    link = user.js("return window.copied")
    assert user.text("sayBoard").startswith(f"Copied: a link of {len(link)} letters"), user.text("sayBoard")
    user.open("#" + link.split("#")[1])
    user.until("document.getElementById('stamp')", 60)
    user.settle()
    assert user.promise("studyboard.script()") == before
    assert user.text("sayBoard").startswith("Opened by the link in the address"), user.text("sayBoard")


def test_a_paste_of_any_length_ends(user):
    """Into each field: within seconds, however busy the machine is, with a sentence, and nothing has changed."""
    sample(user)
    before = user.promise("studyboard.script()")
    fields = (
        ("san", "Kg3 Kf5 " * 250, "A line has at most 256 plies"),
        ("san", "Kg3 Kf5 " * 25000, "the field for moves takes 65,536"),
        ("tagEvent", "x" * 200000, "this field takes 200"),
        ("script", "tag Event x\n" * 200000, "the field for a script takes 200,000"),
    )
    for name, text, said in fields:
        user.js(PASTE, name, text)
        user.settle()
        assert said in alerts(user), (name, alerts(user))
        assert user.promise("studyboard.script()") == before
    user.js("document.getElementById('new').click()")
    user.js(PASTE, "fen", "8/" * 100000)
    assert "the field for a position takes 200" in alerts(user), alerts(user)
    user.js("document.getElementById('cancel').click()")
    user.js(FILL, "script", before + "insert 9.9 Ka1\n" * 9000)
    user.js("document.getElementById('runScript').click()")
    user.until("document.getElementById('refused')")
    assert "9000 lines of the script were refused" in user.text("texts")
    assert "These are the first 200; 8800 more lines below them." in user.text("texts")


def test_a_script_in_the_address(user):
    from urllib.parse import quote

    user.open_tables(TABLES, SMALL)
    user.open("#script=" + quote(f"position {FEN}\nstipulate white win\ninsert root Kg3\n"))
    user.until("document.getElementById('stamp')")
    assert user.text("stamp") == "sound"


def test_several_studies(user):
    user.open_tables(TABLES, SMALL)
    user.set_up(FEN, "white win")
    user.fill("tagWhite", "First")
    user.set_up("8/3k4/8/3KP3/8/8/8/8 b - - 0 1", "black draw", first=False)
    assert user.text("stamp") == "correct, no solution yet"
    assert "Untitled" in user.text("head") and "First" not in user.text("head")
    assert user.js("return document.getElementById('studies').options.length") == 2
    user.choose("studies", "0")
    assert "First" in user.text("head")
    user.picture("two")


def test_a_study_given_twice(user):
    """A `pgn` line before the last edit of a study has its game in the page's PGN and report, as in studybench's."""
    with open(os.path.join(TOP, "examples", "kpk_rook_pawn_wrong.script"), encoding="utf-8") as file:
        script = re.sub(r"^build .*\n", "", file.read(), flags=re.M)
    with open(os.path.join(TOP, "examples", "kpk_rook_pawn_wrong.expected"), encoding="utf-8") as file:
        games = re.findall(r"\[Event [\s\S]*?\n\n[\s\S]*?\n\n", file.read())
    user.open_tables(TABLES, SMALL)
    user.promise("studyboard.open(a[0])", script)
    user.settle()
    assert len(games) == 2 and user.promise("studyboard.pgn()") == "".join(games)
    user.until("document.getElementById('stamp').textContent === 'cook: 1... Kc7'")
    assert "White to win: does not win" in user.text("verdictsBefore")


def test_from_study_to_study(user):
    user.open_tables(TABLES, SMALL)
    one = f"position {FEN}\nstipulate white win\ninsert root Kg3\n"
    user.promise("studyboard.open(a[0])", one + "tag White First\ntag Date 1895.??.??\n" + one + "insert root Kg9\n")
    user.settle()
    assert "refused" in user.text("sayBoard") and user.text("refused") == "1 line of the script was refused"
    user.keys(Keys.PAGE_DOWN)
    user.settle()
    assert user.js("return document.getElementById('studies').value") == "1" and user.by("after").get_attribute(
        "disabled"
    )
    user.click("clearOld")
    user.settle()
    assert not user.has("clearOld") and "First" not in user.text("head")
    user.click("before")
    user.settle()
    assert "First" in user.text("head") and "1895" in user.text("head")


def test_report(user):
    sample(user)
    script = user.promise("studyboard.script()")
    answer = user.promise("studyboard.report(a[0])", script + "pgn\ndance <b>\n")
    assert answer.startswith("<!DOCTYPE html>\n") and answer.endswith("</body></html>\n")
    assert '<article id="e1">' in answer
    assert "<code>dance &lt;b&gt;</code> <b>UnknownCommand</b>: " in answer and "<b>\n" not in answer
    tags = Tags()
    tags.feed(answer)
    assert tags.count("article") >= 1 and tags.count("script") == 0
    assert '<span class="stamp sound">sound</span>' in answer
    shown = user.js("return ['saveMenu', 'saveReport'].map(id => document.getElementById(id).checkVisibility())")
    assert shown == [True, False], shown


def test_a_report_waits_for_its_tables(user):
    """Where tables lack, the report says so and is saved once they are built, with the pages of all studies."""
    lines = "position k7/8/1K6/8/8/8/8/2R5 w - - 0 1\nstipulate white mate 1\ninsert root Rc8#\n"
    user.open_file("mate.script", lines)
    user.until("document.getElementById('head').innerText.includes('Untitled')")
    name, text = user.download("saveReport")
    assert name == "mate.html" and '<span class="stamp sound">sound</span>' in text, text[-2000:]
    user.until("document.getElementById('progress').hidden")
    assert "waits for" not in user.text("sayBoard")


def test_no_request_is_made(user):
    sample(user)
    assert not user.requests()
    blocked = user.promise("fetch('https://example.org/').then(() => 'went out', e => 'refused')")
    assert blocked == "refused"


def test_phone(user):
    user.end()
    user.__init__(phone=True)
    user.picture("phone_first")
    sample(user)
    assert user.js("return document.documentElement.scrollWidth") <= 390
    user.press("h2")
    user.press("g3")
    user.settle()
    assert user.text("value").startswith("After 1. Kg3")
    top = "id => document.getElementById(id).getBoundingClientRect().top"
    tops = user.js(f"return ['nav', 'verdict', 'here'].map({top})")
    assert tops == sorted(tops), tops
    user.picture("phone")
    user.click("setUp")
    user.settle()
    user.picture("phone_setup")
    assert user.js("return document.documentElement.scrollWidth") <= 390


run(globals(), sys.argv[2:], lambda name, user: user.no_faults() if name != "no_request_is_made" else None)
