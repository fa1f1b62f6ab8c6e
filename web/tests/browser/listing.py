"""The list of entries: what it says while facts are being found, how much of it is seen, and what it is on paper.

    listing.py TABLES [NAME ..]

TABLES has those of two and three men at least; what needs more is left out where they are not there.
"""
import os
import sys

from user import Keys, run

TABLES = os.path.abspath(sys.argv[1])
SMALL = "KK KQK KRK KBK KNK KPK".split()
FEN, SQUARES = "8/8/8/6k1/8/8/1P5K/8 w - - 0 1", "8/3k4/8/3KP3/8/8/8/8 w - - 0 1"
GAME = '[Event "{event}"]\n[White "{author}"]\n[Result "1-0"]\n[FEN "{fen}"]\n\n{moves} 1-0\n\n'
STAMPS = """return [...document.querySelectorAll('#list tbody tr')].map(r => {
    const stamp = r.querySelector('.stamped');
    return [r.cells[1].innerText.split('\\n')[0], stamp.innerText, stamp.className.split(' ').pop()];
})"""
FOUND = "document.querySelector('#list tbody') && !document.getElementById('findingFaults')"


def games(*rows):
    return "".join(GAME.format(event=event, author="A. Composer", moves=moves, fen=fen) for event, fen, moves in rows)


def opened(user, text, name="entries.pgn"):
    """The file as it comes: its facts are not waited for."""
    user.open_file(name, text)
    user.until("document.getElementById('stamp')", 60)
    user.settle()


def numbered(sans, first):
    return " ".join(f"{first + i // 2}. {san}" if i % 2 == 0 else san for i, san in enumerate(sans))


KINGS = "Kg3 Kf5 Kf3 Ke5 Ke3 Kd5".split()
ROOK = "8/8/8/8/8/1k6/8/K6R w - - 0 1"
FAULTY = games(("One", FEN, "1. Kg3 Kf5 2. Kf3"), ("Two", FEN, "1. b4 Kf6"),
               ("Three", FEN, "1. Kg3 Kf5 2. Kf3 Ke5 3. Ke3"), ("Four", ROOK, "1. Rh4 Kc3 2. Ka2"))


def test_facts_on_their_way(user):
    """A row whose facts are not known yet says so, and how many are known stands above; then each has its words."""
    user.open_tables(TABLES, SMALL)
    opened(user, FAULTY)
    rows = user.js(STAMPS)
    later = [row for row in rows[1:] if row[1].endswith("…")]
    assert later and all(row[2] == "open" for row in later), rows
    assert all(row[1].split(" ")[0] in ("sound", "1", "2", "3") for row in later), rows
    assert user.text("findingFaults").endswith(f" of {len(rows)}"), user.text("findingFaults")
    user.until(FOUND, 60)
    rows = user.js(STAMPS)
    assert not any("…" in row[1] or row[2] == "open" for row in rows), rows
    assert not any(row[1].endswith("faults") or row[1].endswith("fault") for row in rows), rows
    for n, (_, stamp, _) in enumerate(rows):
        user.choose("studies", f"{n}")
        user.until("studyboard.last().reviewed", 60)
        user.settle()
        assert user.text("stamp") == stamp, (user.text("stamp"), stamp)


def test_what_is_filtered_and_sought_is_of_one_document(user):
    """The list on paper has the rows that are shown, and says by what they are chosen; another file is listed whole."""
    user.open_tables(TABLES, SMALL)
    opened(user, FAULTY)
    user.until(FOUND, 60)
    words = user.js("return document.querySelector('#kinds [data-kind]').innerText")
    user.press_on("#kinds [data-kind]")
    user.js(
        "const e = document.getElementById('findEntry'); e.value = 'o'; e.dispatchEvent(new Event('input'))"
    )
    rows = [row[0] for row in user.js(STAMPS)]
    assert 0 < len(rows) < 4, rows
    wide = user.js("return ['thead', 'tbody'].map(e => document.querySelector('#list ' + e).offsetWidth)")
    assert wide[0] == wide[1], wide
    user.js("dispatchEvent(new Event('beforeprint'))")
    paper = user.js("return document.querySelector('#paper .listed').innerText")
    listed = user.js("return document.querySelectorAll('#paper .listed tbody tr').length")
    user.js("dispatchEvent(new Event('afterprint'))")
    said = f"{len(rows)} of 4 entries: {words.split(' ', 1)[1]}, with “o” in title, author or number."
    assert said in paper and listed == len(rows), (said, paper)
    opened(user, games(("Five", FEN, "1. Kg3 Kf5"), ("Six", FEN, "1. b4 Kf6")), "other.pgn")
    assert [row[0] for row in user.js(STAMPS)] == ["Five", "Six"]
    assert user.js("return document.getElementById('findEntry').value") == ""


def test_the_study_that_is_shown(user):
    """Its row takes the words that stand beside it, before the facts of the others are found."""
    user.open_tables(TABLES, SMALL)
    opened(user, games(("One", FEN, "1. b4 Kf6"), ("Two", FEN, "1. Kg3 Kf5")))
    user.until("document.getElementById('stamp').innerText.startsWith('fails at')", 60)
    assert user.js(STAMPS)[0][1] == user.text("stamp"), user.js(STAMPS)


def test_a_move_in_the_list_keeps_what_is_known(user):
    """Facts are of moves and stipulation: neither another place nor another name has them found again, whatever tags
    the studies take over from each other."""
    user.open_tables(TABLES, SMALL)
    opened(user, f"position {FEN}\nstipulate white win\ntag Event One\ntag Site Riga\ninsert root b4\n\n"
           f"position {FEN}\ntag Event Two\ninsert root Kg3\ninsert 0 Kf5\n\n"
           f"position {ROOK}\ntag Event Three\ntag Site Prague\ninsert root Rh4\ninsert 0 Kc3\n",
           "entries.script")
    user.until(FOUND, 60)
    before = user.js(STAMPS)
    assert before[0][1].startswith("fails at") and "fault" not in before[2][1], before
    for name, order in (("studyDown", (1, 0, 2)), ("studyDown", (1, 2, 0)), ("studyUp", (1, 0, 2))):
        user.js("document.getElementById(arguments[0]).click()", name)
        user.settle()
        assert user.js(STAMPS) == [before[n] for n in order] and not user.has("findingFaults"), user.js(STAMPS)
    user.fill("studyPlace", "3")
    user.settle()
    assert user.js(STAMPS) == [before[n] for n in (1, 2, 0)] and user.js("return studyPlace.value") == "3"
    user.fill("studyPlace", "2")
    user.settle()
    user.fill("tagEvent", "Another title")
    assert [row[1:] for row in user.js(STAMPS)] == [before[n][1:] for n in (1, 0, 2)], user.js(STAMPS)


def test_the_stamp_is_kept_with_the_document(user):
    """Documents and Compare have the words that stand beside the study, after a reload too."""
    user.open_tables(TABLES, SMALL)
    opened(user, games(("Alone", FEN, "1. b4 Kf6")), "alone.pgn")
    user.until("document.getElementById('stamp').innerText.startsWith('fails at')", 60)
    user.settle()
    said = user.text("stamp")
    verdicts = "return [...document.querySelectorAll('#documents tbody tr')].map(r => r.cells[2].innerText)"
    user.click("documentsButton")
    user.until("document.querySelector('#documents tbody')")
    assert user.js(verdicts) == [said], user.js(verdicts)
    user.press_on("[data-copy]")
    user.until("document.querySelectorAll('[data-tick]').length === 2")
    for n in range(2):
        user.js(f"document.querySelectorAll('[data-tick]')[{n}].click()")
    user.click("compare")
    user.until("document.getElementById('sides')", 60)
    assert user.js("return [...document.querySelectorAll('#sides b')].map(b => b.innerText)") == [said, said]


def test_the_list_has_room(user):
    """On a laptop eight rows of thirteen are seen whole, names break between words alone, one line has all filters, and
    what all rows have the same is said once."""
    user.open_tables(TABLES, SMALL)
    names = ["Saavedra, Fernando", "Composer, A.", "Троицкий, А.", "Réti, Richard"]
    text = "".join(GAME.format(event=f"Seventh tourney, {n + 1}", author=names[n % 4], fen=FEN,
                               moves=numbered(KINGS[:1 + n % 6], 1)) for n in range(13))
    opened(user, text)
    user.until(FOUND, 120)
    user.size(1366, 768)
    box = "document.querySelector('#list .scroll').getBoundingClientRect()"
    inner = "r => r.getBoundingClientRect()"
    whole = user.js(f"const box = {box}; return [...document.querySelectorAll('#list tbody tr')].map({inner})"
                    ".filter(r => r.top >= box.top && r.bottom <= box.bottom + 1).length")
    assert whole >= 8, whole
    assert user.js(f"return {box}.bottom") < 700
    assert user.js("return document.getElementById('kinds').offsetHeight") < 50
    broken = user.js("""const range = document.createRange(), broken = [];
        for (const cell of document.querySelectorAll('#list tbody td:nth-child(-n+3)'))
            for (const node of [...cell.childNodes].filter(it => it.nodeType === 3))
                for (const word of node.data.matchAll(/[^ ]+/g)) {
                    range.setStart(node, word.index);
                    range.setEnd(node, word.index + word[0].length);
                    if (range.getClientRects().length > 1) broken.push(word[0]);
                }
        return broken""")
    assert not broken, broken
    assert user.js("const s = document.querySelector('#list .scroll'); return s.scrollWidth <= s.clientWidth")
    assert user.text("shared") == "All stipulations are from the Result." and "(from" not in user.text("rows")
    user.picture("list_room", whole=False)


def test_the_row_of_the_next_study_is_seen(user):
    """By keys and by the menu: the list is scrolled within its box, and neither the page nor a list that is read."""
    user.open_tables(TABLES, SMALL)
    opened(user, games(*((f"Study {n + 1}", FEN.replace("0 1", f"0 {n + 1}"), "") for n in range(70))))
    user.size(1366, 768)
    inside = """const box = document.querySelector('#list .scroll').getBoundingClientRect(),
        row = document.querySelector('#rows [aria-current]').closest('tr').getBoundingClientRect(),
        head = document.querySelector('#list thead').offsetHeight;
        return [row.top >= box.top + head - 1 && row.bottom <= box.bottom + 1, scrollY]"""
    for _ in range(25):
        user.keys(Keys.PAGE_DOWN)
        user.settle()
    assert user.js("return document.querySelector('#rows [aria-current]').innerText") == "26"
    assert user.js(inside) == [True, 0], user.js(inside)
    for n in (69, 3, 64):
        user.choose("studies", f"{n}")
        assert user.js("return document.querySelector('#rows [aria-current]').innerText") == f"{n + 1}"
        assert user.js(inside) == [True, 0], (n, user.js(inside))
    user.js("document.querySelector('#list .scroll').scrollTop = 0")
    user.fill("tagSite", "Riga")
    assert user.js("return document.querySelector('#list .scroll').scrollTop") == 0


def test_facts_go_on_while_others_are_looked_at(user):
    """A look at another study comes first, and then the facts of the rest are found."""
    user.open_tables(TABLES, SMALL)
    lines = [numbered(KINGS[:n], 1) for n in range(1, 7)]
    opened(user, games(*((f"Entry {n}", FEN, moves) for n, moves in enumerate(lines))) + FAULTY)
    for n in (7, 8, 6, 9, 1, 7, 8):
        user.choose("studies", f"{n}")
    user.until(FOUND, 60)
    assert not any("…" in row[1] for row in user.js(STAMPS)), user.js(STAMPS)


def test_page_down_goes_down_the_list(user):
    """Page Down takes the next row as the list is sorted and filtered; a click anywhere in a row opens it."""
    user.open_tables(TABLES, SMALL)
    opened(user, FAULTY)
    user.until(FOUND, 60)
    user.press_on("[data-sort=verdict]")
    order = user.js("return [...document.querySelectorAll('#rows [data-at]')].map(b => Number(b.dataset.at))")
    assert order != sorted(order), order
    shown = "return Number(document.querySelector('#rows [aria-current]').dataset.at)"
    user.press_on("#rows tbody tr td:last-child")
    user.settle()
    assert user.js(shown) == order[0], user.js(shown)
    for at in order[1:]:
        user.keys(Keys.PAGE_DOWN)
        user.settle()
        assert user.js(shown) == at, (user.js(shown), order)
    assert user.js("return document.getElementById('after').disabled")


def mended(user, old, new):
    """The text of the game that is being mended, with other words, is read."""
    text = user.js("return document.getElementById('gameText').value")
    assert text.count(old) == 1, text
    write = "const e = document.getElementById('gameText'); e.value = arguments[0]; e.dispatchEvent(new Event('input'))"
    user.js(write, text.replace(old, new))
    user.click("readGame")


def test_a_game_that_was_left_out_is_mended(user):
    """Whatever is wrong with it, its text is there to be mended: a position, a stipulation, a tag that lacks."""
    user.open_tables(TABLES, SMALL)
    bad = [("One", FEN, "1. Kg3"), ("Two", FEN.replace("5K", "6K"), "1. Kg3 Kf5"), ("Three", FEN, "1. Kg3 Kf5"),
           ("Four", FEN, "1. Kg3 Kf5 2. Kf3")]
    texts = [games(row) for row in bad]
    texts[2] = texts[2].replace('[Result "1-0"]\n', "").replace("1-0", "*")
    texts[3] = texts[3].replace(f'[FEN "{FEN}"]\n', "")
    opened(user, "".join(texts))
    user.until(FOUND, 60)
    assert [row[1] for row in user.js(STAMPS)] == ["sound"] + 3 * ["left out: "], user.js(STAMPS)
    user.press_on('[data-upto="2"]')
    user.until("document.getElementById('gameText')")
    user.picture("mend_game", whole=False)
    assert "Game 2 was left out" in user.text("gameMended") and "Two" in user.js("return gameText.value")
    mended(user, "1P6K", "1P7K")
    user.until("document.querySelector('#gameMended [role=alert]')", 60)
    assert "1P7K" in user.js("return gameText.value")
    assert user.text("gameMended").count("eight squares") == 1, user.text("gameMended")
    user.settle()
    mended(user, "1P7K", "1P5K")
    user.until("!document.getElementById('gameMended')", 60)
    user.settle()
    assert user.text("head").startswith("Two\n\nNo. 2") and user.text("stamp").startswith("sound"), user.text("head")
    user.press_on('[data-upto="3"]')
    user.until("document.getElementById('gameText')")
    user.click("closeGame")
    assert not user.has("gameMended")
    user.press_on('[data-upto="3"]')
    mended(user, "1. Kg3", "{White to win} 1. Kg3")
    user.until("!document.getElementById('gameMended')", 60)
    user.settle()
    user.press_on('[data-upto="4"]')
    mended(user, "\n\n1. Kg3", f'\n[FEN "{FEN}"]\n\n1. Kg3')
    user.until("!document.getElementById('gameMended')", 60)
    user.settle()
    user.until(FOUND, 60)
    rows = user.js(STAMPS)
    assert [row[0] for row in rows] == ["One", "Two", "Three", "Four"] and rows[2][1].startswith("sound"), rows
    assert rows[3][1].startswith("sound"), rows


def test_the_text_of_a_game_that_is_being_mended_is_kept(user):
    """What was typed in two fields and not read yet stands there after a reload, and no more once it was read."""
    user.open_tables(TABLES, SMALL)
    opened(user, games(("One", FEN, "1. Kg3"), ("Two", FEN.replace("5K", "6K"), "1. Kg3"), ("Three", FEN, "1. Ke9")))
    write = "const e = document.getElementById(arguments[0]); e.value = e.value.replace(arguments[1], arguments[2]);"
    write += "e.dispatchEvent(new Event('input', {bubbles: true})); e.dispatchEvent(new Event('change'))"
    user.press_on('[data-upto="2"]')
    user.until("document.getElementById('gameText')")
    user.js(write, "gameText", "1P6K", "1P5K")
    user.press_on('[data-upto="3"]')
    user.until("document.getElementById('gameText') || document.getElementById('cutText')")
    user.settle()
    user.js(write, "cutText", "Ke9", "Kg3")
    user.fill("tagSite", "Praha")
    assert "Kg3" in user.js("return cutText.value")
    user.d.refresh()
    user.idle()
    assert "Kg3" in user.js("return cutText.value") and user.text("stamp").startswith("not read")
    user.click("readAgain")
    user.until("!document.getElementById('cut')", 60)
    user.settle()
    user.press_on('[data-upto="2"]')
    user.until("document.getElementById('gameText')")
    assert "1P5K" in user.js("return gameText.value")
    user.click("readGame")
    user.until("!document.getElementById('gameMended')", 60)
    user.settle()
    user.click("undo")
    user.settle()
    user.press_on('[data-upto="2"]')
    user.until("document.getElementById('gameText')")
    assert "1P6K" in user.js("return gameText.value")


def test_a_look_at_a_game_that_was_left_out(user):
    """The menu shows its text and what is wrong, and changes nothing; a button opens it up to its bad move."""
    user.open_tables(TABLES, SMALL)
    opened(user, games(("One", FEN, "1. Kg3 Kf5"), ("Two", FEN, "1. Kg3 Kf5 2. Kf9")))
    before = user.promise("studyboard.script()")
    user.choose("studies", user.js("return [...studies.options].pop().value"))
    assert "Kf9" in user.text("gameMended") and "Kf9" in user.js("return gameText.value")
    assert user.promise("studyboard.script()") == before and len(user.js(STAMPS)) == 2
    assert user.js("return document.getElementById('undo').disabled")
    user.click("closeGame")
    user.settle()
    user.choose("studies", user.js("return [...studies.options].pop().value"))
    user.click("openUpTo")
    user.until("document.getElementById('cutText')", 60)
    user.settle()
    assert user.text("stamp").startswith("not read: 2. Kf9"), user.text("stamp")
    user.click("undo")
    user.settle()
    user.press_on('[data-upto="2"]')
    user.until("document.getElementById('cutText')", 60)


def test_a_stipulation_behind_other_words_is_offered(user):
    """A game is left out whose comment does not begin with it: a press reads it so, and the comment stays."""
    user.open_tables(TABLES, SMALL)
    texts = games(("One", FEN, "1. Kg3 Kf5"), ("Two", FEN, "{Shakhmaty 1931. White to win} 1. Kg3 Kf5"))
    opened(user, texts.replace("Kg3 Kf5 1-0", "Kg3 Kf5 *").replace('"1-0"', '"*"').replace('"*"', '"1-0"', 1))
    user.until(FOUND, 60)
    assert "a comment says White to win" in user.text("rows"), user.text("rows")
    user.press_on('[data-upto="2"]')
    user.until("document.getElementById('readSaid')")
    user.click("readSaid")
    user.until("!document.getElementById('gameMended')", 60)
    user.settle()
    user.until(FOUND, 60)
    assert user.text("head").startswith("Two") and user.text("stamp").startswith("sound"), user.text("stamp")
    assert user.text("source") == "(from the comment)"
    assert "Shakhmaty 1931. White to win" in user.promise("studyboard.script()")


def test_one_game_that_was_left_out_is_mended(user):
    user.open_tables(TABLES, SMALL)
    user.open_file("one.pgn", games(("One", FEN.replace("5K", "6K"), "1. Kg3 Kf5")))
    user.until("document.querySelector('#toMend [data-held]')", 60)
    user.press_on("#toMend [data-held]")
    user.until("document.getElementById('gameText')")
    mended(user, "1P6K", "1P5K")
    user.until("document.getElementById('stamp')", 60)
    user.settle()
    assert user.text("stamp").startswith("sound") and user.text("head").startswith("One"), user.text("head")


def test_words_in_place_of_a_stipulation(user):
    """Where a comment states the stipulation and words are added, the saved game states it before them."""
    user.open_tables(TABLES, SMALL)
    opened(user, games(("One", FEN, "{White to mate in 30} 1. Kg3")))
    user.fill("note", "First prize.")
    user.settle()
    assert user.text("source") == "(from the comment)"
    saved = user.download("savePlain")[1]
    assert "{White to mate in 30. First prize.} 1. Kg3" in saved, saved
    user.click("new")
    opened(user, saved)
    assert "stipulate white mate 30" in user.js("return document.getElementById('script').value")


def test_games_without_a_stipulation_are_read_alone(user):
    """The offer is for the games that the document still lacks, after a reload and in a reopened script too, and
    leaves the work on the others alone."""
    user.open_tables(TABLES, SMALL)
    texts = [games((name, FEN, "1. Kg3 Kf5")) for name in ("One", "Two", "Three")]
    for n in (1, 2):
        texts[n] = texts[n].replace('[Result "1-0"]\n', "").replace("1-0", "*")
    opened(user, "".join(texts))
    assert user.text("aims").startswith("2 games"), user.text("aims")
    user.fill("tagWhite", "Another")
    user.press_on('[data-upto="2"]')
    mended(user, "1. Kg3", "{White to win} 1. Kg3")
    user.until("!document.getElementById('gameMended')", 60)
    user.settle()
    assert user.text("aims").startswith("1 game "), user.text("aims")
    saved = user.download("saveScript")[1]
    user.d.refresh()
    user.idle()
    assert user.text("aims").startswith("1 game "), user.text("aims")
    user.press_on('[data-import="white draw"]')
    user.until("!document.getElementById('aims')", 60)
    user.settle()
    lines = user.js("return document.getElementById('script').value")
    assert lines.count("stipulate white win") == 2 and lines.count("stipulate white draw") == 1, lines
    assert "tag White Another" in lines and "3 games, 3 studies" in user.text("import"), user.text("import")
    for button, studies in (("drop", 2), ("undo", 3), ("copyStudy", 4)):
        user.click(button)
        user.settle()
        assert f"3 games, {studies} studies." in user.text("import"), user.text("import")
    user.click("undo")
    user.settle()
    user.open_file("saved.script", saved)
    user.until("document.getElementById('aims')", 60)
    user.settle()
    user.press_on('[data-import="white draw"]')
    user.until("!document.getElementById('aims')", 60)
    user.settle()
    assert user.js("return document.getElementById('script').value").count("stipulate white draw") == 1


def test_the_study_that_is_shown_stays_shown(user):
    """Games that are read with a stipulation come to stand in front of it."""
    user.open_tables(TABLES, SMALL)
    first = games(("One", FEN, "1. Kg3 Kf5")).replace('[Result "1-0"]\n', "").replace("1-0", "*")
    opened(user, first + games(("Two", FEN, "1. Kg3 Kf5"), ("Three", FEN, "1. Kg3 Kh5")))
    user.press_on('#list tr:nth-child(3) button')
    user.settle()
    shown = user.by("tagEvent").get_attribute("value")
    user.press_on('[data-import="white win"]')
    user.until("!document.getElementById('aims')", 60)
    user.settle()
    assert user.by("tagEvent").get_attribute("value") == shown == "Three", shown


run(globals(), sys.argv[2:])
