"""How long a user waits: a move, a walk, the facts, a survey, a move in a large tree, and until the page is ready.

    speed.py TABLES
"""
import random
import statistics
import sys
import time

from selenium.webdriver.common.action_chains import ActionChains
from user import User

SAAVEDRA = "KK KQK KRK KBK KNK KPK KQKR KRKR KRKB KRKN KRKP".split()
WATCH = """
window.measured = [];
const drawn = () => new Promise(ok => requestAnimationFrame(() => setTimeout(ok)));
window.timed = async (act, done) => {
    const began = performance.now();
    act();
    while (!done()) await new Promise(ok => {
        const c = new MessageChannel();
        c.port1.onmessage = ok;
        c.port2.postMessage(0);
    });
    const shown = performance.now() - began;
    await drawn();
    return [shown, performance.now() - began];
};
"""
COUNT = "document.querySelectorAll('.tree [data-path]').length"
PRESS = "() => document.querySelector('.moves [data-san=\"' + a[0] + '\"]').click()"


def first(user):
    user.js("document.getElementById('first').click()")
    user.settle()


def move(user, san):
    """A move below the board is pressed: it is in the tree, and drawn."""
    before = user.js("return " + COUNT)
    return user.promise(f"timed({PRESS}, () => {COUNT} > a[1])", san, before)


def drop(user, here, there, rest=0.25):
    """A man is dragged: from its drop until the move is in the tree, and drawn."""
    before = user.js("return " + COUNT)
    user.js(
        """const isDone = () => document.querySelectorAll('.tree [data-path]').length > arguments[0];
        const time = timed.bind(null, () => {}, isDone), options = {once: true, capture: true};
        window.dropped = new Promise(ok => document.addEventListener('pointerup', () => ok(time()), options))""",
        before,
    )
    (x, y), (u, v) = user.point(here), user.point(there)
    mouse = ActionChains(user.d, duration=20)
    at = mouse.w3c_actions.pointer_action
    at.move_to_location(x, y)
    at.pointer_down()
    for k in range(1, 6):
        at.move_to_location(x + (u - x) * k // 5, y + (v - y) * k // 5)
    at.pause(rest)
    at.pointer_up()
    mouse.perform()
    return user.promise("dropped")


def large(user, moves, dice):
    """A script with so many moves: of White one at each node by chance, of which most have duals, and up to five
    answers of Black."""
    start, lines, level = "position 8/8/8/4k3/8/8/8/R3K3 w - - 0 1\nstipulate white win\n", [], ["root"]
    loads = "".join(f"load {name}\n" for name in SAAVEDRA)
    while len(lines) < moves:
        asked = start + "".join(lines) + "".join(f"moves {path}\n" for path in level)
        answer = user.promise("studyboard.run(a[0], 1000)", loads + asked).split("\n")[-len(level) - 1 : -1]
        below = []
        for path, sans in zip(level, answer):
            white = path == "root" or path.count(".") % 2 == 1
            for k, san in enumerate(dice.sample(sans.split()[2:], min(len(sans.split()) - 2, 1 if white else 5))):
                if len(lines) < moves:
                    lines.append(f"insert {path} {san}\n")
                    below.append(str(k) if path == "root" else f"{path}.{k}")
        level = below
    return start + "".join(lines)


def reloads(user):
    """Until the verdict stands, as the page counts, and as the user waits."""
    user.d.execute_cdp_cmd(
        "Page.addScriptToEvaluateOnNewDocument",
        {
            "source": """new MutationObserver(() => {
                if (!window.stamped && document.getElementById('stamp')) window.stamped = performance.now();
            }).observe(document, {childList: true, subtree: true})"""
        },
    )
    ready = []
    for _ in range(5):
        began = time.time()
        user.d.refresh()
        user.until("document.getElementById('stamp')", 60)
        ready.append([user.js("return stamped"), 1000 * (time.time() - began)])
    return ready


def in_large_tree(user):
    user.js(WATCH)
    user.promise("studyboard.open(a[0])", large(user, 504, random.Random(504)))
    trees = {
        "a move in a tree of 504 moves with many faults": "root 0.0 0.1 0.2 0.3",
        "the same, one after the other": "0.0.0.0 0.0.0.1 0.1.0.0 0.1.0.1 0.2.0.0",
    }
    rows = {}
    for name, paths in trees.items():
        rows[name] = []
        for path in paths.split():
            user.go(path)
            if "after" not in name:
                user.until("document.getElementById('ends')", 60)
            rows[name].append(
                move(
                    user,
                    user.js("return document.querySelector('.moves [data-san]:not(.in)').getAttribute('data-san')"),
                )
            )
    return rows


def main():
    user = User()
    user.open_tables(sys.argv[1], SAAVEDRA)
    user.click("sample2")
    user.until("document.getElementById('stamp') && document.getElementById('ends')", 60)
    user.js(WATCH)
    rows = {}
    current = "document.querySelector('.m.now')?.getAttribute('data-path')"
    walk = (
        f"timed(() => document.querySelector('.tree [data-path=\"' + a[0] + '\"]').click(), () => {current} === a[0])"
    )
    rows["a walk"] = [user.promise(walk, path) for path in ("0", "0.0", "0.0.0", "0.0.0.0", "0.0.1", "1", "1.0")]
    rows["a move"] = []
    for san in ("Ka6", "Ka7", "Kc7"):
        first(user)
        rows["a move"].append(move(user, san))
    rows["a move by the mouse, from its drop"] = []
    for there in ("d4", "d3", "e5"):
        user.go("0")
        rows["a move by the mouse, from its drop"].append(drop(user, "d5", there))
    user.until("document.getElementById('ends')", 60)
    user.go("0")
    before = user.js("return " + COUNT)
    found = (
        f"{COUNT} > a[1] && !document.getElementById('review').textContent.includes('being found') &&"
        " document.getElementById('ends')"
    )
    rows["a move with its facts"] = [user.promise(f"timed({PRESS}, () => {found})", "Rd8", before)]
    user.click("setUp")
    user.until("document.getElementById('survey')", 60)
    rows["a survey"] = [
        user.promise("timed(() => document.getElementById('survey').click(), () => document.getElementById('stands'))")
    ]
    user.click("cancel")
    rows["ready after a reload"] = reloads(user)
    rows.update(in_large_tree(user))
    for name, list_ in rows.items():
        print(
            f"{name}: median {statistics.median(t for t, _ in list_):.0f} ms, drawn"
            f" {statistics.median(d for _, d in list_):.0f} ms, of {len(list_)}"
        )
    user.end()


main()
