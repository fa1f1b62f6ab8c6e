"""What a long PGN takes: memory, processor time, and how long the page stands still.

    memory.py TABLES [GAMES [PGN]]

TABLES has all 36; all are opened. The games, 3000 where no number is named, are those of examples/import again and
again, or those of a file, each with a number for its title. Memory is what all processes of the browser have beside the
pages of files (Pss_Anon and Pss_Shmem of /proc/PID/smaps_rollup; an empty page takes 160 MB of it), the largest of a
sample each fifth of a second. Exit status 1 if it is more than 600 MB with up to 3000 games, or if the process of the
page, which the browser's own task manager shows for a tab, has more than 500 MB when more games are opened. A stall is
the longest time in which the page took no input; `page` is the time of a processor that its own thread took.
"""
import glob
import os
import re
import sys
import threading
import time

from user import TOP, User

TABLES = os.path.abspath(sys.argv[1])
MOST = int(sys.argv[2]) if len(sys.argv) > 2 else 3000
LIMIT = 600 if MOST <= 3000 else 500
WATCH = """window.stalls = [];
let before = performance.now();
(function watch() {
    const now = performance.now();
    stalls.push(now - before);
    before = now;
    setTimeout(watch, 20);
})()"""


def processes(top):
    """This process and all below it."""
    children = {}
    for path in glob.glob("/proc/[0-9]*/stat"):
        try:
            with open(path, encoding="latin-1") as file:
                pid, rest = file.read().split(" ", 1)
        except OSError:
            continue
        children.setdefault(int(rest.rsplit(")", 1)[1].split()[1]), []).append(int(pid))
    found, open_ = [], [top]
    while open_:
        found.append(open_.pop())
        open_ += children.get(found[-1], [])
    return found


def read(pid, name):
    try:
        with open(f"/proc/{pid}/{name}", encoding="latin-1") as file:
            return file.read()
    except OSError:
        return ""


class Watch(threading.Thread):
    """The memory of a browser in MB: the sum of its processes, and the largest of them."""

    def __init__(self, top):
        super().__init__(daemon=True)
        self.top, self.most, self.largest, self.now, self.ended = top, 0, 0, 0, False

    def run(self):
        while not self.ended:
            sizes = []
            for pid in processes(self.top):
                if "chrom" in read(pid, "comm") and "driver" not in read(pid, "comm"):
                    kinds = dict(re.findall(r"^(\w+): +(\d+)", read(pid, "smaps_rollup"), re.M))
                    sizes.append(sum(int(kinds.get(kind, 0)) for kind in ("Pss_Anon", "Pss_Shmem")) / 1000)
            self.now = sum(sizes)
            if self.now > self.most:
                self.most, self.largest = self.now, max(sizes, default=0)
            time.sleep(0.2)

    def begin(self):
        self.most = self.largest = 0

    def spent(self):
        """Seconds of a processor, of processes that are still there."""
        ticks = [read(pid, "stat").rsplit(")", 1)[-1].split()[11:13] for pid in processes(self.top)]
        return sum(int(n) for row in ticks for n in row) / os.sysconf("SC_CLK_TCK")


def games():
    """Texts of games, each without its title."""
    path = sys.argv[3] if len(sys.argv) > 3 else os.path.join(TOP, "examples", "import", "three_games.pgn")
    with open(path, encoding="utf-8") as file:
        list_ = re.split(r'^(?=\[Event ")', file.read(), flags=re.M)
    return [re.sub(r'\[Event "[^\n]*\n', "", game) for game in list_ if game.strip()]


def page_time(user):
    """Seconds of a processor of the page's own thread."""
    rows = user.d.execute_cdp_cmd("Performance.getMetrics", {})["metrics"]
    return next(row["value"] for row in rows if row["name"] == "TaskDuration")


def stage(user, watch, name, act):
    watch.begin()
    user.js("stalls.length = 0")
    began, spent, page = time.time(), watch.spent(), page_time(user)
    act()
    user.settle()
    seconds, stall = time.time() - began, user.js("return Math.max(0, ...stalls)") / 1000
    print(
        f"{name}: at most {watch.most:.0f} MB ({watch.largest:.0f} in one process), {watch.now:.0f} at the end;"
        f" {seconds:.1f} s, of a processor {watch.spent() - spent:.1f} s, page {page_time(user) - page:.2f} s;"
        f" longest stall {stall:.2f} s",
        flush=True,
    )
    return watch.most if MOST <= 3000 else watch.largest


def walk(user, steps):
    """From study to study, by the key, each shown before the next."""
    for _ in range(steps):
        before = user.js("return document.getElementById('studies').value")
        user.js("document.getElementById('after').click()")
        user.until(f"document.getElementById('studies').value !== '{before}'", 60)
        user.until("document.getElementById('stamp')", 60)


def change(user):
    user.fill("tagEvent", "One more title")
    user.until("document.getElementById('list').textContent.includes('One more title')", 60)


def begin(user):
    user.js(WATCH)
    user.d.execute_cdp_cmd("Performance.enable", {"timeDomain": "threadTicks"})


def main():
    user = User()
    watch = Watch(user.d.service.process.pid)
    watch.start()
    begin(user)
    rows = [stage(user, watch, "an empty page", lambda: time.sleep(2))]
    names = [os.path.basename(path)[:-4] for path in sorted(glob.glob(TABLES + "/*.dtm"))]
    rows.append(stage(user, watch, f"{len(names)} tables opened", lambda: user.open_tables(TABLES, names)))
    texts = games()
    text = "".join(f'[Event "No. {n + 1}"]\n{texts[n % len(texts)]}' for n in range(MOST))
    user.open()
    begin(user)

    def opened():
        user.open_file("many.pgn", text)
        user.until("document.querySelectorAll('#studies option').length > 1", 600)
        user.until("document.getElementById('stamp')", 600)

    opening = stage(user, watch, f"{MOST} games opened, {len(text) / 1000:.0f} kB", opened)
    rows.append(opening)
    rows.append(stage(user, watch, "a title changed", lambda: change(user)))
    rows.append(stage(user, watch, "100 studies one after the other", lambda: walk(user, 100)))
    if user.has("findFaults"):

        def found():
            user.click("findFaults")
            user.until("!document.getElementById('findFaults')", 1200)

        rows.append(stage(user, watch, "all faults found", found))
        rows.append(stage(user, watch, "30 more studies", lambda: walk(user, 30)))
    watch.ended = True
    user.end()
    most = max(rows) if MOST <= 3000 else opening
    print(f"{'the browser' if MOST <= 3000 else 'the page, opening'}: at most {most:.0f} MB, of {LIMIT}")
    sys.exit(most > LIMIT)


main()
