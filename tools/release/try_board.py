#!/usr/bin/env python3
"""The board over the core as it stands in the sources, before any of it is proved: a change is tried in a browser after two minutes.

    tools/release/try_board.py FOLDER [--port N] [--tables TABLES]     makes FOLDER/studyboard.html, and answers it at 127.0.0.1 until it is stopped

FOLDER, outside of the repository, keeps the program until a crate changes, so that a change of web/src is there after a second. The core is a native
program that `rt try` builds, with its checks of memory: it answers some three times as slowly as the module of a page, and nothing is claimed of it.
Tables that the page wants to build are taken from TABLES, if that is named. tools/release/web.sh makes the page that users get. Tests in a browser take
this one by STUDYBOARD=FOLDER/studyboard.html.
"""
import http.server
import json
import os
import re
import select
import shutil
import socket
import socketserver
import struct
import subprocess
import sys
import threading
import time

HERE = os.path.dirname(os.path.abspath(__file__))
TOP = os.path.join(HERE, "..", "..")
PARTS = os.path.join(HERE, "try_board")
CORES = 24  # programs that are kept: a page begins a core for each worker, and says of none that it has ended


def number(n):
    return struct.pack("<Q", n)


def build(folder, program):
    """The program, from a copy of the sources; it is copied while `rt try` runs it over a script that takes some seconds."""
    crate = os.path.join(folder, "crates", "core_pipe")
    for name in ("crates", "room"):
        shutil.rmtree(os.path.join(folder, name), ignore_errors=True)
    shutil.copytree(os.path.join(TOP, "crates"), os.path.join(folder, "crates"), ignore=shutil.ignore_patterns("out"))
    shutil.copy(os.path.join(TOP, "HANDLES"), folder)
    os.makedirs(os.path.join(crate, "src"))
    shutil.copy(os.path.join(PARTS, "core_pipe.rt.txt"), os.path.join(crate, "src", "main.rt"))
    with open(os.path.join(TOP, "crates.txt"), encoding="ascii") as file, open(os.path.join(folder, "crates.txt"), "w", encoding="ascii") as out:
        out.write(file.read() + "\ncore_pipe: study_web\n")
    room = os.path.join(folder, "room")
    os.makedirs(room)
    script = b"build KK\nbuild KQK\nbuild KRK\nbuild KBK\n"
    with open(os.path.join(folder, "request"), "wb") as out:
        out.write(b"".join(map(number, (2, 0, 1000, 3, len(script)))) + b"run" + script)
    with open(os.path.join(folder, "request"), "rb") as request, \
            subprocess.Popen(["rt", "try", "--seconds", "600"], cwd=crate, stdin=request, stdout=subprocess.DEVNULL, stderr=subprocess.PIPE,
                             env={**os.environ, "TMPDIR": room}) as trying:
        said = threading.Thread(target=lambda: setattr(trying, "said", trying.stderr.read()))
        said.start()
        while trying.poll() is None:
            for path, _, files in os.walk(room):
                if "program" in files:
                    try:
                        shutil.copy2(os.path.join(path, "program"), program)
                    except OSError:
                        pass  # it is being written, or gone
            time.sleep(0.05)
        said.join()
    if not os.path.exists(program):
        sys.exit(trying.said.decode(errors="replace"))
    os.chmod(program, 0o755)
    os.utime(program)


def is_newest(program):
    """Whether no source is newer than the program."""
    if not os.path.exists(program):
        return False
    sources = [os.path.join(path, file) for top in (os.path.join(TOP, "crates"), PARTS) for path, _, files in os.walk(top)
               for file in files if os.sep + "out" + os.sep not in path + os.sep]
    return all(os.path.getmtime(it) < os.path.getmtime(program) for it in sources)


def make_page(folder, port):
    """The page with a core_host.js that calls the program, and a policy that lets it."""
    top, server = os.path.join(folder, "page"), "http://127.0.0.1:%d/" % port
    shutil.rmtree(top, ignore_errors=True)
    for part in ("web", "tools/release", "crates/study_console/src"):
        shutil.copytree(os.path.join(TOP, part), os.path.join(top, part), ignore=shutil.ignore_patterns("out"))
    with open(os.path.join(PARTS, "core_host.js"), encoding="utf-8") as file, open(os.path.join(top, "web/src/core_host.js"), "w", encoding="utf-8") as out:
        out.write(file.read().replace("SERVER", "'%s'" % server))
    path = os.path.join(top, "tools/release/web_page.py")
    with open(path, encoding="utf-8") as file:
        maker = file.read()
    with open(path, "w", encoding="utf-8") as out:
        out.write(maker.replace("img-src data:;", "img-src data:; connect-src %s;" % server))
    with open(os.path.join(top, "none.wasm"), "wb") as out:
        out.write(b"\0asm\1\0\0\0")
    for name in ("main", "worker"):
        subprocess.run(["esbuild", "src/%s.js" % name, "--bundle", "--format=iife", "--target=es2020", "--charset=utf8", "--log-level=warning",
                        "--outfile=../%s.js" % name], cwd=os.path.join(top, "web"), check=True)
    subprocess.run([sys.executable, path, "main.js", "worker.js", "none.wasm", os.path.join(folder, "studyboard.html")], cwd=top, check=True)


class Core:
    """A program, and the tables that it has."""

    def __init__(self, program):
        self.process = subprocess.Popen([program], stdin=subprocess.PIPE, stdout=subprocess.PIPE)
        self.lock, self.used, self.tables = threading.Lock(), time.time(), []

    def send(self, *parts):
        self.process.stdin.write(b"".join(number(it) if isinstance(it, int) else it for it in parts))
        self.process.stdin.flush()

    def take(self, length):
        data = self.process.stdout.read(length)
        if len(data) < length:
            raise EOFError("the program has ended")
        return data

    def have(self, names, files):
        """Makes the program's tables these; those that it has in front are kept."""
        if self.tables != names[:len(self.tables)]:
            self.send(1)
            self.tables = []
        for name in names[len(self.tables):]:
            self.send(0, CLASSES.index(name), len(files[name]), files[name])
            self.tables.append(name)

    def answer(self, request, script, pages, room):
        """The answer, as much of it as there is room for, with its whole length; and the files that were saved."""
        self.send(2, pages, room, len(request), len(script), request, script)
        length, = struct.unpack("<Q", self.take(8))
        text, saved = self.take(min(length, room)), []
        for name in CLASSES:
            size, = struct.unpack("<Q", self.take(8))
            if size:
                saved.append((name, self.take(size)))
        return (text, saved) if length <= room else self.answer(request, script, pages, length)


def classes():
    with open(os.path.join(PARTS, "core_host.js"), encoding="utf-8") as file:
        return " ".join(re.findall(r"'(K[A-Z ]+)'", file.read())).split()


CLASSES = classes()


class Watch:
    """Ends a program while it works, once nobody waits for it."""

    def __init__(self, process, is_gone):
        self.done = threading.Event()
        self.thread = threading.Thread(target=lambda: self.watch(process, is_gone))

    def watch(self, process, is_gone):
        while not self.done.wait(0.5):
            if is_gone():
                process.kill()

    def __enter__(self):
        self.thread.start()

    def __exit__(self, *_):
        self.done.set()
        self.thread.join()


class Server(socketserver.ThreadingMixIn, http.server.HTTPServer):
    daemon_threads = True

    def __init__(self, port, program, tables):
        super().__init__(("127.0.0.1", port), Handler)
        self.program, self.tables, self.cores, self.files, self.guard = program, tables, {}, {}, threading.Lock()

    def core(self, name):
        with self.guard:
            if name not in self.cores:
                idle = [it for it in self.cores if not self.cores[it].lock.locked()]
                if len(self.cores) >= CORES and idle:
                    self.cores.pop(min(idle, key=lambda it: self.cores[it].used)).process.kill()
                self.cores[name] = Core(self.program)
            self.cores[name].used = time.time()
            return self.cores[name]

    def answer(self, head, body, is_gone):
        """The reply to a request; a core that works for nobody any more, since its worker has ended, is ended too."""
        if head["kind"] == "load":
            self.files[head["name"]] = body
            return b"{}\n"
        if self.tables and head["request"].startswith("make "):
            with open(os.path.join(self.tables, head["request"][5:] + ".dtm"), "rb") as file:
                text = b"answered\n" + file.read()
            return json.dumps({"length": len(text), "saved": []}).encode() + b"\n" + text
        core = self.core(head["core"])
        with core.lock, Watch(core.process, is_gone):
            core.have(head["tables"], self.files)
            text, saved = core.answer(head["request"].encode(), body, head["pages"], max(1 << 18, 16 * len(body)))
        said = {"length": len(text), "saved": [(name, len(data)) for name, data in saved]}
        return json.dumps(said).encode() + b"\n" + text + b"".join(data for _, data in saved)


class Handler(http.server.BaseHTTPRequestHandler):
    protocol_version = "HTTP/1.1"

    def log_message(self, *_):
        pass

    def is_gone(self):
        """Whether the page has closed the connection."""
        readable, _, _ = select.select([self.connection], [], [], 0)
        return bool(readable) and not self.connection.recv(1, socket.MSG_PEEK)

    def do_POST(self):
        head, _, body = self.rfile.read(int(self.headers["Content-Length"])).partition(b"\n")
        head, status = json.loads(head), 200
        try:
            reply = self.server.answer(head, body, self.is_gone)
        except (EOFError, OSError) as fault:
            self.server.cores.pop(head["core"], None)
            reply, status = str(fault).encode(), 500
        self.send_response(status)
        self.send_header("Access-Control-Allow-Origin", "*")
        self.send_header("Content-Length", str(len(reply)))
        self.end_headers()
        self.wfile.write(reply)


def main():
    words = sys.argv[1:]
    values = {it: words.pop(words.index(it) + 1) for it in ("--port", "--tables") if it in words[:-1]}
    words = [it for it in words if it not in values]
    if len(words) != 1:
        sys.exit(__doc__)
    folder = os.path.abspath(words[0])
    os.makedirs(folder, exist_ok=True)
    program = os.path.join(folder, "core_pipe")
    if not is_newest(program):
        build(folder, program)
    port = int(values.get("--port", 8787))
    make_page(folder, port)
    print("%s/studyboard.html is answered until this is stopped" % folder, flush=True)
    Server(port, program, values.get("--tables")).serve_forever()


if __name__ == "__main__":
    main()
