#!/usr/bin/env python3
"""Joins the parts of studyboard.html into one file.

    tools/release/web_page.py PAGE_JS WORKER_JS MODULE OUT

PAGE_JS and WORKER_JS are bundled scripts; the module is packed by zopfli, without names or times, so that the same parts give
the same bytes. The policy names the digests of the one script and the one style that the page has: no other runs.
"""
import base64
import hashlib
import os
import re
import struct
import subprocess
import sys
import tempfile

WEB = os.path.join(os.path.dirname(os.path.abspath(__file__)), "..", "..", "web")


def read(path):
    with open(path, encoding="utf-8") as file:
        return file.read()


LETTERS = [chr(code) for code in range(33, 127) if chr(code) not in "\"&'-<>\\`~"]


def sections(module):
    """The sections of a WebAssembly module, each with its kind."""
    at = 8
    while at < len(module):
        start, kind, size, shift = at, module[at], 0, 0
        while True:
            at += 1
            size |= (module[at] & 127) << shift
            shift += 7
            if module[at] < 128:
                break
        at += 1 + size
        yield kind, module[start:at]


def packed(path):
    """A module without names, which no browser runs, packed: the number of bytes, and five letters for four bytes (web/src/packed.js)."""
    with open(path, "rb") as file:
        module = file.read()
    with tempfile.NamedTemporaryFile() as bare:
        bare.write(module[:8] + b"".join(text for kind, text in sections(module) if kind != 0))
        bare.flush()
        data = subprocess.run(["zopfli", "-c", bare.name], stdout=subprocess.PIPE, check=True).stdout
    words = struct.iter_unpack(">I", data + bytes(-len(data) % 4))
    letters = "".join("".join(LETTERS[word // 85 ** power % 85] for power in (4, 3, 2, 1, 0)) for (word,) in words)
    return "%d %s" % (len(data), letters)


def small_style(path):
    """A style sheet without the blanks and line ends that only its reader needs."""
    with open(path, "rb") as file:
        done = subprocess.run(["esbuild", "--loader=css", "--minify", "--charset=utf8"], stdin=file, stdout=subprocess.PIPE, check=True)
    return done.stdout.decode().strip()


def digest(text):
    return "'sha256-%s'" % base64.b64encode(hashlib.sha256(text.encode()).digest()).decode()


def version():
    """The version of the programs, which the board has too."""
    console = read(os.path.join(WEB, "..", "crates", "study_console", "src", "command_line.rt"))
    return re.search(r'^pub const VERSION: &str = "([^ ]*) ', console, re.M).group(1)


def main():
    if len(sys.argv) != 5:
        sys.exit(__doc__)
    page_js, worker_js, module, out = sys.argv[1:]
    script, worker, style = read(page_js).strip(), read(worker_js).strip(), small_style(os.path.join(WEB, "board.css"))
    for text in (script, worker):
        assert "</script" not in text.lower() and "<!--" not in text, "a bundle that would end its element"
    policy = ("default-src 'none'; script-src %s 'wasm-unsafe-eval'; worker-src blob:; style-src %s; img-src data:; "
              "base-uri 'none'; form-action 'none'") % (digest(script), digest(style))
    page = read(os.path.join(WEB, "page.html")).replace(">\n<", "><")
    parts = {"/*POLICY*/": policy, "/*STYLE*/": style, "<!--MEN-->": read(os.path.join(WEB, "men.svg")).strip(), "/*WORKER*/": worker,
             "/*MODULE*/": packed(module), "/*SCRIPT*/": script, "/*VERSION*/": version()}
    for mark, text in parts.items():
        assert page.count(mark) == 1, mark
        page = page.replace(mark, text)
    with open(out, "w", encoding="utf-8") as file:
        file.write(page)
    print("%s: %d bytes" % (out, len(page.encode())))


main()
