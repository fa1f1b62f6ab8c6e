#!/usr/bin/env python3
"""Runs studyreport with faults from outside, and names each wrong answer.

    tools/run/report_faults.py TABLES      TABLES is a folder with KK.dtm, KQK.dtm and KRK.dtm at least

Each case says which status, which standard error and which file of pages are expected. Where a fault takes a study or a line away, the rest of
the file has to be whole: it is compared with that of a script without it, or with what tools/oracle/report_facts.py lays out.
"""
import os
import re
import shutil
import subprocess
import sys
import tempfile
from html.parser import HTMLParser

HERE = os.path.dirname(os.path.abspath(__file__))
sys.path.insert(0, os.path.join(HERE, "..", "oracle"))
import report_facts  # noqa: E402

PROGRAM = os.environ.get("STUDYREPORT", os.path.join(os.path.dirname(os.path.dirname(HERE)), "crates/studyreport/out/studyreport"))
EMPTY = {"meta", "path", "circle", "rect", "use", "br", "link"}
SCRIPT = b"position k7/8/1K6/8/8/8/8/6Q1 w - - 0 1\nstipulate white win\ntag Event One\ninsert root Qg7\ninsert root Qg8\npgn\n"
cases = wrong = 0


class Nested(HTMLParser):
    """Whether each tag is closed, in order, and which names of tags there are."""

    def __init__(self, text):
        super().__init__()
        self.open, self.right, self.names = [], True, set()
        self.feed(text)
        self.right = self.right and not self.open

    def handle_starttag(self, tag, attrs):
        self.names.add(tag)
        if tag not in EMPTY:
            self.open.append(tag)

    def handle_startendtag(self, tag, attrs):
        self.names.add(tag)

    def handle_endtag(self, tag):
        if tag in EMPTY:
            return
        if self.open and self.open[-1] == tag:
            self.open.pop()
        else:
            self.right = False


def run(script, *words, stdin=None, stdout=subprocess.PIPE, folder=None):
    done = subprocess.run([PROGRAM, *words], input=script if stdin is None else None, stdin=stdin, stdout=stdout, stderr=subprocess.PIPE,
                          cwd=folder, timeout=60)
    return done.returncode, done.stderr.decode(), (done.stdout or b"").decode("latin-1")


def expect(name, wanted, had):
    """Compares status, standard error and what else is given, in turn."""
    global cases, wrong
    cases += 1
    for what, a, b in zip(("status", "standard error", "pages"), wanted, had):
        if a is not None and a != b:
            wrong += 1
            print(f"WRONG {name}: {what} {b[-300:] if isinstance(b, str) else b!r}, wanted {a[-300:] if isinstance(a, str) else a!r}")
            return
    if len(had) > 2 and isinstance(had[2], str) and had[2].startswith("<!DOCTYPE"):
        is_whole(name, had[2])


def is_whole(name, text):
    global wrong
    nested = Nested(text)
    if not nested.right or not text.startswith(report_facts.opening()) or not text.endswith("</body></html>\n") or "script" in nested.names \
            or not text.isascii():
        wrong += 1
        print(f"WRONG {name}: not a whole file of pages")


def no_table(name, number=2, line="stipulate white win"):
    return report_facts.refusal(number, line, f"NoTable {name}")


def main():
    tables = os.path.abspath(sys.argv[1])
    work = tempfile.mkdtemp()
    end = "</body></html>\n"
    whole = run(SCRIPT, "--tables", tables)
    expect("no fault", (0, ""), whole)
    is_whole("no fault", whole[2])
    page = whole[2][len(report_facts.opening()):-len(end)]
    later = "".join(report_facts.refusal(n, line, "NoStudy") for n, line in
                    ((3, "tag Event One"), (4, "insert root Qg7"), (5, "insert root Qg8"), (6, "pgn")))
    nothing = report_facts.opening() + no_table("KQK") + later + end

    # folders and files of tables
    expect("a folder that is not there", (1, "", nothing), run(SCRIPT, "--tables", os.path.join(work, "none")))
    os.mkdir(os.path.join(work, "empty"))
    expect("a folder without tables", (1, "", nothing), run(SCRIPT, "--tables", os.path.join(work, "empty")))
    expect("no folder named, and none here", (1, "", nothing), run(SCRIPT, folder=os.path.join(work, "empty")))

    def with_file(name, data, script=SCRIPT):
        folder = os.path.join(work, name)
        os.makedirs(folder, exist_ok=True)
        with open(os.path.join(folder, "KQK.dtm"), "wb") as file:
            file.write(data)
        return run(script, "--tables", folder)

    with open(os.path.join(tables, "KQK.dtm"), "rb") as file:
        right = file.read()
    with open(os.path.join(tables, "KRK.dtm"), "rb") as file:
        other = file.read()
    expect("a table alone in its folder", (0, "", whole[2]), with_file("alone", right))
    for what, data, fault in (("of no byte", b"", "Short"), ("cut in its header", right[:40], "Short"),
                              ("with a byte turned in its header", bytes([right[0] ^ 1]) + right[1:], "NotATable"),
                              ("with a wrong digest of its header", right[:63] + bytes([right[63] ^ 1]) + right[64:], "HeaderDamaged"),
                              ("of another class under its name", other, "OtherClass KRK")):
        status, error, text = with_file("fault", data)
        cases_before = error
        expect(f"a table {what}", (1, None, nothing), (status, error, text))
        if not re.fullmatch(r"studyreport: KQK\.dtm: [A-Za-z0-9 ]+\n", cases_before) or fault.split()[0] not in cases_before:
            print(f"WRONG a table {what}: standard error {cases_before!r}, wanted {fault}")
            globals()["wrong"] += 1
    lying = bytearray(right)
    for at in range(64, len(lying) - 4128 + 1, 4128):
        lying[at] ^= 1
    status, error, text = with_file("lying", bytes(lying))
    expect("a table whose pages are not what they were", (1, ""), (status, error))
    if "<b>TableRead Page" not in text or "the file of a table could not be read" not in text:
        print(f"WRONG a table whose pages are not what they were: {text[-400:]!r}")
        globals()["wrong"] += 1
    is_whole("a table whose pages are not what they were", text)

    # a study that is left out between two that are printed
    one = b"pgn\n"
    lost = b"position 8/8/8/4k3/8/2R5/1R6/K7 w - - 0 1\n"
    status, error, text = run(SCRIPT + lost + one, "--tables", tables if not os.path.exists(os.path.join(tables, "KRRK.dtm")) else
                              os.path.join(work, "alone"))
    wanted = report_facts.opening() + page + no_table("KRRK", 7, lost.decode().rstrip("\n"))
    if not text.startswith(wanted) or (text.count("<article id="), text.count("<article")) != (2, 3):
        print(f"WRONG a line that is left out: {report_facts.difference(wanted, text)}")
        globals()["wrong"] += 1
    expect("a line that is left out between two studies", (1, "", None), (status, error, text))

    # lines
    status, error, text = run(SCRIPT + b"# " + b"x" * 1023 + b"\n", "--tables", tables)
    expect("a line that is too long", (3, "studyreport: LineTooLong 7\n", whole[2]), (status, error, text))
    expect("a line of 1,024 bytes", (0, "", whole[2]), run(SCRIPT + b"# " + b"x" * 1022 + b"\n", "--tables", tables))
    status, error, text = run(SCRIPT + b"\n" * 100000, "--tables", tables)
    expect("too many lines", (3, "studyreport: TooManyLines\n", whole[2]), (status, error, text))
    mark = b"<script>alert(\"1 & '2'\")</script>"
    tagged = run(SCRIPT.replace(b"tag Event One", b"tag Event " + mark), "--tables", tables)
    shown = report_facts.say(mark.decode())
    expect("a tag with markup", (0, "", whole[2].replace("<h1>One</h1>", f"<h1>{shown}</h1>")), tagged)
    refused = run(SCRIPT + b"dance " + mark + b"\ntag Event Caf\xe9\nmoves \x01\n", "--tables", tables)
    lines = "".join(report_facts.refusal(n, line, name) for n, line, name in
                    ((7, "dance " + mark.decode(), "UnknownCommand"), (8, "tag Event Caf\xe9", "BadByte"), (9, "moves \x01", "BadByte")))
    expect("refused lines with markup and other bytes", (1, "", whole[2][:-len(end)] + lines + end), refused)

    # devices
    with open("/dev/full", "wb") as full:
        for words in ((), ("--lines",), ("--progress",)):
            expect(f"a full device {words}", (3, "studyreport: WriteDevice\n"), run(SCRIPT, "--tables", tables, *words, stdout=full)[:2])
    closed = subprocess.run(["bash", "-c", 'exec "$0" --tables "$1" >&-', PROGRAM, tables], input=SCRIPT, capture_output=True)
    expect("a closed output", (3, "studyreport: WriteDevice\n"), (closed.returncode, closed.stderr.decode()))
    # Where there are tables, the system gives the place of a closed input to the first of them.
    closed = subprocess.run(["bash", "-c", 'exec "$0" --tables "$1" <&-', PROGRAM, os.path.join(work, "empty")], capture_output=True)
    expect("a closed input, and no table", (3, "studyreport: ReadDevice\n", report_facts.opening() + end),
           (closed.returncode, closed.stderr.decode(), closed.stdout.decode()))
    folder = subprocess.run(["bash", "-c", 'exec "$0" --tables "$1" < .', PROGRAM, tables], capture_output=True)
    expect("an input that is a folder", (3, "studyreport: ReadDevice\n", report_facts.opening() + end),
           (folder.returncode, folder.stderr.decode(), folder.stdout.decode()))
    closed = subprocess.run(["bash", "-c", 'exec "$0" --tables "$1" --progress 2>&-', PROGRAM, tables], input=SCRIPT + b"pgn\n" * 9,
                            capture_output=True)
    expect("a closed standard error", (0,), (closed.returncode,))

    # progress and the command line
    many = SCRIPT + b"pgn\n" * 24
    expect("progress", (0, "10 entries\n20 entries\n", run(many, "--tables", tables)[2]), run(many, "--tables", tables, "--progress"))
    expect("no progress of lines", (0, ""), run(many, "--tables", tables, "--progress", "--lines")[:2])
    expect("no script", (0, "", report_facts.opening() + end), run(b"", "--tables", tables))
    for words in (("--pages", "0"), ("--pages", "4097"), ("--pages", "x"), ("--pages",), ("--bad",), ("a.script",), ("--tables", "")):
        status, error, text = run(b"", *words)
        expect(f"words {words}", (2, True, ""), (status, error.startswith("error: "), text))
    status, error, text = run(b"", "--help")
    expect("help", (0, "", True), (status, error, all(word in text for word in ("--tables", "--pages", "--lines", "--progress", "Exit status"))))
    status, error, text = run(b"", "--version")
    expect("version", (0, "", True), (status, error, bool(re.match(r"studyreport [0-9.]+ \(kit ", text))))
    shutil.rmtree(work)
    print(f"{cases} cases, {wrong} wrong")
    return wrong == 0


if __name__ == "__main__":
    if len(sys.argv) != 2:
        sys.exit(__doc__)
    sys.exit(0 if main() else 1)
