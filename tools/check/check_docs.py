#!/usr/bin/env python3
"""Looks for what documents say and the repository does not have, and prints how many words they have.

    tools/check/check_docs.py [REPOSITORY]

Each document is looked at: README, CONTRIBUTING, CHANGELOG, docs/, and the pages of crates, of the gallery and of the board.

- Names in backticks with an underscore, in camel case, or that begin with Is, Are or Has, are in some file of crates/, web/ or tools/.
- Links to files of the repository lead to a file, and to a heading if they name one. None goes through a symbolic link: hosting sites do not follow it.
- Numbers of studies, games, comments and variations of the gallery are those of crates/gallery/data (COUNTS).
- Quoted code, which is an indented block with ensures, `≡` or a type of a definition, stands so in a file of crates/, and the game of README in a reply.
- In comments of crates/*/specs/ a name in backticks is one of the code, and a line of a script, a reply or a report begins with a word that the programs
  read or print: never with the name of a function.

Exit status 1 if something is missing, one line for each fault.
"""
import functools
import glob
import os
import re
import sys

TOP = os.path.realpath(sys.argv[1] if len(sys.argv) > 1 else os.path.join(os.path.dirname(os.path.abspath(__file__)), "..", ".."))
CODE = (".rt", ".antt", ".js", ".mjs", ".py", ".sh", ".rs", ".html", ".css", ".edit", ".txt", ".script")
# Names of the toolchain, which no file here has to spell.
OUTSIDE = {"RT_JOBS"}
WANTED_WORDS = 40000
NUMBERS = {"twenty-nine": 29, "thirty": 30, "thirty-one": 31, "thirty-two": 32, "thirty-eight": 38, "thirty-nine": 39, "forty": 40}
# What a document may say of the gallery, and which counts its groups are.
COUNTS = (
    (r"\b(\S+) games of the gallery", ["games"]), (r"\bgallery's (\S+) games", ["games"]), (r"\b(\S+) studies and endings", ["studies"]),
    (r"\bgallery, (\S+) (?:scripts|studies)\b", ["studies"]), (r"\bgallery's (\S+) (?:scripts|studies)\b", ["studies"]),
    (r"\b(\S+) (?:scripts|studies) of the gallery", ["studies"]), (r"\b(\S+) comments and (\S+) variations", ["comments", "variations"]),
)


def read(name):
    with open(os.path.join(TOP, name), encoding="utf8", errors="replace") as it:
        return it.read()


def documents():
    found = ["README.md", "CONTRIBUTING.md", "CHANGELOG.md", "web/README.md"]
    for pattern in ("docs/**/*.md", "crates/*/README.md", "crates/gallery/data/*.md"):
        found += glob.glob(pattern, root_dir=TOP, recursive=True)
    return sorted(it for it in found if os.path.isfile(os.path.join(TOP, it)))


@functools.cache
def sources():
    """The text of each file of code by its name, without the comments of specs/, which are looked at themselves."""
    found = {}
    for folder in ("crates", "web", "tools"):
        for file in glob.glob(f"{folder}/**/*", root_dir=TOP, recursive=True):
            if os.path.isfile(os.path.join(TOP, file)) and "/out/" not in file:
                found[file] = read(file) if file.endswith(CODE) else ""
                if "/specs/" in file:
                    found[file] = re.sub(r"^\s*--.*$", "", found[file], flags=re.M)
    return found


@functools.cache
def known_names():
    names = set(OUTSIDE)
    for file, text in sources().items():
        base = os.path.basename(file)
        names |= {base, os.path.splitext(base)[0]} | set(re.findall(r"[A-Za-z_][\w'\-]*", text)) | set(re.findall(r"[A-Za-z_]\w*", text))
    return names


def is_name(word):
    return "_" in word or re.match(r"[A-Z][a-z]+[A-Z]", word) or re.match(r"(Is|Are|Has)[A-Z]", word)


def missing_names(document, text):
    for number, line in enumerate(text.split("\n"), 1):
        if line.startswith("    "):
            continue
        for code in re.findall(r"`([^`]+)`", line):
            for word in re.findall(r"[A-Za-z_]\w*", code):
                if is_name(word) and word not in known_names() and not word.startswith(("rt", "my_")):
                    yield f"{document}:{number}: no file has the name {word}"


def anchors(file):
    """The anchors of a page's headings, as GitHub and its like make them."""
    for heading in re.findall(r"^#+ (.*)$", read(file), re.M):
        yield re.sub(r"[^\w\- ]", "", heading.lower()).replace(" ", "-")


def missing_links(document, text):
    for number, line in enumerate(text.split("\n"), 1):
        for target in re.findall(r"\]\(([^)\s]+)\)", line):
            if re.match(r"[a-z]+:", target):
                continue
            path, _, anchor = target.partition("#")
            file = os.path.normpath(os.path.join(TOP, os.path.dirname(document), path)) if path else os.path.join(TOP, document)
            if not os.path.exists(file):
                yield f"{document}:{number}: {target} leads nowhere"
            elif os.path.realpath(file) != file:
                yield f"{document}:{number}: {target} goes through a symbolic link; write {os.path.relpath(os.path.realpath(file), TOP)}"
            elif anchor and file.endswith(".md") and anchor not in anchors(file):
                yield f"{document}:{number}: {target} names no heading"


@functools.cache
def counts():
    """The studies of the gallery, their games, and the comments and variations of these."""
    texts = [read(it) for it in glob.glob("crates/gallery/data/*.expected", root_dir=TOP)]
    games = [body for text in texts for body in re.findall(r'^\[SetUp "1"\]\n\n(.*?)\n\n', text, re.S | re.M)]
    return {"studies": len(texts), "games": len(games), "comments": sum(it.count("{") for it in games),
            "variations": sum(re.sub(r"\{.*?\}", "", it, flags=re.S).count("(") for it in games)}


def wrong_counts(document, text):
    for pattern, kinds in COUNTS:
        for found in re.finditer(pattern.replace(" ", r"\s+"), text):
            for said, kind in zip(found.groups(), kinds):
                number = NUMBERS.get(said.lower(), int(said) if said.isdigit() else None)
                if number not in (None, counts()[kind]):
                    yield f"{document}:{text.count(chr(10), 0, found.start()) + 1}: {said} {kind}, the gallery has {counts()[kind]}"


@functools.cache
def code_lines():
    return {" ".join(line.split()) for file in glob.glob("crates/**/*.*", root_dir=TOP, recursive=True) if file.endswith((".rt", ".antt"))
            for line in read(file).split("\n")}


@functools.cache
def replies():
    return {line for file in glob.glob("crates/gallery/data/*.expected", root_dir=TOP) for line in read(file).split("\n")}


def wrong_quotes(document, text):
    block = []
    for number, line in enumerate([*text.split("\n"), "end"], 1):
        if line.startswith("    "):
            block.append((number, " ".join(line.split())))
        elif line.strip():
            if any(re.search(r"\bensures\b|≡| : Type 0|^pub fn ", it) for _, it in block):
                yield from (f"{document}:{at}: no file of crates/ has the line {it}" for at, it in block if it not in code_lines())
            if document == "README.md" and block and block[0][1].startswith("{"):
                yield from (f"{document}:{at}: no reply of the gallery is {it}" for at, it in block if it not in replies())
            block = []


@functools.cache
def functions():
    return {it for text in sources().values() for it in re.findall(r"\bfn (\w+)", text)}


def wrong_comments():
    """What comments of specs/ name and no file has; a line of text that begins with a function's name is one that no program reads or prints."""
    for file in sorted(glob.glob("crates/*/specs/**/*.antt", root_dir=TOP, recursive=True)):
        for number, line in enumerate(read(file).split("\n"), 1):
            comment = re.match(r"\s*--(.*)", line)
            for code in re.findall(r"`([^`]+)`", comment.group(1)) if comment else []:
                first, *more = code.split() or [""]
                if more and "_" in first and first in functions():
                    yield f"{file}:{number}: no program reads or prints a line that begins with {first}"
                for word in re.findall(r"[A-Za-z_]\w*", code):
                    if is_name(word) and word not in known_names():
                        yield f"{file}:{number}: no file has the name {word}"


def main():
    faults, words = list(wrong_comments()), 0
    for document in documents():
        text = read(document)
        words += len(text.split())
        for look in (missing_names, missing_links, wrong_counts, wrong_quotes):
            faults += look(document, text)
    if faults:
        print("\n".join(faults))
    print(f"{len(documents())} documents, {words} words" + (f", {words - WANTED_WORDS} more than wanted" if words > WANTED_WORDS else "")
          + ("" if faults else ", nothing missing"))
    return 1 if faults else 0


if __name__ == "__main__":
    sys.exit(main())
