#!/usr/bin/env python3
"""Lists what the headline rests on, definition by definition, and counts its lines without imports,
comments, empty lines and lines of only closing brackets; then what is read besides for the theorems of reports, pages and the board.

It starts from the clauses that docs/THEOREM.md names, row by row (CALLS, MORE), and follows every name in them: to definitions of
specs/, to the types of the code (structs and enums), or, of a type that has one, to its view, which is what contracts see of it. With an argument
it prints each name under its file; without one, a line a file."""
import re
import sys
from collections import defaultdict
from pathlib import Path

CRATES = Path(__file__).resolve().parents[2] / "crates"
CALLS = """
study_moves legal_moves legal ordered listed
study_moves is_legal
study_moves played value valid
study_retro build right missing far
study_retro verify
study_tablefile write_table
study_tablefile read_table ok text
study_tablefile tables_are_read_again
study_tablefile only_texts_are_read
study_values Values::value game stays_honest
study_prober WholeTables::value
study_prober PagedTables::value reported whole
study_marks Bench::new made right refusal
study_marks Bench::set_position edited right refusal same
study_marks Bench::shift_position edited right broken refusal same
study_marks Bench::insert edited right refusal same
study_marks Bench::delete edited right refusal same
study_marks Bench::promote edited right refusal same
study_marks Bench::set_stipulation edited right
study_marks Bench::set_tag edited right refusal same
study_marks Bench::reannotate study right refusal same
study_marks Bench::apply_all stopped accepted edited right same
study_marks annotations_are_unique
study_marks Bench::mark
study_marks Bench::start_at
study_marks Bench::move_at
study_marks Bench::children
study_marks Bench::tag
study_marks Bench::size size
study_pgn write_pgn ok device memory
study_script run outcome
"""
# The theorems beside the headline, each read after those before it.
MORE = {
    "the report as lines": "study_report write_report",
    "the report as pages": "study_print write_pages",
    "the board": "study_web answer_into",
}
WORD = re.compile(r"[A-Za-z_][\w'\-]*")
QUALIFIED = re.compile(r"(?<![\w.])([A-Za-z_]\w*)\.([A-Za-z_][\w'\-]*)")
IMPORT = re.compile(r"\s*(?:ghost )?(?:pub )?use Rattle\.(study\w*)\.specs\.([\w.+]+?)(?:\.\{([^}]*)\}| as (\w+));?\s*$")
ITEM = re.compile(r"(\s*)(?:abbrev |unfoldable |pub |mutual |opaque )*(?:record )?([A-Za-z_][\w'\-]*)\s*(?:[:{(]|$)")
HEAD = re.compile(r"\s{0,2}(abbrev|unfoldable|pub|record|opaque)\b")


def code_lines(lines):
    return [l for l in lines if l.strip() and not re.match(r"\s*(--|//|#\[|(ghost |pub )?use |[})\];,]+$)", l)]


def imports_of(lines):
    """Each imported name, with the crate and the module that it is of."""
    names = {}
    for line in lines:
        found = IMPORT.match(line)
        if not found:
            continue
        crate, module, listed, alias = found.groups()
        if alias:
            names[alias] = (crate, module, None)
        for part in (listed or "").split(","):
            name, _, other = part.strip().partition(" as ")
            if name:
                names[other.strip() or name] = (crate, module, name)
    return names


class Definitions:
    """The definitions of a file of specs/."""

    def __init__(self, path):
        lines = path.read_text().splitlines()
        self.imports, self.items, name = imports_of(lines), {}, None
        for line in lines:
            if re.match(r"\s*(module|use|pub use|pub mod)\b", line):
                name = None
            elif HEAD.match(line) and (found := ITEM.match(line)) and "record {" not in line.split("=")[0]:
                head = re.sub(r"\s*(?:abbrev |unfoldable |pub |mutual |opaque |record )*", "", line, 1)
                if len(found[1]) > 2:
                    name and self.items[name].append(line)
                    continue
                if not (name and line.startswith("  pub ") and name in self.records):
                    name = WORD.match(head)[0]
                    self.items[name] = []
                    if "record " in line.split(":")[0]:
                        self.records.add(name)
                self.items[name].append(line)
            elif name:
                self.items[name].append(line)

    records = set()


def seen_lines(lines):
    """The lines of a type that contracts see: not its invariant and its code, which proofs use."""
    out, taken = [], True
    for line in lines:
        if found := re.match(r"\s*ghost (\w+) =", line):
            taken = found[1] not in ("invariant", "coded", "size", "size_decreases")
        if taken or line.startswith("}"):
            out.append(line)
    return code_lines(out)


class Sources:
    """The files of a crate's code: its types, what contracts see of them, and the clauses of its functions."""

    def __init__(self, crate):
        self.types, self.views, self.clauses = {}, {}, {}
        for path in sorted((CRATES / crate / "src").rglob("*.rt")):
            lines = path.read_text().splitlines()
            imports, owner = imports_of(lines), None
            for at, line in enumerate(lines):
                if declared := re.match(r"pub (?:struct|enum) (\w+)", line):
                    end = at if line.rstrip().endswith(";") else next(i for i in range(at, len(lines)) if lines[i].startswith("}"))
                    self.types[declared[1]] = (path, code_lines(lines[at:end + 1]), imports)
                if line.startswith(("impl", "pub trait")):
                    owner = re.search(r"(?:for |impl(?:<[^>]*>)? |trait )(\w+)(?:<.*>)?(?:: \w+)? \{$", line)
                    owner = owner and owner[1]
                    if " Model for " in line:
                        end = next(i for i in range(at, len(lines)) if lines[i].startswith("}"))
                        self.views[owner] = (path, seen_lines(lines[at:end + 1]), imports)
                elif line.startswith("}"):
                    owner = None
                if function := re.match(r"\s*(?:pub )?fn (\w+)", line):
                    name = f"{owner}::{function[1]}" if line.startswith(" ") and owner else function[1]
                    end = next((i for i in range(at, len(lines)) if re.match(r"\s*\{\}?\s*$", lines[i]) or lines[i].rstrip().endswith("};")), at) + 1
                    self.clauses.setdefault(name, (path, lines[at + 1:end], imports))


specs, sources, seen, counts = {}, {}, set(), defaultdict(lambda: [0, []])


def count(kind, path, name, lines):
    place = counts[(kind, str(path.relative_to(CRATES)))]
    place[0] += len(lines)
    place[1].append(name)


def crate_sources(crate):
    if crate not in sources:
        sources[crate] = Sources(crate)
    return sources[crate]


def follow(lines, imports, here=None):
    """Visits each name of these lines."""
    text = "\n".join(re.sub(r"--.*", "", l) for l in lines)
    for alias, word in QUALIFIED.findall(text):
        crate, module, name = imports.get(alias, ("", "", alias))
        if name is None and not module.startswith(("declared.", "contracts.")):
            visit((crate, module.replace(".", "/")), word)
    for word in WORD.findall(text):
        if here and word in specs[here].items:
            visit(here, word)
        elif word in imports:
            crate, module, name = imports[word]
            if module.startswith(("declared.", "contracts.")):
                parts = module.split(".")
                kind = parts[-2] if parts[-1] == "TheVariants" else parts[-1]
                visit_type(crate, kind)
            elif name:
                visit((crate, module.replace(".", "/")), name)


def visit(place, name):
    path = CRATES / place[0] / "specs" / f"{place[1]}.antt"
    if (place, name) in seen or not path.exists():
        return
    seen.add((place, name))
    if place not in specs:
        specs[place] = Definitions(path)
    item = specs[place].items.get(name)
    if item is not None:
        follow(item, specs[place].imports, place)
        count("definitions", path, name, code_lines(item))


def visit_type(crate, name):
    if (crate, name) in seen:
        return
    seen.add((crate, name))
    kind = "views" if name in crate_sources(crate).views else "types"
    path, lines, imports = getattr(crate_sources(crate), kind).get(name, (None, [], {}))
    if path:
        follow(lines, imports)
        count(kind, path, name, lines)


def clauses(lines, wanted):
    """The clauses with these names, or all that a function has."""
    out, taken = [], False
    for line in lines:
        if found := re.match(r"\s*(?:ensures|requires)\*? (?:(\w+) )?\{", line):
            taken = not wanted or found[1] in wanted
        if taken and line.strip() not in ("{", "{}", ")"):
            out.append(line)
    return [l for l in out if l.strip()]


def follow_signature(path, call):
    """Visits what a contract sees of the types that a function takes and answers."""
    text, name = path.read_text(), call.split("::")[-1]
    signature = re.search(rf"fn {name}\b[^{{;]*?(?=\n\s*(?:ensures|requires|\{{))", text)
    for word in [call.split("::")[0], *WORD.findall(signature[0] if signature else "")]:
        for crate in ("study_board", "study_moves", "study_table", "study_retro", "study_prober", "study_notation", "study_tree", "study_marks"):
            if word in crate_sources(crate).views:
                visit_type(crate, word)


def read(rows):
    """Counts what these rows rest on, beside what was counted before."""
    for row in rows.split("\n"):
        if row.strip():
            crate, call, *wanted = row.split()
            path, lines, imports = crate_sources(crate).clauses[call]
            lines = clauses(code_lines(lines), wanted)
            if not lines:
                raise SystemExit(f"no clause of {crate} {call} {wanted}")
            follow(lines, imports)
            count("clauses", path, call, lines)
            follow_signature(path, call)


def show(title, seen):
    """Prints what was counted since `seen`, a line a file, and the sum of all."""
    sums, files = defaultdict(int), set()
    for (kind, path), (number, names) in counts.items():
        sums[kind] += number
        files.add(path)
        before, known = seen.get((kind, path), (0, []))
        if number > before:
            tail = ": " + " ".join(names[len(known):]) if len(sys.argv) > 1 else f"  ({kind})"
            print(f"{number - before:5}  {path}{tail}")
    total = sum(sums.values())
    more = total - sum(number for number, _ in seen.values())
    print(f"{total:5}  in {len(files)} files, {title}, {more} of them besides: " + ", ".join(f"{number} of {kind}" for kind, number in sums.items()))


def main():
    seen = {}
    for title, rows in {"the headline": CALLS, **MORE}.items():
        read(rows)
        show(title, seen)
        seen = {key: (number, list(names)) for key, (number, names) in counts.items()}


main()
