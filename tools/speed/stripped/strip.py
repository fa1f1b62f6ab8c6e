#!/usr/bin/env python3
"""Writes the crates that build tables as modules of one crate of plain Rust, without their contracts.

    strip.py TOP OUT    the crates of the checkout TOP; the modules go to the folder OUT

The sources are Rust but for clauses, ghost items and a few forms of the kit's standard library, for which shim.rs and arrayvec.rs stand.
"""
import pathlib
import re
import sys

CRATES = ["study_board", "study_moves", "study_material", "study_values", "study_index", "study_table", "study_levels", "study_retro"]
GHOST = re.compile(r"^\s*(requires|ensures|ghost)\b")


def end_of_ghost(lines, at):
    """The line after a clause or a ghost item, and whether a semicolon ended it."""
    is_use = re.match(r"^\s*ghost use", lines[at])
    depth, seen = 0, False
    while True:
        line = lines[at]
        depth += line.count("{") - line.count("}")
        seen = seen or "{" in line
        at += 1
        if line.endswith(";") if is_use else depth == 0 and seen:
            return at, line.endswith(";")


def without_ghosts(text):
    lines, kept, at = text.split("\n"), [], 0
    while at < len(lines):
        line = lines[at]
        if re.match(r"^\s*#!?\[(tactic|cycle|error)", line):
            at += 1
        elif re.match(r"^impl.*\bModel for\b", line):
            while not lines[at].startswith("}"):
                at += 1
            at += 1
        elif GHOST.match(line):
            at, ended = end_of_ghost(lines, at)
            if ended and "ghost" not in line:  # the last clause of a method without a body
                kept.append(";")  # a comment may be before it
        else:
            kept.append(line)
            at += 1
    return "\n".join(kept)


def as_plain(text, crate, is_root):
    text = without_ghosts(text)
    for gone in ["use std::marker::Model;\n", "use thiserror::Error;\n", "#[derive(Drop)]\n"]:
        text = text.replace(gone, "")
    text = text.replace(", Error)]", ")]").replace("type Position: Drop", "type Position")
    text = text.replace("crate::", f"crate::{crate}::")
    for other in CRATES:
        text = re.sub(rf"(?<![:\w]){other}::", f"crate::{other}::", text)
    text = text.replace("use study_text::DeviceFailed;", "use crate::shim::DeviceFailed;")
    text = text.replace("use arrayvec::", "use crate::arrayvec::").replace("unreachable!()", "crate::shim::never()")
    text = text.replace("use std::alloc::{AllocError, Allocator};", "use crate::shim::{AllocError, Allocator, Cells};")
    text = text.replace("use std::alloc::Allocator;", "use crate::shim::{Allocator, Cells};")
    text = re.sub(r"Vec<(.*?), &'a A>", r"Cells<\1, &'a A>", text)
    text = text.replace("vec![in alloc; 0; count as usize]", "Ok(Cells::zeros(count as usize))")
    text = text.replace("Vec::with_capacity(alloc, ", "Cells::with_capacity(")
    if is_root:
        text = re.sub(r"pub use (?!crate::)(\w+)::", r"pub use self::\1::", text)
    return text


def write_modules(top, out, crates, plain):
    """Each source of these crates as a module below the folder; plain makes plain Rust of a source."""
    for crate in crates:
        folder = pathlib.Path(out) / crate
        folder.mkdir(parents=True, exist_ok=True)
        sources = pathlib.Path(top) / "crates" / crate / "src"
        for source in sources.rglob("*.rt"):
            is_root = source == sources / "lib.rt"
            module = folder / ("mod.rs" if is_root else source.relative_to(sources).with_suffix(".rs"))
            module.parent.mkdir(exist_ok=True)
            module.write_text(plain(source.read_text(), crate, is_root))


if __name__ == "__main__":
    write_modules(*sys.argv[1:], CRATES, as_plain)
