#!/usr/bin/env python3
"""Writes the crates of a program as modules of one crate of plain Rust, without their contracts.

    strip_program.py TOP OUT    the crates of the checkout TOP that OUT/main.rs has as modules; the modules go to the folder OUT

program_shim.rs stands for the kit's containers and for memory that is asked of an allocator, lru.rs and sha2.rs for the crates of these names.
"""
import pathlib
import re
import sys

from strip import without_ghosts, write_modules

DERIVE = re.compile(r"#\[derive\(([^)]*)\)\]")


def derived(found):
    kept = [name for name in found[1].split(", ") if name not in ("Drop", "Error")]
    return f"#[derive({', '.join(kept)})]"


def as_plain(text, crate, is_root):
    text = DERIVE.sub(derived, without_ghosts(text))
    text = re.sub(r"\n\s*#\[error\((.|\n)*?\)\]\n", "\n", text)
    text = re.sub(r"use (std::alloc|arrayvec|byteorder|smallvec|itoa|thiserror|std::marker)::[^;]*;", "", text)
    text = text.replace("T: Drop", "T")
    text = re.sub(r": Drop\b(?=[,>])", ": Sized", text)
    text = re.sub(r"\btrait (\w+): Drop\b", r"trait \1", text)
    text = text.replace("crate::", f"crate::{crate}::")
    text = re.sub(r"(?<![:\w])(study_\w+|lru|sha2)::", r"crate::\1::", text)
    text = text.replace("unreachable!()", "crate::shim::never()")
    if is_root:
        text = re.sub(r"pub use (?!crate::)(\w+)::", r"pub use self::\1::", text)
    head = re.match(r"((?://!.*\n|#!\[.*\n)*)", text).end()
    return text[:head].replace("#![tactic(auto)]\n", "") + "#[allow(unused_imports)]\nuse crate::shim::*;\n" + text[head:]


if __name__ == "__main__":
    top, out = sys.argv[1:]
    crates = re.findall(r"^mod (study_\w+);", (pathlib.Path(out) / "main.rs").read_text(), re.M)
    write_modules(top, out, crates, as_plain)
