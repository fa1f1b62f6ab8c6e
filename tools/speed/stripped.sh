#!/bin/bash
# Builds a program of plain Rust from the sources of the tables without their contracts, in some seconds and before any proof: what an idea for speed
# gives is measured there first. It is no part of any claim; its cells are to be those of the proved program.
#
#   tools/speed/stripped.sh PROGRAM [TOP]    the sources of this checkout, or of the checkout TOP
#   PROGRAM KRKN [verify] [FOLDER]           builds a class: seconds, numbers examined, a sum of its cells; FOLDER keeps the cells of what it needs
#
# `valgrind --tool=callgrind PROGRAM KRK` counts its instructions, which other work does not change.
set -e
[ -n "$1" ] || { echo "usage: tools/speed/stripped.sh PROGRAM [TOP]" >&2; exit 2; }
here=$(cd "$(dirname "$0")" && pwd); program=$1; top=${2:-$here/../..}
work=$(mktemp -d)
trap 'rm -rf "$work"' EXIT
"$here/stripped/strip.py" "$top" "$work"
cp "$here"/stripped/*.rs "$work"
rustc --edition 2024 -C opt-level=3 -C target-cpu=x86-64-v2 -C panic=abort -C codegen-units=1 "$work/main.rs" -o "$program"
