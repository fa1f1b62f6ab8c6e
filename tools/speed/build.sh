#!/bin/bash
# Builds the program that tools/speed/speed.sh times beside plain Rust: tools/speed/out/study_speed.
#
#   tools/speed/build.sh [FOLDER]
#
# Its sources, program/*.rs, are Rattle, and a crate only here: in the gate a program that measures would be proved with every change, and
# `rt ci` takes no .rt file outside of its crates, hence the extension .rs. After `.ci/run` on this commit it is proved over the libraries that the
# gate left, in some minutes. Else this script copies the repository's crates as they stand to FOLDER, outside of the repository, adds the program
# as the crate study_speed, and has `rt` prove and build all of it there. FOLDER keeps what was proved and built for the next time.
set -e
top=$(cd "$(dirname "$0")/../.." && pwd); room=$(realpath -m "${1:-${TMPDIR:-/tmp}/studybench_speed}")
uses="study_text study_board study_moves study_material study_values study_index study_table study_retro study_tablefile study_prober study_notation study_tree"
uses="$uses study_marks study_pgn study_command study_review study_view study_script study_program linked_list_allocator sha2"

case "$room/" in "$top"/*) echo "tools/speed/build.sh: $room is in the repository"; exit 2 ;; esac
if [ -e "$room" ] && [ ! -e "$room/crates.txt" ] && [ -n "$(ls -A "$room")" ]; then
    echo "tools/speed/build.sh: $room holds other files"
    exit 2
fi

mkdir -p "$room" "$top/tools/speed/out"
. "$top/tools/release/libraries.sh"
if left_by_the_gate "$top"; then
    rm -rf "$room/src"; mkdir "$room/src"; touch "$room/crates.txt"
    for file in "$top"/tools/speed/program/*.rs; do cp "$file" "$room/src/$(basename "$file" .rs).rt"; done
    words_for "$top" "std linked_list_allocator sha2" "${uses% linked_list_allocator sha2}"
    cd "$room"
    "$kit/bin/rattle" build --crate-name study_speed src/main.rt "${words[@]}" --jobs 2 --toolchain "$kit/toolchain" --backend llvm \
        --incremental incremental -o study_speed.o > log 2>&1 || { tail -20 log; exit 1; }
    "$kit/bin/rattle-link" --target x86_64-unknown-linux-gnu --toolchain "$kit/toolchain" -o "$top/tools/speed/out/study_speed" \
        study_speed.o "$kit/c/libos_c.a" "$kit/c/liblibc_c.a" >> log
    exit
fi

# ---- a copy of the crates beside what the last time kept, each in its folder out
mkdir -p "$room/crates"
find "$room/crates" -mindepth 2 -maxdepth 2 ! -name out -exec rm -rf {} +
tar -C "$top" --exclude=out -c HANDLES crates.txt crates | tar -C "$room" -x
echo "study_speed: $uses" >> "$room/crates.txt"
mkdir -p "$room/crates/study_speed/src"
for file in "$top"/tools/speed/program/*.rs; do
    cp "$file" "$room/crates/study_speed/src/$(basename "$file" .rs).rt"
done

# ---- the program, which prints nothing when it is run without an argument
cd "$room/crates/study_speed"
rt run > "$room/log" 2>&1 || { tail -20 "$room/log"; exit 1; }
cp out/study_speed "$top/tools/speed/out/study_speed"
