#!/bin/bash
# Times studyimport beside plain Rust of the same sources, without their contracts and compiled by rustc, on 10 MB of small games.
#
#   tools/speed/import_speed.sh [PGN]    the games of the file (the example's) again and again; seconds of a processor, and the ratio
#   STUDYIMPORT=PROGRAM                  the program; else that of crates/studyimport/out, which has to be built
#
# Each takes the fastest of five goes, in turns with the other. Both must write the same script. Without a program only the plain one is timed.
set -e
top=$(cd "$(dirname "$0")/../.." && pwd)
pgn=${1:-$top/examples/import/three_games.pgn}
program=${STUDYIMPORT:-$top/crates/studyimport/out/studyimport}
work=$(mktemp -d); trap 'rm -rf "$work"' EXIT
stripped=$top/tools/speed/stripped
cp "$stripped/program_shim.rs" "$work/shim.rs"; cp "$stripped/arrayvec.rs" "$work/"
cp "$stripped/import_main.rs" "$work/main.rs"
"$stripped/strip_program.py" "$top" "$work"
rustc --edition 2024 -A warnings -C opt-level=3 -C target-cpu=x86-64-v2 -C panic=abort "$work/main.rs" -o "$work/plain"
while [ "$(stat -c %s "$work/games.pgn" 2>/dev/null || echo 0)" -lt 10000000 ]; do
    for _ in {1..500}; do cat "$pgn"; echo; done >> "$work/games.pgn"
done

# Seconds of a processor that a program takes for the games.
seconds() {
    local TIMEFORMAT=%U
    { time "$1" < "$work/games.pgn" > "$work/script.$2" || true; } 2>&1
}

least() { printf '%s\n' "$@" | sort -n | head -1; }

plain=(); ours=()
for _ in 1 2 3 4 5; do
    plain+=("$(seconds "$work/plain" plain)")
    if [ -x "$program" ]; then ours+=("$(seconds "$program" ours)"); fi
done
echo "$(stat -c %s "$work/games.pgn") bytes, $(tail -1 "$work/script.plain" | cut -c3-)"
echo "plain Rust  $(least "${plain[@]}") s"
[ -x "$program" ] || { echo "no program: $program"; exit 2; }
cmp "$work/script.plain" "$work/script.ours"
echo "studyimport $(least "${ours[@]}") s"
awk -v a="$(least "${ours[@]}")" -v b="$(least "${plain[@]}")" 'BEGIN { printf "ratio       %.2f\n", a / b }'
