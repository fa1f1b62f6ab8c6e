#!/bin/bash
# Times the search of studymine beside plain Rust of the same sources, without their contracts and compiled by rustc, over the tables of a folder.
#
#   tools/speed/finding_speed.sh TABLES    the mutual zugzwangs of each class, and two lists of only moves; seconds of a processor, and the ratios
#   STUDYMINE=PROGRAM                      the program; else that of crates/studymine/out, which has to be built
#
# Each takes the fastest of three goes, in turns with the other. Both must count the same. Without a program only the plain one is timed.
set -eo pipefail
top=$(cd "$(dirname "$0")/../.." && pwd)
[ -d "${1:-}" ] || { echo "usage: tools/speed/finding_speed.sh TABLES" >&2; exit 2; }
tables=$(realpath "$1")
program=${STUDYMINE:-$top/crates/studymine/out/studymine}
work=$(mktemp -d); trap 'rm -rf "$work"' EXIT
stripped=$top/tools/speed/stripped
cp "$stripped/program_shim.rs" "$work/shim.rs"; cp "$stripped"/{arrayvec,lru,sha2}.rs "$work/"
cp "$stripped/finding_main.rs" "$work/main.rs"
"$stripped/strip_program.py" "$top" "$work"
rustc --edition 2024 -A warnings -C opt-level=3 -C target-cpu=x86-64-v2 -C panic=abort -C codegen-units=1 "$work/main.rs" -o "$work/plain"

# The positions with a theme in each class.
count() {
    for class in $2; do
        # shellcheck disable=SC2086
        "$1" --tables "$tables" --count "$class" $3 || return
    done
}

# Seconds of a processor that a program takes to count.
seconds() {
    local TIMEFORMAT='%U %S'
    { time count "$1" "$2" "$3" > "$work/counts.$4"; } 2>&1 | awk '{ print $1 + $2 }'
}

least() { printf '%s\n' "$@" | sort -n | head -1; }

# A row for a theme in some classes.
compare() {
    local plain=() ours=() ratio
    for _ in 1 2 3; do
        plain+=("$(seconds "$work/plain" "$2" "$3" plain)")
        if [ -x "$program" ]; then ours+=("$(seconds "$program" "$2" "$3" ours)"); fi
    done
    echo "$1 $3: $(awk '{ sum += $1 } END { print sum }' "$work/counts.plain") found"
    echo "  plain Rust $(least "${plain[@]}") s"
    [ -x "$program" ] || return 0
    cmp "$work/counts.plain" "$work/counts.ours"
    ratio=$(awk -v a="$(least "${ours[@]}")" -v b="$(least "${plain[@]}")" 'BEGIN { printf "%.2f", a / b }')
    echo "  studymine  $(least "${ours[@]}") s, the same counts; ratio $ratio"
}

classes=$(cd "$tables" && echo *.dtm)
compare "$(wc -w <<< "$classes") classes," "${classes//.dtm/}" zugzwang
compare KRKN KRKN "win 12"
compare KRKB KRKB "draw 6"
[ -x "$program" ] || { echo "no program: $program"; exit 2; }
