#!/bin/sh
# Times the inner loop and the building of tables beside plain Rust of the same algorithm, in one run on one machine.
#
#   tools/speed/speed.sh                 the calls, the tables up to KPK, the files
#   tools/speed/speed.sh tables          KQKR, KRKN and what they need as well, which takes a minute
#   tools/speed/speed.sh studies         edits and the PGN of studies of kings alone, of 1,024 and of 4,096 nodes, and the bytes of a node
#   tools/speed/speed.sh instructions    the tables up to KPK in instructions, counted by valgrind, which other work cannot disturb
#   tools/speed/speed.sh reviews DIR     the reviews of the gallery's studies over the tables of a folder, by tools/speed/review_speed.py
#   tools/speed/speed.sh views DIR       what a board shows of them, views and surveys, likewise
#   tools/speed/speed.sh all [CLASS]     builds all 36 tables (or one, and what it needs) and prints for each: seconds, numbers
#                                        examined, deepest win and loss in plies, SHA-256 of the cells; then the sum of seconds
#   tools/speed/speed.sh fast [CLASS]    the same beside the fastest plain Rust that we know (tools/speed/fast.rs: whole rows of numbers as sets of
#                                        squares, each cell written once); a line is marked where the cells differ
#
# Both programs print 'NAME LABEL PICOSECONDS SUM' for the same positions and numbers; a line is marked where the sums
# differ. Each takes the fastest of five goes, and is run three times, in turns with the other; tables are built once in
# each run. The sum of a build is that of its cells and of the numbers examined.
set -e
top=$(cd "$(dirname "$0")/../.." && pwd)
work=$(mktemp -d)
trap 'rm -rf "$work"' EXIT
plain="$work/plain"
ours="$top/tools/speed/out/study_speed"

"$top/tools/speed/build.sh"

if [ "$1" = reviews ] || [ "$1" = views ]; then
    exec "$top/tools/speed/review_speed.py" "$1" "$2"
fi

if [ "$1" = all ]; then
    # A line is marked where an independent builder has the digest too, and where it has another.
    "$ours" all $2 | awk 'FNR == NR { if ($1 != "#") digest[$1] = $2; next }
         { print $0 (!($1 in digest) ? "" : digest[$1] == $6 ? " as expected" : " NOT AS EXPECTED"); fflush() }' "$top/tools/speed/digests.txt" -
    exit
fi

rust="rustc --edition 2024 -C opt-level=3 -C target-cpu=x86-64-v2 -C panic=abort"
if [ "$1" = fast ]; then
    $rust "$top/tools/speed/fast.rs" -o "$work/fast"
    mkdir "$work/cells"
    "$work/fast" "$work/cells" ${2:-all} > "$work/theirs"
    (cd "$work/cells" && sha256sum -- *.cells) | sed 's/\.cells$//' > "$work/digests"
    "$ours" all $2 | awk 'FILENAME == ARGV[1] { seconds[$1] = $2; next }
         FILENAME == ARGV[2] { digest[$2] = $1; next }
         { differs = $1 != "sum" && digest[$1] != $6
           printf "%-5s %8.2f s   fast plain Rust %8.2f s   ratio %6.1f%s\n", $1, $2, seconds[$1], $2 / (seconds[$1] + 0.001),
               differs ? "   CELLS DIFFER" : ""
           fflush() }' "$work/theirs" "$work/digests" -
    exit
fi

$rust "$top/tools/speed/plain.rs" -o "$plain"

if [ "$1" = instructions ]; then
    # Instructions of one program on one class, within `build` alone or in all.
    count() {
        valgrind --tool=callgrind --callgrind-out-file=/dev/null "$@" 2>&1 | awk '/Collected/ { print $NF }'
    }
    for class in KQK KRK KPK; do
        for part in build all; do
            toggle=
            [ "$part" = build ] && toggle='--toggle-collect=*build*'
            echo "$part $class $(count $toggle "$ours" tables $class) $(count $toggle "$plain" tables $class)"
        done
    done | awk '{ name = $1 == "all" ? "and verify" : $1
                  printf "%-12s %-11s %9.1f million   plain Rust %9.1f million   ratio %.2f\n", name, $2, $3 / 1e6, $4 / 1e6, $3 / $4 }'
    exit
fi

kinds="calls numbers tables"
[ "$1" = studies ] && kinds=studies
for _ in 1 2 3; do
    for what in $kinds; do
        "$ours" "$what" >> "$work/ours"
        "$plain" "$what" >> "$work/theirs"
    done
    if [ "$1" = tables ]; then
        for class in KQKR KRKN; do
            "$ours" tables "$class" >> "$work/ours"
            "$plain" tables "$class" >> "$work/theirs"
        done
    fi
done

# The best time of each name and label, and the sum of the last.
awk 'FILENAME == ARGV[1] { if (!($1 " " $2 in theirs) || $3 < theirs[$1 " " $2]) theirs[$1 " " $2] = $3; sum[$1 " " $2] = $4; next }
     { key = $1 " " $2; if (!(key in best)) order[++count] = key; if (!(key in best) || $3 < best[key]) best[key] = $3; own[key] = $4 }
     END {
         print "Rattle beside plain Rust of the same algorithm, by rustc at opt-level 3 for the same processor:"
         for (i = 1; i <= count; i++) {
             key = order[i]; split(key, word, " ")
             unit = "ns"; scale = 1e3
             if (word[1] == "build" || word[1] == "verify") { unit = "s "; scale = 1e12 }
             if (word[2] ~ /_[0-9]+$/) { unit = "ms"; scale = 1e9 }
             if (word[1] == "bytes") { printf "%-15s %-11s %9d bytes a node\n", word[1], word[2], best[key]; continue }
             printf "%-15s %-11s %9.3f %s   plain Rust %9.3f %s   ratio %.2f%s\n", word[1], word[2], best[key] / scale, unit,
                 theirs[key] / scale, unit, best[key] / theirs[key], own[key] == sum[key] ? "" : "   SUMS DIFFER"
         }
     }' "$work/theirs" "$work/ours"
[ "$1" = studies ] && exit
"$ours" files > "$work/files"
"$ours" probes > "$work/probes"
awk '{ each[$1] = $3 }
     END {
         print "A file of KRKN in memory beside SHA-256 alone over its bytes, both of the kit, a byte:"
         for (name in each)
             if (name != "sha256")
                 printf "%-12s %9.3f ns   SHA-256 %9.3f ns   ratio %.2f\n", name, each[name] / 1e3, each["sha256"] / 1e3, each[name] / each["sha256"]
     }' "$work/files"
awk '{ each[$1] = $3; sum[$1] = $4 }
     END {
         print "A probe of KRK through a cache that keeps each page, beside one of the whole table:"
         printf "%-12s %9.3f ns   whole table %9.3f ns   ratio %.2f%s\n", "paged", each["paged"] / 1e3, each["whole"] / 1e3,
             each["paged"] / each["whole"], sum["paged"] == sum["whole"] ? "" : "   SUMS DIFFER"
     }' "$work/probes"
