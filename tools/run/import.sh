#!/bin/bash
# Compares the scripts of studyimport with those that stand beside the games: NAME.script beside NAME.pgn, byte by byte.
#
#   tools/run/import.sh [FOLDER ..]      the example, and each pair in the folders
#
# Exports of pgn-extract, Scid and PyChess stand in such a folder with the script that each must come to. NAME.args has words of the
# command line. The status must be 0 exactly if each game of the script has a study.
# The program has to be built: (cd crates/studyimport && rt run -- --version).
top=$(cd "$(dirname "$0")/../.." && pwd)
program=${STUDYIMPORT:-$top/crates/studyimport/out/studyimport}
[ -x "$program" ] || { echo "no program: $program"; exit 2; }
work=$(mktemp -d); trap 'rm -rf "$work"' EXIT
equal=0; other=0
for folder in "$top/examples/import" "$@"; do
    for pgn in "$folder"/*.pgn; do
        script=${pgn%.pgn}.script
        [ -f "$script" ] || continue
        words=(); [ -f "${pgn%.pgn}.args" ] && mapfile -t words < "${pgn%.pgn}.args"
        "$program" "${words[@]}" < "$pgn" > "$work/script"; status=$?
        wanted=$(awk '/^#! game [0-9]+, /{game = $3 + 0; games[game]} /^pgn$/{studies[game]} END{for (game in games) n++
            for (game in studies) k++; print ((n > 0 && n == k) ? 0 : 1)}' "$script")
        if cmp -s "$work/script" "$script" && [ "$status" = "$wanted" ]; then
            equal=$((equal + 1))
        else
            other=$((other + 1)); echo "other: $pgn (status $status, wanted $wanted)"
        fi
    done
done
echo "equal $equal, other $other"
[ "$other" = 0 ]
