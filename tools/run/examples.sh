#!/bin/bash
# Runs the studies of examples/ by the program and compares each reply with the expected one.
#
#   tools/run/examples.sh              the studies whose tables have up to three men
#   tools/run/examples.sh pawnless     those without a pawn, and those of up to three men
#   tools/run/examples.sh all          all of them; each builds its own tables, which takes a quarter of an hour in all
#   tools/run/examples.sh load DIR     all of them over the files of tables in a folder, whole
#   PAGES=N tools/run/examples.sh load DIR     the same by N pages
#
# Each script runs in an empty folder. With `load` each `build CLASS` is read as `load CLASS`, and its reply is compared as such.
# The status has to be 1 where a reply is an error, and 0 elsewhere.
top=$(cd "$(dirname "$0")/../.." && pwd); examples="$top/examples"
mode=${1:-small}; dir=${2:+$(realpath "$2")}
case $mode in small | pawnless | all | load) ;; *) echo "tools/run/examples.sh: $mode is none of pawnless, all, load DIR"; exit 2 ;; esac
program=${STUDYBENCH:-$top/crates/studybench/out/studybench}
[ -x "$program" ] || (cd "$top/crates/studybench" && rt run < /dev/null) > /dev/null 2>&1 || {
    echo "studybench is not built: cd crates/studybench && rt check"
    exit 2
}
gallery="$top/crates/gallery"
while read -r name; do
    echo "== $name"; cat "$examples/$name.expected"
    echo "== $name, lines of a report"; cat "$examples/$name.lines"
done < "$gallery/args" | cmp -s - <(sed '/^== views and surveys$/,$d' "$gallery/stdout") || {
    echo "crates/gallery/stdout is not what its args expect"
    exit 1
}
"$top/tools/check/script_doc.py" > /dev/null || exit 1
games=$(cat "$examples"/*.expected | awk '/^\[Event /{left=2} left; /^$/{if(left) left--}')
if [ "$(echo "$games" | grep -c '^\[Event ')" != "$(cat "$examples"/*.script | grep -c '^pgn')" ] ||
    echo "$games" | grep -qE '^(position|shift|stipulate|insert|delete|promote|tag|mark|moves|fen|solve|built|error) '; then
    echo "the line of awk in docs/COMPOSING.md does not take the games out of the replies"
    exit 1
fi
empty=$(mktemp -d); trap 'rm -rf "$empty"' EXIT
same=0; differ=0
for script in "$examples"/*.script; do
    name=$(basename "$script" .script)
    [ -f "$examples/$name.expected" ] || continue
    last=$(grep '^build ' "$script" | tail -1)
    case "$mode:$last" in
        small:*K[A-Z]*K[A-Z] | small:*' 'K[A-Z][A-Z]*K) continue ;;
        pawnless:*' 'KPK) ;;
        pawnless:*P*) continue ;;
    esac
    want=0; grep -q '^error' "$examples/$name.expected" && want=1
    if [ "$mode" = load ]; then
        sed 's/^build /load /' "$script" | "$program" --tables "$dir" ${PAGES:+--pages "$PAGES"} > "$empty/out"; status=$?
        sed -E 's/^built (\S+) cells ([0-9]+) win \S+$/loaded \1 cells \2/' "$examples/$name.expected" > "$empty/want"
    else
        (cd "$empty" && "$program" < "$script" > "$empty/out"); status=$?
        cp "$examples/$name.expected" "$empty/want"
    fi
    if cmp -s "$empty/out" "$empty/want" && [ $status = $want ]; then
        same=$((same + 1))
    else
        differ=$((differ + 1))
        echo "$name differs (status $status, wanted $want)"
        diff "$empty/out" "$empty/want" | head -5
    fi
done
echo "$same same, $differ differ"
[ $differ = 0 ]
