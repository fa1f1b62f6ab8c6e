#!/bin/bash
# Compares the lists of studymine with those of an independent program, by their lengths and digests, and counts themes.
#
#   tools/run/finding.sh lists TABLES [CLASS..]     each list of tools/oracle/finding/lists.tsv, or those of some classes, over a folder of tables
#   tools/run/finding.sh filters TABLES [CLASS..]   each count of tools/oracle/finding/filters.tsv, of lists with filters
#   tools/run/finding.sh counts TABLES              a row for each of the 36 classes, as docs/FINDING.md has them
#   tools/run/finding.sh faults TABLES              what is refused, and with which status
top=$(cd "$(dirname "$0")/../.." && pwd)
mode=$1; tables=${2:+$(realpath "$2")}; shift 2 || { echo "usage: tools/run/finding.sh lists|filters|counts|faults TABLES [CLASS..]"; exit 2; }
program=${STUDYMINE:-$top/crates/studymine/out/studymine}
[ -x "$program" ] || { echo "studymine is not built: cd crates/studymine && rt run -- --help"; exit 2; }
mine() { "$program" --tables "$tables" "$@"; }

# Each list once, by its digest.
lists() {
    same=0; differ=0
    while IFS=$'\t' read -r class theme lines bytes digest; do
        [ "${class#\#}" = "$class" ] || continue
        [ -z "$wanted" ] || [[ " $wanted " = *" $class "* ]] || continue
        # shellcheck disable=SC2086
        found=$(mine "$class" $theme | sha256sum | cut -d' ' -f1)
        if [ "$found" = "$digest" ]; then
            same=$((same + 1))
        else
            differ=$((differ + 1)); echo "$class $theme differs: wanted $lines lines, $bytes bytes"
        fi
    done < "$top/tools/oracle/finding/lists.tsv"
    echo "$same lists equal, $differ differ"
    [ $differ = 0 ]
}

# Each count once.
filters() {
    same=0; differ=0
    while IFS=$'\t' read -r class words count; do
        [ "${class#\#}" = "$class" ] || continue
        [ -z "$wanted" ] || [[ " $wanted " = *" $class "* ]] || continue
        # shellcheck disable=SC2086
        found=$(mine --count "$class" $words)
        if [ "$found" = "$count" ]; then same=$((same + 1)); else differ=$((differ + 1)); echo "$class $words: $found, wanted $count"; fi
    done < "$top/tools/oracle/finding/filters.tsv"
    echo "$same counts equal, $differ differ"
    [ $differ = 0 ]
}

counts() {
    echo "| Class | Mutual zugzwangs | Underpromotions | Into a zugzwang: win, draw | With a try: win, draw | Only moves at move 1: win, draw |"
    echo "|---|---|---|---|---|---|"
    for class in KK KQK KRK KBK KNK KPK KQQK KQRK KQBK KQNK KQPK KRRK KRBK KRNK KRPK KBBK KBNK KBPK KNNK KNPK KPPK \
        KQKQ KQKR KQKB KQKN KQKP KRKR KRKB KRKN KRKP KBKB KBKN KBKP KNKN KNKP KPKP; do
        row="| $class"
        for theme in zugzwang underpromotion "into win:into draw" "try win:try draw" "win 1:draw 1"; do
            one=${theme%%:*}; two=${theme#*:}
            # shellcheck disable=SC2086
            cell=$(mine --count "$class" $one)
            # shellcheck disable=SC2086
            [ "$one" = "$two" ] || cell="$cell, $(mine --count "$class" $two)"
            row="$row | $cell"
        done
        echo "$row |"
    done
}

expect() {
    status=$1; text=$2; shift 2
    got=$("$program" "$@" 2>&1 > /dev/null); was=$?
    [ "$was" = "$status" ] && [[ "$got" = $text ]] && return
    echo "studymine $*: status $was, '$got'; wanted $status, '$text'"; bad=1
}

faults() {
    bad=0
    empty=$(mktemp -d); trap 'rm -rf "$empty"' EXIT
    expect 3 "studymine: NoTable KPK" --tables "$empty" KPK zugzwang
    expect 3 "studymine: NoTable *" --tables "$empty" KPK win 1
    expect 2 "error: NoSuchClass*" --tables "$tables" KQQQK zugzwang
    expect 2 "error: NoSuchTheme*" --tables "$tables" KPK mate
    expect 2 "*" --tables "$tables" KPK
    expect 3 "studymine: TooManyStudies" --tables "$tables" --script KRKN win 1
    printf 'no table' > "$empty/KPK.dtm"
    expect 3 "studymine: KPK.dtm: *NoTable KPK" --tables "$empty" KPK zugzwang
    if mine KPK zugzwang > /dev/full 2> /dev/null; then echo "a full device is not reported"; bad=1; fi
    [ $bad = 0 ] && echo "all faults reported"
    return $bad
}

wanted=$*
case $mode in lists | filters | counts | faults) $mode ;; *) echo "tools/run/finding.sh: $mode is none of lists, filters, counts, faults"; exit 2 ;; esac
