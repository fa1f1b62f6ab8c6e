#!/bin/bash
# Runs all tests and programs, side by side and without any proof, and ends with 'N passed, N failed'. For a first look, and while code is written: it
# shows that they run and answer as expected. `rt ci` is the judge.
#
#   tools/test.sh             all of them: 12 processor minutes, less than four minutes on four idle processors
#   tools/test.sh NAME..      only these crates
#   JOBS=2 tools/test.sh      two at a time; else one a processor; each takes up to 2.5 GB of memory
#   SECONDS_EACH=300 ..       the most that a test or a program may run after it is compiled; else 120
#
# A program runs by `rt try` on its files stdin, args and data, and its output and exit status are compared with its files stdout and status, as in
# the gate. Tests run by `rt try --test`, each with its own limit. What a slow machine cuts is no failure: such a line ends with 'not ended', is
# counted apart, and says nothing of the program.
#
# Exit status: 0 if nothing failed, 1 if something did, 2 if it could not be tried: no rt, no such crate, no room on the disk.
say() { echo "tools/test.sh: $1" >&2; exit 2; }
cd "$(dirname "$0")/.." || exit 2
rt=$(command -v rt) || say "the Rattle toolchain's rt is not on PATH"
limit=${SECONDS_EACH:-120}; jobs=${JOBS:-$(nproc)}
case $limit in "" | 0* | *[!0-9]*) say "SECONDS_EACH is a number from 1, not $limit" ;; esac
case $jobs in "" | 0* | *[!0-9]*) say "JOBS is a number from 1, not $jobs" ;; esac

is_program() { [ -f "crates/$1/src/main.rt" ]; }
has_tests() { grep -qrs '#\[test\]' "crates/$1/src"; }
# Those that take longest come first, so that none runs by itself at the end.
all() {
    first="finding_lists test_web studyreport test_script studybench"
    for it in $first crates/*; do
        name=${it#crates/}
        if [ "$name" != "$it" ]; then case " $first " in *" $name "*) continue ;; esac; fi
        if is_program "$name" || has_tests "$name"; then echo "$name"; fi
    done
}
names=$(all)
if [ $# != 0 ]; then
    for name in "$@"; do
        case $name in -*) say "$name is no option: see the head of this file" ;; */* | .*) say "'$name' is no crate" ;; esac
        [ -d "crates/$name/src" ] || say "'$name' is no crate"
        is_program "$name" || has_tests "$name" || say "$name is a library without tests; those of its layer are in crates/test_*"
    done
    names=$(printf '%s\n' "$@")
fi
out=$(mktemp -d 2> /dev/null) || say "no room in ${TMPDIR:-/tmp}"
dd if=/dev/zero of="$out/room" bs=1M count=$((64 * jobs)) 2> /dev/null || { rm -rf "$out"; say "no room in ${TMPDIR:-/tmp}: $((64 * jobs)) MB are needed"; }
rm "$out/room"; trap 'rm -rf "$out"; exit 2' INT TERM; export out limit

# `rt try` compiles without optimization, and tests that build tables then run some twenty times as long. So all are tried by a copy of the kit, links
# but for rt itself, in which the same compiler is called with -O1. The prover is left out: `rt try` takes from it only a hint about names, for twelve
# seconds or more each time.
kit=$(dirname "$(dirname "$(readlink -f "$rt")")")
if [ -f "$kit/bin/rtlib.py" ] && [ -x "$kit/toolchain/bin/clang" ]; then
    mkdir -p "$out/kit/bin" "$out/kit/toolchain/bin"
    for it in "$kit"/* "$kit"/bin/rattle-* "$kit"/toolchain/* "$kit"/toolchain/bin/*; do
        [ -d "$out/kit${it#"$kit"}" ] || ln -s "$it" "$out/kit${it#"$kit"}"
    done
    cp "$kit/bin/rt" "$kit/bin/rtlib.py" "$out/kit/bin"; rm "$out/kit/toolchain/bin/clang"
    # shellcheck disable=SC2016
    printf '#!/bin/bash\nexec %q "${@/#-O0/-O1}"\n' "$kit/toolchain/bin/clang" > "$out/kit/toolchain/bin/clang"
    chmod +x "$out/kit/toolchain/bin/clang"; PATH=$out/kit/bin:$PATH
else
    echo "tools/test.sh: $kit has no rtlib.py or clang where they are known: all runs are without optimization, and take an hour" >&2
fi

# What a file of a crate has, or nothing where it is not there
of() { [ -f "$1" ] && echo "$1" || echo /dev/null; }

program() {
    words=(); args=(); want=0
    if [ -d data ]; then while read -r it; do words+=(--data "${it#data/}=$it"); done < <(find data -type f); fi
    [ -f args ] && mapfile -t args < args
    [ -f status ] && want=$(tr -d '[:space:]' < status)
    rt try --seconds "$limit" "${words[@]}" -- "${args[@]}" < "$(of stdin)" > "$out/$1.stdout" 2> "$out/$1.log"
    status=$?
    if [ "$status" = "$want" ] && cmp -s "$out/$1.stdout" "$(of stdout)"; then echo "program $1 ... ok"
    elif grep -q 'no-answer' "$out/$1.log"; then echo "program $1 ... not ended in $limit seconds"
    elif [ "$status" = "$want" ]; then echo "program $1 ... FAILED (its output is not its file stdout)"
    else echo "program $1 ... FAILED (status $status, wanted $want)"; fi
}

# `rt try` says FAILED of a test that did not end in time, too, with the reason in the line after it.
tests() {
    rt try --test --seconds "$limit" > "$out/$1.log" 2>&1
    awk -v limit="$limit" -v crate="$1" '
        failed != "" { print failed (/no-answer/ ? "not ended in " limit " seconds" : "FAILED"); failed = "" }
        /^test .* \.\.\. ok$/ { print; any = 1 }
        /^test .* \.\.\. FAILED$/ { failed = substr($0, 1, length($0) - 6); any = 1 }
        END { if (failed != "") print failed "FAILED"; if (!any) print "tests of " crate " ... FAILED (they did not run)" }' "$out/$1.log"
}
one() { cd "crates/$1" || exit 2; if [ -f src/main.rt ]; then program "$1"; else tests "$1"; fi; }
export -f of program tests one

echo "$names" | xargs -P "$jobs" -I{} bash -c 'one {}' | tee "$out/all" 2> /dev/null; written=${PIPESTATUS[2]}
head -c 4096 /dev/zero 2> /dev/null > "$out/room" || written=1
# (`rt try` ends each log with a line of its own)
if [ "$written" != 0 ] || [ -n "$(find "$out" -name '*.log' -empty)" ] || grep -qs 'No space left on device' "$out"/*.log; then
    rm -rf "$out"; say "no room on the disk: nothing is known of those that failed"
fi
passed=$(grep -c ' \.\.\. ok$' "$out/all"); failed=$(grep -c ' \.\.\. FAILED' "$out/all"); late=$(grep -c ' \.\.\. not ended' "$out/all")
[ "$late" = 0 ] || echo "$late not ended in time: nothing is known of them"
[ "$failed" = 0 ] || { rm -rf "$out/kit"; echo "what those that failed said: $out"; }
echo "$passed passed, $failed failed"
[ "$failed" = 0 ] || exit 1
rm -rf "$out"
