# Cases of the program, for the scripts of this folder: `run` runs it, `expect` compares. Needs $top and a folder $work of its own;
# sets $program, and counts in $cases and $wrong. The words in $as come before the program, for instance a command that runs it as another user.
crate="$top/crates/studybench"; program=${STUDYBENCH:-$crate/out/studybench}
[ -x "$program" ] || (cd "$crate" && rt run < /dev/null) > /dev/null 2>&1 || { echo "studybench is not built: cd crates/studybench && rt check"; exit 2; }
cases=0; wrong=0; as=
expect() { # name, status wanted and had, standard error wanted and had, replies wanted and had
    cases=$((cases + 1))
    if [ "$2" != "$3" ] || [ "$4" != "$5" ] || [ "$6" != "$7" ]; then
        wrong=$((wrong + 1))
        echo "WRONG $1: status $3, wanted $2; error '$5', wanted '$4'; replies '$7', wanted '$6'"
    fi
}
run() { # name, status, standard error, replies, script, words of the command line
    local name=$1 status=$2 error=$3 replies=$4 script=$5; shift 5
    printf '%b' "$script" | (cd "$work" && timeout 60 $as "$program" "$@" > out 2> err); local was=${PIPESTATUS[1]}
    expect "$name" "$status" "$was" "$error" "$(cat "$work/err")" "$(printf '%b' "$replies")" "$(cat "$work/out")"
}
