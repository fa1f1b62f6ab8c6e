# Sourced by tools/release/web.sh and tools/speed/build.sh: the proved libraries, as `rt ci` leaves them after `.ci/run` on this very commit.
#
# They have no stamp, so `rt lib` and `rt run` would prove them once more. `.ci/run` writes the commit beside them.

kit=$(dirname "$(dirname "$(readlink -f "$(command -v rt)")")")

# Whether the libraries of the repository at $1 are those that the gate proved of its commit, and no file of a crate has changed since.
left_by_the_gate() {
    local left="$1/crates/study_web/out"
    [ ! -f "$left/rlib/stamp" ] && [ -f "$left/rlib/study_web.rlib/format" ] && git -C "$1" diff --quiet HEAD -- crates crates.txt &&
        [ "$(cat "$left/gate" 2> /dev/null)" = "$(git -C "$1" rev-parse HEAD)" ]
}

# The words by which `rattle build` finds these libraries of the kit, and these of the repository at $1, and all below them.
words_for() { # repository, "libraries of the kit", "libraries of the repository"
    words=(-L "dependency=$kit/rlibs" --antt-project "$kit/rattle/logic/antt-project.json" --logic-built "$kit/logic_built")
    for it in $2; do words+=(--extern "$it=$kit/rlibs/$it.rlib"); done
    for it in $3; do words+=(--extern "$it=$1/crates/$it/out/rlib/$it.rlib"); done
    for it in "$1"/crates/*/out/rlib; do words+=(-L "dependency=$it"); done
}
