#!/bin/bash
# Tries the wrong bodies of tools/wrong_bodies/CRATE/*.edit: the prover has to refuse each. The gate tries only those of crates/CRATE/must-fail;
# these are tried by whoever changes the crate or its clauses, since each crate with an edit is proved once more by the gate.
#
#   tools/check/wrong_bodies.sh CRATE..     those of these crates, begun with what `rt check` kept of them
#   tools/check/wrong_bodies.sh             all of them, which takes an hour
#
# It works in a copy of the repository, and changes nothing here.
set -e
top=$(cd "$(dirname "$0")/../.." && pwd)
names=("$@"); [ $# = 0 ] && mapfile -t names < <(cd "$top/tools/wrong_bodies" && ls)
for it in "${names[@]}"; do
    [ -n "$it" ] && [ -d "$top/tools/wrong_bodies/$it" ] || { echo "tools/check/wrong_bodies.sh: tools/wrong_bodies has no folder '$it'" >&2; exit 2; }
done
copy=$(mktemp -d); trap 'rm -rf "$copy"' EXIT
(cd "$top" && tar cf - --exclude=out crates crates.txt HANDLES) | tar xf - -C "$copy"
for it in "${names[@]}"; do
    mkdir -p "$copy/crates/$it/must-fail"
    cp "$top/tools/wrong_bodies/$it"/*.edit "$copy/crates/$it/must-fail/"
done
cd "$copy" && rt must-fail "${names[@]}"
