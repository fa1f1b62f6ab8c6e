#!/bin/bash
# The gate, and when each of its parts ended: `rt ci` with its lines about crates, edits, tests and programs, each after the minutes and seconds
# since the start. The exit status is that of `rt ci`.
#
#   tools/check/gate_times.sh [--anew] [FILE]     everything that `rt ci` prints goes to FILE too; --anew: from nothing, whatever was kept
set -o pipefail
cd "$(dirname "$0")/../.." || exit 2
rt=$(readlink -f "$(command -v rt)") || { echo "tools/check/gate_times.sh: the Rattle toolchain's rt is not on PATH" >&2; exit 2; }
flags=(); file=/dev/null
for it in "$@"; do
    case $it in
        # (a kit whose `rt ci` keeps no proofs does not know the word)
        --anew) if grep -qse --anew "$rt" "$(dirname "$rt")/rtlib.py"; then flags=(--anew); fi ;;
        -*) echo "tools/check/gate_times.sh: $it is no option" >&2; exit 2 ;;
        *) file=$it ;;
    esac
done
rt ci "${flags[@]}" 2>&1 | tee "$file" | python3 -u -c '
import sys, time
start = time.time()
for line in sys.stdin:
    if line.startswith(("rt: ", "must-fail")) or " passed, " in line:
        minutes, seconds = divmod(int(time.time() - start), 60)
        print(f"{minutes:3}:{seconds:02} {line}", end="", flush=True)
'
