#!/bin/bash
# Tests studyboard.html: types, format, pure functions, and the page in headless Chromium, opened from its file.
#
#   tools/release/web_test.sh [--short] [TABLES]
#   tools/release/web_test.sh --sources           only types, format and pure functions, in seconds: no page is needed
#
# TABLES has the files of tables that examples/all_tables.script builds; without it only what needs none is tried. --short: one
# study by mouse, 20 scripts, and that nothing is lost; tables of two and three men are enough for it. STUDYBOARD names
# another page than web/out/studyboard.html; SHOTS a folder for pictures; STUDYBENCH the native program.
top=$(cd "$(dirname "$0")/../.." && pwd); mode=; case ${1:-} in --*) mode=$1; shift ;; esac
case $mode in "" | --short | --sources) ;; *) echo "tools/release/web_test.sh: $mode is no option: see the head of this file" >&2; exit 2 ;; esac
tables=${1:-}; page=${STUDYBOARD:-$top/web/out/studyboard.html}; python=${PYTHON:-/usr/bin/python3}; status=0
say() { echo "tools/release/web_test.sh: $1"; }
try() { "$@" || status=1; }

if ! command -v tsc > /dev/null; then
    say "no tsc (Debian's node-typescript): types are not checked"
elif tsc -p "$top/web"; then echo "types: checked"; else status=1; fi
wide=$(cd "$top/web" && LC_ALL=C.UTF-8 grep -nP '^.{121}|\t|\s$' src/*.js tests/*.mjs tests/browser/*.py page.html board.css)
[ -z "$wide" ] || { say "over 120 columns, a tab or a space at the end:"; cut -c1-120 <<< "$wide"; status=1; }
if ! command -v clang-format > /dev/null; then
    say "no clang-format (of Debian's package of this name): the format is not checked"
elif (cd "$top/web" && clang-format --dry-run -Werror src/*.js tests/*.mjs); then echo "format: checked"; else status=1; fi
if command -v node > /dev/null; then
    (cd "$top/web" && node --test tests/ | grep -E '^(not ok|# (pass|fail))'; exit "${PIPESTATUS[0]}") || status=1
else
    say "no node: pure functions are not tried"
fi
lines=$(awk 'FNR > 300 { print FILENAME }' "$top"/web/src/*.js | sort -u)
[ -z "$lines" ] || { say "more than 300 lines: $lines"; status=1; }

[ "$mode" = --sources ] && exit $status
[ -f "$page" ] || { say "no page: run tools/release/web.sh first"; exit 1; }
if ! command -v chromedriver > /dev/null || ! "$python" -c 'import selenium' 2> /dev/null; then
    say "no chromedriver (Debian's chromium-driver, python3-selenium): the page is not tried"
    exit $status
fi
[ -n "$tables" ] || { say "no folder of tables: the page is not tried"; exit $status; }
cd "$top/web/tests/browser" || exit 1
if [ "$mode" = --short ]; then
    try "$python" gallery.py "$tables" kpk_opposition
    try "$python" scripts.py "$tables" 20
    try "$python" kept.py "$tables"
else
    try "$python" page.py "$tables"
    try "$python" entries.py "$tables"
    try "$python" judging.py "$tables"
    try "$python" listing.py "$tables"
    try "$python" composing.py "$tables"
    try "$python" finding.py "$tables"
    try "$python" kept.py "$tables"
    try "$python" screen.py "$tables"
    try "$python" gallery.py "$tables"
    try "$python" monkey.py "$tables" 1 300
    try "$python" scripts.py "$tables" 200
    try "$python" speed.py "$tables"
    try "$python" memory.py "$tables"
    try "$python" firefox.py
fi
exit $status
