#!/bin/bash
# Prints the pages of the gallery's studies and looks them over.
#
#   tools/run/report.sh TABLES [FOLDER]     the pages of examples/*.script by the tables of a folder, into FOLDER (else /tmp/report)
#
# Each script has a file, all.html has all of them with the list at the end, and index.html names them. `tidy` must report nothing,
# and lines and pages must have the same facts (report_facts.py, where studybench is built too). With chromium there is a picture of each
# page, all.pdf as it is printed, and with pdftoppm its first sides in grey.
top=$(cd "$(dirname "$0")/../.." && pwd); examples="$top/examples"
[ -d "${1:-}" ] || { echo "usage: tools/run/report.sh TABLES [FOLDER]" >&2; exit 2; }
tables=$(realpath "$1"); out=${2:-/tmp/report}
program=${STUDYREPORT:-$top/crates/studyreport/out/studyreport}; bench=${STUDYBENCH:-$top/crates/studybench/out/studybench}
[ -x "$program" ] || { echo "studyreport is not built: cd crates/studyreport && rt run -- --help"; exit 2; }
command -v tidy > /dev/null || { echo "tidy is not installed"; exit 2; }
mkdir -p "$out"
right=0; wrong=0
looked_over() { # name, a file of pages: whether tidy has nothing to say
    local said; said=$(tidy -q -e "$2" 2>&1)
    if [ -z "$said" ]; then right=$((right + 1)); else wrong=$((wrong + 1)); echo "WRONG $1: $said"; fi
}
{
    echo '<!DOCTYPE html><html lang="en"><head><meta charset="utf-8"><title>Printed pages of the gallery</title></head><body>'
    echo '<h1>Printed pages of the gallery</h1><ul><li><a href="all.html">all studies</a></li>'
} > "$out/index.html"
for script in "$examples"/*.script; do
    name=$(basename "$script" .script)
    [ -f "$examples/$name.lines" ] || continue
    page="$out/$name.html"
    "$program" --tables "$tables" < "$script" > "$page"; was=$?
    [ $was -le 1 ] || { echo "WRONG $name: status $was"; wrong=$((wrong + 1)); continue; }
    looked_over "$name" "$page"
    echo "<li><a href=\"$name.html\">$name</a></li>" >> "$out/index.html"
done
echo '</ul></body></html>' >> "$out/index.html"
for script in "$examples"/*.script; do
    [ -f "${script%.script}.lines" ] && cat "$script"
done | "$program" --tables "$tables" > "$out/all.html"
looked_over "all in one run" "$out/all.html"
looked_over "the index" "$out/index.html"
echo "$right files of pages without a word of tidy, $wrong wrong, in $out"
STUDYREPORT="$program" "$top/tools/oracle/report_facts.py" check "$tables" || wrong=$((wrong + 1))
[ ! -x "$bench" ] || STUDYREPORT="$program" STUDYBENCH="$bench" "$top/tools/oracle/report_facts.py" agree "$tables" || wrong=$((wrong + 1))
if browser=$(command -v chromium); then
    quiet="--headless --no-sandbox --disable-gpu --hide-scrollbars --disable-dev-shm-usage"
    for page in "$out"/*.html; do
        timeout 60 "$browser" $quiet --window-size=860,1600 --screenshot="${page%.html}.png" "file://$page" > /dev/null 2>&1 ||
            { echo "WRONG $page: no picture"; wrong=$((wrong + 1)); }
    done
    timeout 100 "$browser" $quiet --no-pdf-header-footer --print-to-pdf="$out/all.pdf" "file://$out/all.html" > /dev/null 2>&1
    command -v pdftoppm > /dev/null && pdftoppm -gray -r 70 -l 4 -png "$out/all.pdf" "$out/grey"
    ls "$out"/*.png | wc -l | sed 's/$/ pictures/'
fi
[ $wrong = 0 ]
