#!/bin/bash
# Makes one archive of the programs, the board, the documents and the gallery, from a clean checkout that has passed the gate.
#
#   rt ci 2>&1 | tee gate.log; tools/release/web.sh; tools/release/release.sh gate.log TABLES
#   tools/release/release.sh --board      puts the board of this commit, which tools/release/web.sh has built, into dist/, for whoever has no toolchain
#   tools/release/release.sh --check      builds the board of dist/ anew, from the commit that dist/studyboard.txt names, and compares the bytes
#
# web/out/studyboard.html is taken if tools/release/web.sh has built it. TABLES, a folder of all tables (examples/all_tables.script), gives the
# printed pages of the gallery. The archive is out/studybench-VERSION-linux-x86_64.tar.gz, the same bytes for the same programs. It is unpacked
# into an empty folder and tried there with an empty PATH: the programs need the C library and nothing else.
set -e
top=$(cd "$(dirname "$0")/../.." && pwd)
if [ "$1" = --board ]; then
    cd "$top"
    [ -z "$(git status --porcelain)" ] || { echo "the checkout is not clean"; exit 1; }
    mkdir -p dist
    cp web/out/studyboard.html dist/studyboard.html
    version=$(sed -n 's/^pub const VERSION: &str = "\([^ ]*\) .*/\1/p' crates/study_console/src/command_line.rt)
    sum=$(sha256sum < dist/studyboard.html | cut -d' ' -f1)
    printf 'version %s\ncommit %s\nsha256 %s\n' "$version" "$(git rev-parse HEAD)" "$sum" | tee dist/studyboard.txt
    exit 0
fi
if [ "$1" = --check ]; then
    cd "$top"
    commit=$(sed -n 's/^commit //p' dist/studyboard.txt); sum=$(sed -n 's/^sha256 //p' dist/studyboard.txt)
    [ "$(sha256sum < dist/studyboard.html | cut -d' ' -f1)" = "$sum" ] ||
        { echo "dist/studyboard.html is not the file that dist/studyboard.txt names"; exit 1; }
    work=$(mktemp -d); trap 'rm -rf "$work"' EXIT
    git clone -q "$top" "$work/clone" && cd "$work/clone" && git checkout -q "$commit"
    build=tools/release/web.sh; [ -x "$build" ] || build=tools/web.sh  # (where it is at commits of 1.7.0 and before)
    "$build" "$work/module"
    cmp web/out/studyboard.html "$top/dist/studyboard.html" && echo "dist/studyboard.html is the board of $commit"
    exit
fi
log=$(realpath "${1:?the log of rt ci}")
tables=$(realpath "${2:?the folder of all tables}"); cd "$top"
[ -z "$(git status --porcelain)" ] || { echo "the checkout is not clean"; exit 1; }
tail -1 "$log" | grep -q '[0-9] passed, 0 failed' || { echo "the gate's last line is not '.. passed, 0 failed'"; exit 1; }
for program in studybench studyreport studyimport studymine; do
    [ -x "crates/$program/out/$program" ] || (cd "crates/$program" && rt run -- --version > /dev/null 2>&1)
done
version=$(crates/studybench/out/studybench --version | cut -d' ' -f2)
name=studybench-$version-linux-x86_64
work=$(mktemp -d); trap 'rm -rf "$work"' EXIT
here=$work/$name
mkdir -p "$here" out
for program in studybench studyreport studyimport studymine; do cp "crates/$program/out/$program" "$here/"; done
cp README.md CHANGELOG.md CONTRIBUTING.md "$here/"
cp -r docs "$here/"
cp -rL examples "$here/"
cp --parents crates/*/README.md web/README.md "$here/"
mkdir "$here/examples/pages"
for lines in examples/*.lines; do
    study=$(basename "$lines" .lines)
    "$here/studyreport" --tables "$tables" < "examples/$study.script" > "$here/examples/pages/$study.html" || [ $? = 1 ]
done
if [ -f web/out/studyboard.html ]; then cp web/out/studyboard.html "$here/"; else echo "without the board: tools/release/web.sh has not built it"; fi
{ git rev-parse HEAD; tail -5 "$log"; } > "$here/GATE"
(cd "$here" && find . -type f ! -name SHA256SUMS | LC_ALL=C sort | xargs sha256sum > SHA256SUMS)
tar -C "$work" --sort=name --owner=0 --group=0 --numeric-owner --mtime="@$(git log -1 --format=%ct)" -c "$name" |
    gzip -9n > "out/$name.tar.gz"

mkdir "$work/try"
tar -C "$work/try" -xzf "out/$name.tar.gz"
cd "$work/try/$name"
sha256sum --quiet -c SHA256SUMS
env -i PATH= ./studybench < examples/kpk_rook_not_queen.script > "$work/replies"
cmp "$work/replies" examples/kpk_rook_not_queen.expected
mkdir "$work/tables"
env -i PATH= ./studybench --tables "$work/tables" < examples/small_tables.script > /dev/null
echo 'load KK' | env -i PATH= ./studybench --tables "$work/tables" --pages 4 | grep -qx 'loaded KK cells 1280'
env -i PATH= ./studyreport --tables "$work/tables" --lines < examples/kpk_rook_not_queen.script > "$work/lines"
cmp "$work/lines" examples/kpk_rook_not_queen.lines
env -i PATH= ./studyreport --tables "$work/tables" < examples/kpk_rook_not_queen.script > "$work/page"
cmp "$work/page" examples/pages/kpk_rook_not_queen.html
echo "$top/out/$name.tar.gz"
