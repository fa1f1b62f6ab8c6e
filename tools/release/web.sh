#!/bin/bash
# Builds studyboard.html, the workbench as one page that opens by a double click: web/out/studyboard.html.
#
#   tools/release/web.sh [FOLDER]
#
# The proved libraries become a WebAssembly module, which web/study_web_module exports, and the page's scripts are bundled around it. The
# same commit gives the same bytes. After `.ci/run` on this commit the libraries are those that the gate proved, and some five minutes are
# left; else they are proved first. FOLDER, outside of the repository, keeps the proof of the module for the next time. The sources of the
# module end in .txt, since `rt ci` takes no crate for wasm64, and no .rt or .antt file beside its crates. Exit status: 2 where a package
# is missing, 1 where something is not proved or not built; the page is written whole or not at all.
set -e
top=$(cd "$(dirname "$0")/../.." && pwd); work=$(realpath -m "${1:-${TMPDIR:-/tmp}/studyboard}"); missing=
for it in "rt:the Rattle toolchain" "python3:Debian's python3" "esbuild:Debian's esbuild" "wasm-opt:Debian's binaryen" "zopfli:Debian's zopfli"; do
    command -v "${it%%:*}" > /dev/null || missing="$missing; ${it%%:*} is in ${it#*:}"
done
[ -z "$missing" ] || { echo "tools/release/web.sh: not everything is here$missing" >&2; exit 2; }
. "$top/tools/release/libraries.sh"
target=wasm64-unknown-unknown; name=study_web_module
mkdir -p "$work/out" "$top/web/out"

# ---- the module: the libraries proved, then the export over them
if left_by_the_gate "$top"; then
    echo "tools/release/web.sh: over the libraries that the gate proved; the module takes some five minutes"
else
    echo "tools/release/web.sh: proves study_web and the libraries below it (what earlier checks kept is taken from them; from nothing some 50 processor"
    echo "minutes, a quarter of an hour on four idle processors), then the module over them, some five minutes"
    (cd "$top/crates/study_web" && rt lib) > "$work/out/libraries.log" 2>&1 || { tail -5 "$work/out/libraries.log"; exit 1; }
fi
cd "$work"
rm -rf src specs proofs
(cd "$top/web/$name" && find . -name '*.txt') | while read -r file; do install -D -m 644 "$top/web/$name/$file" "${file%.txt}"; done
words_for "$top" std study_web
"$kit/bin/rattle" build --crate-name $name src/lib.rt "${words[@]}" --jobs 2 --links $name=c --crate-type staticlib --target $target \
    --toolchain "$kit/toolchain" --backend llvm --incremental out/incremental -o out/lib$name.a > out/module.log 2>&1 ||
    { grep -v '^statements\|^library' out/module.log | tail -20; exit 1; }
grep '^logic=' out/module.log
"$kit/bin/rattle-link" --target $target --toolchain "$kit/toolchain" -o out/$name.64.wasm out/lib$name.a

# ---- with 32-bit addresses, which every browser has
wasm-opt --enable-memory64 --enable-bulk-memory --enable-sign-ext --enable-mutable-globals --enable-multivalue --enable-reference-types \
    --enable-nontrapping-float-to-int --enable-extended-const --memory64-lowering -O3 out/$name.64.wasm -o out/$name.32.wasm

# ---- the page
for it in main worker; do
    # (from its own folder, since esbuild writes where each module stands into a comment)
    (cd "$top/web" && esbuild "src/$it.js" --bundle --minify --format=iife --target=es2020 --charset=utf8 --log-level=warning --outfile="$work/out/$it.js")
done
python3 "$top/tools/release/web_page.py" out/main.js out/worker.js out/$name.32.wasm out/studyboard.html
mv out/studyboard.html "$top/web/out/studyboard.html"
sha256sum "$top/web/out/studyboard.html"
