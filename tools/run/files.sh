#!/bin/bash
# Runs of the program over real files: tables that are built, saved, loaded by another run, read by one page and verified; files
# that are damaged, cut, too long, of another class, unreadable, folders, or not there. Each run goes on after a refusal.
#
#   tools/run/files.sh
#
# It compares each reply, the status and standard error with the right ones, and ends with 1 where one differs. Some seconds.
top=$(cd "$(dirname "$0")/../.." && pwd)
work=$(mktemp -d); trap 'rm -rf "$work"' EXIT; chmod 755 "$work"
. "$top/tools/run/cases.sh"
tables="$work/tables"; mkdir "$tables"
kk='built KK cells 1280 win -\n'; krk='built KRK cells 81920 win 31\n'; loaded='loaded KRK cells 81920\n'
place='position k7/8/1K6/8/8/8/8/7R w - - 0 1\n'; study="${place}stipulate white win\nmark root\n"
marked="${place}stipulate White to win\nmark root win 1 - faults 0\n"
unread() { printf '%s' "${place}error TableRead $1\nerror NoStudy\n"; }

# A command line that is refused.
(cd "$work" && timeout 60 "$program" --tables "" < /dev/null > out 2> err); expect "a folder without a name" 2 $? "" "$(cat "$work/out")" "" ""
(cd "$work" && timeout 60 "$program" --pages 4097 < /dev/null > out 2> err); expect "too many pages" 2 $? "" "$(cat "$work/out")" "" ""

# Saved by one run, loaded by others.
run "built and saved" 0 "" "${kk}saved KK bytes 4192\n${krk}saved KRK bytes 82624\n" "build KK\nsave KK\nbuild KRK\nsave KRK\n" --tables "$tables"
expect "sizes of files" "4192 82624" "$(echo $(stat -c %s "$tables/KK.dtm" "$tables/KRK.dtm"))" "" "" "" ""
run "loaded and verified" 1 "" \
    "error MissingTable KK\nloaded KK cells 1280\n${loaded}verified KRK yes\nverified KK yes\n${marked}error NoFile\n" \
    "load KRK\nload KK\nload KRK\nverify KRK\nverify KK\n${study}load KQK\n" --tables "$tables"
run "read by one page" 1 "" "error PagedMode\n${loaded}error PagedMode\nerror PagedMode\n${marked}" \
    "build KK\nload KRK\nverify KRK\nsave KRK\n$study" --tables "$tables" --pages 1
run "saved again" 0 "" "loaded KK cells 1280\n${loaded}saved KRK bytes 82624\n" "load KK\nload KRK\nsave KRK\n" --tables "$tables"
run "loaded again" 0 "" "$kk${loaded}verified KRK yes\n" "build KK\nload KRK\nverify KRK\n" --tables "$tables"

# A file of KRK that is not the table's: what is done to it, the reply to `load`, and where that tells no fault, the fault by pages.
damaged() { # name, command over $file, reply to load, reply to load by pages, and then fault of the page
    local file="$work/odd/KRK.dtm" replies
    rm -rf "$work/odd"; mkdir "$work/odd"; cp "$tables/KRK.dtm" "$file"
    eval "$2"
    run "$1" 1 "" "$kk$3\n${krk}verified KRK yes\n$marked" "build KK\nload KRK\nbuild KRK\nverify KRK\n$study" --tables "$work/odd"
    if [ -z "$5" ]; then
        run "$1, by one page" 1 "" "$4\n${place}error NoTable KRK\nerror NoStudy\n" "load KRK\n$study" --tables "$work/odd" --pages 1
    else
        replies="$4\n$(unread "$5")"; [ "$5" = none ] && replies="$4\n$marked"
        run "$1, by one page" $([ "$5" = none ] && echo 0 || echo 1) "" "$replies" "load KRK\n$study" --tables "$work/odd" --pages 1
    fi
}
turn() { printf "$2" | dd of="$file" bs=1 seek="$1" conv=notrunc 2> /dev/null; }
whole=${loaded%\\n}
damaged "a byte turned" "turn $((64 + 4128 * 5 + 63)) '\\377'" "error PageDamaged 5" "$whole" "Page 5"
damaged "a byte turned in a page that is not asked" "turn $((64 + 4128 * 19 + 7)) '\\377'" "error PageDamaged 19" "$whole" none
damaged "a byte of a digest turned" "turn $((64 + 4128 * 5 + 4100)) '\\001\\002'" "error PageDamaged 5" "$whole" "Page 5"
damaged "another kind of file" "turn 0 T" "error NotATable" "error NotATable" ""
damaged "another version" "turn 8 '\\011'" "error Version 9" "error Version 9" ""
damaged "an unknown class" "turn 17 X" "error ClassUnknown" "error ClassUnknown" ""
damaged "a header with a byte turned" "turn 40 '\\001\\002'" "error HeaderDamaged" "error HeaderDamaged" ""
damaged "a file without its last byte" 'truncate -s 82623 "$file"' "error Cut" "$whole" none
damaged "a file cut in the page that is asked" "truncate -s $((64 + 4128 * 5 + 9)) \"\$file\"" "error Cut" "$whole" Short
damaged "a file cut in its header" 'truncate -s 63 "$file"' "error Cut" "error TableRead Short" ""
damaged "an empty file" ': > "$file"' "error Cut" "error TableRead Short" ""
damaged "a file with a byte more" 'printf x >> "$file"' "error TrailingBytes" "$whole" none
damaged "a file of another class" 'cp "$tables/KK.dtm" "$file"' "error OtherClass KK" "error OtherClass KK" ""
damaged "a folder with the name of a table" 'rm "$file"; mkdir "$file"' "error Device" "error TableRead Device" ""
damaged "no file" 'rm "$file"' "error NoFile" "error NoFile" ""
damaged "a link to itself" 'rm "$file"; ln -s KRK.dtm "$file"' "error Device" "error Device" ""

# Folders that are not there, or are none; a file and a folder that may not be written or read.
run "a folder that is not there" 1 "" "error NoFile\n${kk}error Device\nbuilt KQK cells 81920 win 19\n" \
    "load KK\nbuild KK\nsave KK\nbuild KQK\n" --tables "$work/absent"
run "the same by one page" 1 "" "error NoFile\n" "load KK\n" --tables "$work/absent" --pages 1
: > "$work/file"
refused="error Device\n${kk}error Device\nverified KK yes\n"; tried="load KK\nbuild KK\nsave KK\nverify KK\n"
run "a folder that is a file" 1 "" "$refused" "$tried" --tables "$work/file"
run "the same by one page" 1 "" "error Device\n" "load KK\n" --tables "$work/file" --pages 1
mkdir -p "$work/named/KK.dtm"
run "a folder in place of the file that is saved" 1 "" "$refused" "$tried" --tables "$work/named"
mkdir "$work/full"; ln -s /dev/full "$work/full/KK.dtm"
run "a table to a full device" 1 "" "${kk}error Device\nverified KK yes\n" "build KK\nsave KK\nverify KK\n" --tables "$work/full"
# Permissions do not bind root, which has to be another user then.
as=; [ "$(id -u)" = 0 ] && as="setpriv --reuid=65534 --regid=65534 --clear-groups"
if [ -z "$as" ] || $as "$program" < /dev/null 2> /dev/null; then
    mkdir "$work/shut" "$work/closed"; cp "$tables/KK.dtm" "$work/shut/"; cp "$tables/KK.dtm" "$work/closed/"
    chmod 000 "$work/shut/KK.dtm"; chmod 000 "$work/closed"
    run "a file without permission" 1 "" "$refused" "$tried" --tables "$work/shut"
    run "the same by one page" 1 "" "error Device\n" "load KK\n" --tables "$work/shut" --pages 1
    run "a folder without permission" 1 "" "$refused" "$tried" --tables "$work/closed"
    chmod 444 "$work/shut/KK.dtm"; chmod 555 "$work/shut"
    run "a file that may only be read" 1 "" "loaded KK cells 1280\nerror Device\nverified KK yes\n" "load KK\nsave KK\nverify KK\n" --tables "$work/shut"
    run "a folder that may only be read" 1 "" "loaded KK cells 1280\n${krk}error Device\nverified KRK yes\n" \
        "load KK\nbuild KRK\nsave KRK\nverify KRK\n" --tables "$work/shut"
    chmod 755 "$work/shut" "$work/closed"
else
    echo "not run: files without permission, since root is not bound by them and setpriv is not there"
fi
as=
echo "$cases cases of files, $wrong wrong"
[ $wrong = 0 ]
