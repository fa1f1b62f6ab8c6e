#!/bin/bash
# Puts faults of the outside into runs of the program, one fault a run, and names each reply that is not the right one.
#
#   tools/run/faults.sh            the built program: memory, reads, writes, opened files and places in them that fail, are cut
#                              short or are broken off, then the deepest tree under limits of stack and addresses, whole
#                              devices and tools/run/files.sh; then studyreport, with tools/run/report_faults.py, and studyimport; some minutes
#   tools/run/faults.sh report     only studyreport
#   tools/run/faults.sh import     only studyimport
#   tools/run/faults.sh try [N ..] `rt try --fail-alloc N` over the small scripts, for each N (default 3 19 35 51); slow
#
# FAULTS_RUNS=N bounds the runs of one script with one kind of fault (default 24): where there are more places for the fault,
# every k-th of them is taken. A compiler `cc` makes the library of faults; the program itself is not changed.
top=$(cd "$(dirname "$0")/../.." && pwd)
work=$(mktemp -d); trap 'rm -rf "$work"' EXIT
. "$top/tools/run/cases.sh"
export FAULTS_PROGRAM="$program" FAULTS_TOP="$top" FAULTS_WORK="$work" FAULTS_RUNS=${FAULTS_RUNS:-24}
mkdir "$work/tables"
"$program" --tables "$work/tables" < "$top/examples/small_tables.script" > /dev/null || { echo "no tables"; exit 2; }

if [ "$1" = try ]; then
    shift
    exec python3 "$top/tools/run/faults.py" try "${@:-3 19 35 51}"
fi

# One call of a kind, the FAULT_AT-th, fails (FAULT_HOW fail), does one byte (short), nothing (nothing), or is interrupted.
cat > "$work/fault.c" <<'END'
#define _GNU_SOURCE
#include <errno.h>
#include <fcntl.h>
#include <stdarg.h>
#include <stdio.h>
#include <stdlib.h>
#include <string.h>
#include <sys/syscall.h>
#include <unistd.h>
extern void *__libc_malloc(size_t);
extern void *__libc_realloc(void *, size_t);
static const char *kind, *how; static long at, on, chunk, seen; static int ready;
__attribute__((constructor)) static void start(void) {
    kind = getenv("FAULT_KIND"); how = getenv("FAULT_HOW");
    at = atol(getenv("FAULT_AT") ? getenv("FAULT_AT") : "0"); on = getenv("FAULT_ON") != 0;
    chunk = atol(getenv("FAULT_CHUNK") ? getenv("FAULT_CHUNK") : "0"); ready = kind != 0;
}
__attribute__((destructor)) static void stop(void) {
    const char *name = getenv("FAULT_COUNT"); char text[32]; int n, fd;
    if (!name) return;
    n = snprintf(text, sizeof text, "%ld\n", seen);
    fd = syscall(SYS_openat, AT_FDCWD, name, O_WRONLY | O_CREAT | O_TRUNC, 0600);
    if (fd >= 0) { syscall(SYS_write, fd, text, n); syscall(SYS_close, fd); }
}
static int hit(const char *what) {
    if (!ready || strcmp(kind, what)) return 0;
    seen++;
    return on ? at && seen >= at : seen == at;
}
void *malloc(size_t n) { if (hit("alloc")) { errno = ENOMEM; return 0; } return __libc_malloc(n); }
void *realloc(void *p, size_t n) { if (hit("alloc")) { errno = ENOMEM; return 0; } return __libc_realloc(p, n); }
ssize_t read(int fd, void *to, size_t n) {
    if (fd == 0 && chunk && n > (size_t)chunk) n = chunk;
    if (hit(fd == 0 ? "stdin" : "fileread")) {
        if (!strcmp(how, "short")) n = n ? 1 : 0;
        else { errno = strcmp(how, "interrupt") ? EIO : EINTR; return -1; }
    }
    return syscall(SYS_read, fd, to, n);
}
ssize_t write(int fd, const void *from, size_t n) {
    if (fd != 2 && hit(fd == 1 ? "stdout" : "filewrite")) {
        if (!strcmp(how, "short")) n = n ? 1 : 0;
        else if (!strcmp(how, "nothing")) return 0;
        else { errno = strcmp(how, "interrupt") ? ENOSPC : EINTR; return -1; }
    }
    return syscall(SYS_write, fd, from, n);
}
ssize_t __write(int fd, const void *from, size_t n) { return write(fd, from, n); }
int open(const char *name, int flags, ...) {
    va_list rest; va_start(rest, flags); int mode = va_arg(rest, int); va_end(rest);
    if (hit("open")) { errno = EACCES; return -1; }
    return syscall(SYS_openat, AT_FDCWD, name, flags, mode);
}
off_t lseek(int fd, off_t where, int from) {
    if (hit("seek")) { errno = EIO; return -1; }
    return syscall(SYS_lseek, fd, where, from);
}
END
cc -shared -fPIC -O1 -fno-builtin -o "$work/fault.so" "$work/fault.c" || { echo "cc is needed for the library of faults"; exit 2; }
export FAULTS_REPORT=${STUDYREPORT:-$top/crates/studyreport/out/studyreport}
reported() { # studyreport under the same faults, and its own cases
    [ -x "$FAULTS_REPORT" ] || (cd "$top/crates/studyreport" && rt run < /dev/null) > /dev/null 2>&1 || { echo "studyreport is not built"; return 2; }
    python3 "$top/tools/run/faults.py" report; local swept=$?
    python3 "$top/tools/run/report_faults.py" "$work/tables" && [ $swept = 0 ]
}
imported() { # studyimport: a call that fails ends the run with its name, and what was written is a front of the script; else nothing is changed
    local import=${STUDYIMPORT:-$top/crates/studyimport/out/studyimport} games="$top/examples/import/three_games.pgn" runs=0 bad=0 kind how at was name
    [ -x "$import" ] || (cd "$top/crates/studyimport" && rt run < /dev/null) > /dev/null 2>&1 || { echo "studyimport is not built"; return 2; }
    "$import" < "$games" > "$work/script"
    for kind in alloc stdin stdout; do for how in fail short interrupt; do
        [ $kind = alloc ] && [ $how != fail ] && continue
        for at in $(seq 1 "$FAULTS_RUNS"); do
            (
                cd "$work" && export FAULT_KIND=$kind FAULT_HOW=$how FAULT_AT=$at FAULT_CHUNK=400
                LD_PRELOAD="$work/fault.so" timeout 60 "$import" < "$games" > out 2> err
            )
            was=$?; runs=$((runs + 1)); name=$(sed -n 's/^studyimport: //p' "$work/err")
            case $was,$kind,$name in
                0,*,) cmp -s "$work/out" "$work/script" ;;
                3,alloc,OutOfMemory | 3,stdin,ReadDevice | 3,stdout,WriteDevice) cmp -s -n "$(stat -c %s "$work/out")" "$work/out" "$work/script" ;;
                *) false ;;
            esac || { bad=$((bad + 1)); echo "WRONG studyimport: $kind $how at $at: status $was, '$name'"; }
        done
    done; done
    echo "$runs runs of studyimport, $bad wrong"
    [ $bad = 0 ]
}
if [ "$1" = report ]; then reported; exit $?; fi
if [ "$1" = import ]; then imported; exit $?; fi
python3 "$top/tools/run/faults.py" sweep; swept=$?
python3 "$top/tools/run/faults.py" squeeze; squeezed=$?

# Whole devices.
mate='position k7/8/1K6/8/8/8/8/7R w - - 0 1\n'
(cd "$work" && printf '%b' "$mate" | timeout 60 "$program" > /dev/full 2> err); expect "full device" 3 $? "studybench: WriteDevice" "$(cat "$work/err")" "" ""
(cd "$work" && printf '%b' "$mate" | timeout 60 "$program" >&- 2> err); expect "closed output" 3 $? "studybench: WriteDevice" "$(cat "$work/err")" "" ""
mkfifo "$work/pipe"
(cd "$work" && (sleep 1; printf '%b' "$mate") | timeout 60 "$program" > pipe 2> err; echo $? > status) & before=$!
: < "$work/pipe"; wait "$before"; expect "output that nobody reads" 3 "$(cat "$work/status")" "studybench: WriteDevice" "$(cat "$work/err")" "" ""
(cd "$work" && timeout 60 "$program" < . > out 2> err)
expect "input that is a folder" 3 $? "studybench: ReadDevice" "$(cat "$work/err")" "" "$(cat "$work/out")"
(cd "$work" && timeout 60 "$program" <&- > out 2> err); expect "closed input" 3 $? "studybench: ReadDevice" "$(cat "$work/err")" "" "$(cat "$work/out")"
(cd "$work" && timeout 60 "$program" --help > /dev/full 2> err); expect "help to a full device" 3 $? "studybench: WriteDevice" "$(cat "$work/err")" "" ""
(cd "$work" && timeout 60 "$program" --help < /dev/null > out 2> err); was=$?
expect "help" 0 $was "" "$(cat "$work/err")" yes "$([ "$(grep -c PATH "$work/out")" -gt 5 ] && echo yes)"
(cd "$work" && timeout 60 "$program" --tables "" < /dev/null > out 2> err); was=$?
expect "an empty folder name" 2 $was yes "$(grep -q '^error: ' "$work/err" && echo yes)" "" "$(cat "$work/out")"
(cd "$work" && timeout 60 "$program" --version < /dev/null > out 2> err); was=$?
expect "version" 0 $was "" "$(cat "$work/err")" yes "$(grep -q '^studybench [0-9.]* (kit ' "$work/out" && echo yes)"
for words in "--pages 0" "--pages 4097" "--pages x" "--pages" "--bad" "a.script"; do
    (cd "$work" && timeout 60 "$program" $words < /dev/null > out 2> err); was=$?
    expect "$words" 2 $was yes "$(grep -q '^error: ' "$work/err" && echo yes)" "" "$(cat "$work/out")"
    echo "standard error of $words: $(head -1 "$work/err")"
done

# A file that is cut, or has a byte turned, while it is read by pages; then it is whole again.
while_read() { # name, what to do to the file, the reply wanted
    mkdir -p "$work/live"; cp "$work/tables/KRK.dtm" "$work/live/"
    rm -f "$work/in" "$work/out"; mkfifo "$work/in"; : > "$work/out"
    (cd "$work" && timeout 60 "$program" --tables live --pages 1 < in > out 2> err; echo $? > status) & local before=$!
    exec 9> "$work/in"
    printf '%b' "load KRK\n$mate" >&9; await 2
    eval "$2"
    printf 'stipulate white win\nmark root\n' >&9; await 4
    cp "$work/tables/KRK.dtm" "$work/live/KRK.dtm"
    printf 'stipulate white win\nmark root\n' >&9
    exec 9>&-; wait "$before"
    local wanted; wanted=$(printf '%b' "loaded KRK cells 81920\n$mate$3\nerror NoStudy\nstipulate White to win\nmark root win 1 - faults 0\n")
    expect "$1" 1 "$(cat "$work/status")" "" "$(cat "$work/err")" "$wanted" "$(cat "$work/out")"
}
await() { for _ in $(seq 100); do [ "$(wc -l < "$work/out")" -ge "$1" ] && return; sleep 0.05; done; }
while_read "a table that is cut" 'truncate -s 5000 "$work/live/KRK.dtm"' "error TableRead Short"
while_read "a table without a byte" ': > "$work/live/KRK.dtm"' "error TableRead Short"
while_read "a byte turned" 'printf "\\377" | dd of="$work/live/KRK.dtm" bs=1 seek=$((64 + 4128 * 5 + 63)) conv=notrunc 2> /dev/null' "error TableRead Page 5"
echo "$cases cases of whole devices, $wrong wrong"
"$top/tools/run/files.sh"; filed=$?
reported; reports=$?
imported; read=$?
[ $swept = 0 ] && [ $squeezed = 0 ] && [ $wrong = 0 ] && [ $filed = 0 ] && [ $reports = 0 ] && [ $read = 0 ]
