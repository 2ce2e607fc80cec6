#!/bin/sh
# Runs isodist with one allocation refused, the first, the second and so on, until a run asks for fewer:
# each run has to end with status 5 and a part of the report, or with the whole report and status 0.
# Not part of the gate. Before it: rt run in crates/isodist. It needs a C compiler.
#
#   sh bench/refused_memory.sh [WORDS FILE]..    (none: list, modes and amps over small files)
set -eu
top=$(cd "$(dirname "$0")/.." && pwd)
program=$top/crates/isodist/out/isodist
room=$(mktemp -d)
trap 'rm -rf "$room"' EXIT

cat > "$room/refuse.c" <<'END'
#define _GNU_SOURCE
#include <dlfcn.h>
#include <errno.h>
#include <stdlib.h>
#include <string.h>
#include <unistd.h>

static long asked, refused = -1;

/* whether this is the allocation to refuse; at the end of the run the count goes to the file descriptor 9 */
static int is_refused(void) {
    if (refused < 0) {
        const char *said = getenv("REFUSED");
        refused = said ? atol(said) : 0;
    }
    return ++asked == refused;
}

static void *next(const char *name) { return dlsym(RTLD_NEXT, name); }

void *malloc(size_t size) {
    static void *(*real)(size_t);
    if (!real) real = (void *(*)(size_t))next("malloc");
    return is_refused() ? NULL : real(size);
}

void *realloc(void *old, size_t size) {
    static void *(*real)(void *, size_t);
    if (!real) real = (void *(*)(void *, size_t))next("realloc");
    return is_refused() ? NULL : real(old, size);
}

void *aligned_alloc(size_t align, size_t size) {
    static void *(*real)(size_t, size_t);
    if (!real) real = (void *(*)(size_t, size_t))next("aligned_alloc");
    return is_refused() ? NULL : real(align, size);
}

int posix_memalign(void **block, size_t align, size_t size) {
    static int (*real)(void **, size_t, size_t);
    if (!real) real = (int (*)(void **, size_t, size_t))next("posix_memalign");
    return is_refused() ? ENOMEM : real(block, align, size);
}

__attribute__((destructor)) static void tell(void) {
    if (refused > 0 && asked < refused) (void)!write(9, "fewer\n", 6);
}
END
cc -O1 -shared -fPIC -o "$room/refuse.so" "$room/refuse.c" -ldl

# refuses the allocations of a run one after another
refuse_each() {
    words=$1 file=$2
    "$program" $words < "$file" > "$room/whole"
    n=1
    ended=0
    while :; do
        status=0
        REFUSED=$n LD_PRELOAD="$room/refuse.so" "$program" $words < "$file" > "$room/out" 2> "$room/err" 9> "$room/count" || status=$?
        size=$(wc -c < "$room/out")
        head -c "$size" "$room/whole" | cmp -s - "$room/out" || { echo "$words $file: allocation $n: no part of the report"; exit 1; }
        case $status in
        0) cmp -s "$room/whole" "$room/out" || { echo "$words $file: allocation $n: status 0 and a part of the report"; exit 1; }
           ended=$((ended + 1)) ;;
        5) # nothing is said where there was no memory for the words
           case $(cat "$room/err") in "" | "isodist: out of memory") ;; *) echo "$words $file: allocation $n: $(cat "$room/err")"; exit 1 ;; esac ;;
        *) echo "$words $file: allocation $n: status $status"; exit 1 ;;
        esac
        [ -s "$room/count" ] && break
        n=$((n + 1))
    done
    echo "$words $file: $((n - 1)) allocations refused in turn, $((ended - 1)) of them without an effect"
}

if [ $# -gt 0 ]; then
    while [ $# -gt 1 ]; do
        refuse_each "$1" "$2"
        shift 2
    done
else
    cd "$top"
    refuse_each list examples/inversion.isod
    refuse_each modes examples/srtio3_modes.isod
    refuse_each amps bench/two_orbits.isod
fi
