#!/bin/sh
# Refuses the allocations of a command one at a time: bench/fail_alloc.sh [POLICY SCRIPT [check|fmt|run]]
# The built program is run once for each of its calls of malloc and realloc, and this one call fails (needs cc and
# LD_PRELOAD). Each run must end with the status of a run in which none fails, or with 8, and write a prefix of its text.
set -eu
top=$(cd "$(dirname "$0")/.." && pwd)
program="$top/crates/gtrbac/out/gtrbac"
policy=$(realpath "${1:-$top/examples/first.policy}")
script=$(realpath "${2:-$top/examples/first.script}")
verb=${3:-run}
work=$(mktemp -d)
cd "$work"
cat > shim.c <<'C'
#define _GNU_SOURCE
#include <dlfcn.h>
#include <stdlib.h>
#include <unistd.h>
static long calls, failing = -1;
static int fails(void) {
    if (failing < 0) { const char *n = getenv("FAIL_ALLOC"); failing = n ? atol(n) : 0; }
    return ++calls == failing;
}
void *malloc(size_t n) {
    static void *(*real)(size_t);
    if (!real) real = dlsym(RTLD_NEXT, "malloc");
    return fails() ? NULL : real(n);
}
void *realloc(void *p, size_t n) {
    static void *(*real)(void *, size_t);
    if (!real) real = dlsym(RTLD_NEXT, "realloc");
    return fails() ? NULL : real(p, n);
}
__attribute__((destructor)) static void tell(void) {
    const char *where = getenv("COUNT_FILE");
    if (where) { char b[32]; int n = 0; long c = calls; do b[n++] = '0' + c % 10; while (c /= 10);
        extern int open(const char *, int, ...); int f = open(where, 0101 | 01000, 0644);
        while (n) { ssize_t w = write(f, &b[--n], 1); (void)w; } }
}
C
cc -shared -fPIC -O1 -o shim.so shim.c -ldl
ends=0
"$program" "$verb" "$policy" < "$script" > whole || ends=$?
wanted=$(LD_PRELOAD=./shim.so COUNT_FILE=count "$program" "$verb" "$policy" < "$script" > again || true; cat count)
cmp whole again
n=1; done=0; short=0
while [ "$n" -le "$wanted" ]; do
    status=0
    LD_PRELOAD=./shim.so FAIL_ALLOC=$n "$program" "$verb" "$policy" < "$script" > text || status=$?
    case $status in
        "$ends") done=$((done + 1)); cmp text whole ;;
        8) short=$((short + 1)); head -c "$(wc -c < text)" whole | cmp - text ;;
        *) echo "allocation $n: status $status"; exit 1 ;;
    esac
    n=$((n + 1))
done
echo "$wanted allocations, each refused once: $short runs ended with 8 and a prefix of the text, $done with $ends and all of it"
rm -r "$work"
