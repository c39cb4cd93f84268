/* Fails one allocation of a program: preloaded, with FAIL_ALLOC=N, the Nth call of malloc, calloc or realloc of the
   process, counted from 1 over all its threads, gets nothing. At the end the number of these calls is written to the file
   COUNT_FILE. Needs the GNU C library. */
#define _GNU_SOURCE
#include <errno.h>
#include <fcntl.h>
#include <stdatomic.h>
#include <stdlib.h>
#include <sys/syscall.h>
#include <unistd.h>

extern void *__libc_malloc(size_t);
extern void *__libc_calloc(size_t, size_t);
extern void *__libc_realloc(void *, size_t);

static atomic_long calls;
static atomic_long failing = -1;

static int fails(void) {
    if (atomic_load(&failing) < 0) {
        const char *number = getenv("FAIL_ALLOC");
        atomic_store(&failing, number ? atol(number) : 0);
    }
    if (atomic_fetch_add(&calls, 1) + 1 != atomic_load(&failing)) return 0;
    errno = ENOMEM;
    return 1;
}

void *malloc(size_t size) {
    return fails() ? NULL : __libc_malloc(size);
}

void *calloc(size_t count, size_t size) {
    return fails() ? NULL : __libc_calloc(count, size);
}

void *realloc(void *old, size_t size) {
    return fails() ? NULL : __libc_realloc(old, size);
}

static void tell(void) {
    const char *where = getenv("COUNT_FILE");
    char digits[24];
    int at = sizeof digits, file;
    long count = atomic_load(&calls);
    if (!where || (file = open(where, O_WRONLY | O_CREAT | O_TRUNC, 0644)) < 0) return;
    do digits[--at] = '0' + count % 10; while (count /= 10);
    ssize_t written = write(file, digits + at, sizeof digits - at);
    (void)written;
}

// A test ends by this call, which runs no destructors.
__attribute__((noreturn)) void _exit(int status) {
    tell();
    for (;;) syscall(SYS_exit_group, status);
}

__attribute__((destructor)) static void tell_at_the_end(void) {
    tell();
}
