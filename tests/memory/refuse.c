/*
 * Refuses requests for memory of the program that it is loaded into, before the C library (LD_PRELOAD):
 *
 *     REFUSE_FROM=N   refuse the N-th request that is counted; none if it is 0 or missing
 *     REFUSE_ALL=1    and all after it
 *     REFUSE_TRY=1    count requests only from the write of the line "try" to the next write; else from the start
 *     REFUSE_TELL=F   write a byte to the file descriptor F for each request that is refused
 */
#include <errno.h>
#include <stddef.h>
#include <stdlib.h>
#include <string.h>
#include <sys/syscall.h>
#include <unistd.h>

void *__libc_malloc(size_t size);
void *__libc_calloc(size_t count, size_t size);
void *__libc_realloc(void *block, size_t size);
void *__libc_memalign(size_t align, size_t size);

static unsigned long from, count;
static int all, waits, counts;
static int tell = -1;

static unsigned long number(const char *name) {
    const char *value = getenv(name);
    return value ? strtoul(value, NULL, 10) : 0;
}

__attribute__((constructor)) static void start(void) {
    from = number("REFUSE_FROM");
    all = number("REFUSE_ALL") != 0;
    waits = number("REFUSE_TRY") != 0;
    if (getenv("REFUSE_TELL"))
        tell = (int)number("REFUSE_TELL");
    counts = !waits;
}

static int is_refused(void) {
    if (!counts || from == 0)
        return 0;
    count++;
    if (all ? count < from : count != from)
        return 0;
    if (tell >= 0)
        syscall(SYS_write, tell, "r", 1);
    errno = ENOMEM;
    return 1;
}

void *malloc(size_t size) { return is_refused() ? NULL : __libc_malloc(size); }

void *calloc(size_t n, size_t size) { return is_refused() ? NULL : __libc_calloc(n, size); }

void *realloc(void *block, size_t size) { return is_refused() ? NULL : __libc_realloc(block, size); }

void *memalign(size_t align, size_t size) { return is_refused() ? NULL : __libc_memalign(align, size); }

void *aligned_alloc(size_t align, size_t size) { return memalign(align, size); }

int posix_memalign(void **block, size_t align, size_t size) {
    void *found = memalign(align, size);
    if (found == NULL)
        return ENOMEM;
    *block = found;
    return 0;
}

ssize_t write(int file, const void *bytes, size_t size) {
    if (waits)
        counts = size == 4 && memcmp(bytes, "try\n", 4) == 0;
    return syscall(SYS_write, file, bytes, size);
}
