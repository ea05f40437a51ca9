/* A library that is loaded before the C library: a file to which something was written has half of its bytes after it is closed, and
   nothing is said of it. So a file system does that writes late, where the program doesn't look at what closing reports. */
long syscall(long number, ...);

enum { WRITE = 1, CLOSE = 3, SEEK = 8, TRUNCATE = 77, FROM_END = 2, HANDLES = 64 };

static char is_written[HANDLES];

long write(int handle, const void *bytes, unsigned long count)
{
    if (handle > 2 && handle < HANDLES)
        is_written[handle] = 1;
    return syscall(WRITE, handle, bytes, count);
}

int close(int handle)
{
    if (handle > 2 && handle < HANDLES && is_written[handle]) {
        is_written[handle] = 0;
        long size = syscall(SEEK, handle, 0L, FROM_END);
        if (size > 0)
            syscall(TRUNCATE, handle, size / 2);
    }
    return (int)syscall(CLOSE, handle);
}
