/* Has a program's output go out in pieces: loaded before the C library (bench/looks/edges.py). */
#define _GNU_SOURCE
#include <errno.h>
#include <stddef.h>
#include <sys/syscall.h>
#include <sys/types.h>
#include <unistd.h>

static long calls = 0;

/* Each second write to standard output is interrupted. The others take one byte. */
ssize_t write(int file, const void *data, size_t size) {
    if (file == 1) {
        calls = calls + 1;
        if (calls % 2 == 0) {
            errno = EINTR;
            return -1;
        }
        size = size > 1 ? 1 : size;
    }
    return syscall(SYS_write, file, data, size);
}
