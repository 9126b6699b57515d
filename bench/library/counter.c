/* Counts growths of memory, and refuses one: loaded before the C library (bench/tools/growths.py). */
#include <stddef.h>
#include <stdlib.h>
#include <sys/syscall.h>
#include <unistd.h>

extern void *__libc_malloc(size_t);
extern void *__libc_realloc(void *, size_t);

static long made = 0;
static long bytes = 0;
static long refused = -1;

static int is_refused(size_t size) {
    if (refused < 0) {
        const char *text = getenv("REFUSED_GROWTH");
        refused = text ? atol(text) : 0;
    }
    made = made + 1;
    bytes = bytes + (long)size;
    return made == refused;
}

void *malloc(size_t size) { return is_refused(size) ? NULL : __libc_malloc(size); }

void *realloc(void *old, size_t size) { return is_refused(size) ? NULL : __libc_realloc(old, size); }

__attribute__((destructor)) static void tell(void) {
    static int is_told = 0;
    long told[] = {made, bytes};
    if (!is_told) (void)!write(9, told, sizeof told);
    is_told = 1;
}

/* A program with threads ends so, and runs no destructor. */
void _exit(int status) {
    tell();
    syscall(SYS_exit_group, status);
    __builtin_unreachable();
}
