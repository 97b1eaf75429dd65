/* Replaces malloc, calloc and realloc (LD_PRELOAD). The allocation with number FAIL_AT fails, where the first has number 1. If
   FAIL_ALL is set, every later allocation fails too. The first failure writes one byte to the descriptor FAIL_DESCRIPTOR. */
#include <errno.h>
#include <stddef.h>
#include <stdlib.h>
#include <unistd.h>

void *__libc_malloc(size_t);
void *__libc_calloc(size_t, size_t);
void *__libc_realloc(void *, size_t);

static unsigned long requests, failing_request;
static int all, descriptor = -1;

/* Allocations before this call are those of the loader and the C library. They aren't counted and don't fail. */
__attribute__((constructor)) static void begin(void)
{
    const char *at = getenv("FAIL_AT"), *number = getenv("FAIL_DESCRIPTOR");
    all = getenv("FAIL_ALL") != NULL;
    descriptor = number ? atoi(number) : -1;
    failing_request = at ? strtoul(at, NULL, 10) : 0;
}

static int fails(void)
{
    if (failing_request == 0)
        return 0;
    requests++;
    if (requests < failing_request || (requests > failing_request && !all))
        return 0;
    if (requests == failing_request && descriptor >= 0 && write(descriptor, "r", 1) != 1)
        _exit(99);
    errno = ENOMEM;
    return 1;
}

void *malloc(size_t size) { return fails() ? NULL : __libc_malloc(size); }
void *calloc(size_t count, size_t size) { return fails() ? NULL : __libc_calloc(count, size); }
void *realloc(void *old, size_t size) { return fails() ? NULL : __libc_realloc(old, size); }
