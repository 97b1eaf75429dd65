// Makes dewikura_demangle fail at each of its allocations in turn, and at all later ones: it returns DEWIKURA_OUT_OF_MEMORY, *text_size is 0, and
// the array is unchanged. A name that isn't mangled needs no memory.
#include "dewikura.h"
#include <stdio.h>
#include <stdlib.h>
#include <string.h>

void *__libc_malloc(size_t);
void *__libc_realloc(void *, size_t);

// Allocations count while is_counting, and fail from failing_request on.
static unsigned requests, failing_request;
static int is_counting;

static int fails(void)
{
    return is_counting && ++requests >= failing_request;
}

void *malloc(size_t size) { return fails() ? NULL : __libc_malloc(size); }
void *realloc(void *old, size_t size) { return fails() ? NULL : __libc_realloc(old, size); }

static char text[256], unchanged[sizeof text];

static dewikura_status demangle(const char *name, uint64_t *text_size)
{
    dewikura_status status;
    memcpy(text, unchanged, sizeof text);
    requests = 0;
    is_counting = 1;
    status = dewikura_demangle(name, strlen(name), DEWIKURA_STYLE_SIGNATURE, text, sizeof text, text_size);
    is_counting = 0;
    return status;
}

static void fail(const char *name, const char *what)
{
    fprintf(stderr, "demangle_memory.c: %s: %s\n", name, what);
    exit(1);
}

static void check(const char *name, const char *wanted)
{
    uint64_t text_size = 1;
    failing_request = 1;
    while (demangle(name, &text_size) == DEWIKURA_OUT_OF_MEMORY) {
        if (text_size != 0 || memcmp(text, unchanged, sizeof text) != 0) fail(name, "written without memory");
        if (requests < failing_request) fail(name, "out of memory, and no allocation failed");
        failing_request++;
        text_size = 1;
    }
    if (requests >= failing_request) fail(name, "no error where an allocation failed");
    if (text_size != strlen(wanted) || memcmp(text, wanted, text_size) != 0) fail(name, "another text");
    if ((failing_request > 1) != (*wanted != 0)) fail(name, "the number of allocations");
}

int main(void)
{
    memset(unchanged, '#', sizeof unchanged);
    check("_ZNK9LoadBNode11memory_typeEv", "LoadBNode::memory_type() const");
    check("_ZN3foo3bar17h70f7ef1d485fa773E", "foo::bar");
    check("_RNvC3foo3bar", "foo::bar");
    check("main", "");
    check("", "");
    return 0;
}
