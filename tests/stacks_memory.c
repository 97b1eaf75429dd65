// `stacks_memory PATH` makes the calls for the stacks of a recording fail at each of their allocations in turn, and at all later ones: they
// return DEWIKURA_OUT_OF_MEMORY, and what they wrote and counted are the first elements of what they write with enough memory.
#include "dewikura.h"
#include <stdio.h>
#include <stdlib.h>
#include <string.h>

void *__libc_malloc(size_t);
void *__libc_realloc(void *, size_t);

// Allocations count while is_counting, and fail from failing_request on.
static unsigned long requests, failing_request;
static int is_counting;

static int fails(void)
{
    return is_counting && ++requests >= failing_request;
}

void *malloc(size_t size) { return fails() ? NULL : __libc_malloc(size); }
void *realloc(void *old, size_t size) { return fails() ? NULL : __libc_realloc(old, size); }

enum { CAPACITY = 1 << 16 };

struct arrays {
    struct dewikura_stack stacks[CAPACITY];
    struct dewikura_stack_frame frames[CAPACITY];
    struct dewikura_stack_mapping mappings[CAPACITY / 64];
    char text[CAPACITY];
    struct dewikura_stack_totals totals;
};

static struct arrays all, some;

static void fail(const char *what)
{
    fprintf(stderr, "stacks_memory: %s, allocation %lu\n", what, failing_request);
    exit(1);
}

static dewikura_status read_stacks(const char *data, size_t size, struct arrays *to)
{
    dewikura_status status;
    requests = 0;
    is_counting = 1;
    if (dewikura_input_kind(data, size) == DEWIKURA_KIND_PIPE)
        status = dewikura_read_pipe_stacks(data, size, to->stacks, CAPACITY, to->frames, CAPACITY, to->mappings, CAPACITY / 64, to->text, CAPACITY,
            &to->totals);
    else
        status = dewikura_read_file_stacks(data, size, to->stacks, CAPACITY, to->frames, CAPACITY, to->mappings, CAPACITY / 64, to->text, CAPACITY,
            &to->totals);
    is_counting = 0;
    return status;
}

static void compare(void)
{
    const struct dewikura_stack_totals *have = &some.totals, *want = &all.totals;
    if (have->stack_count > want->stack_count || have->frame_count > want->frame_count || have->mapping_count > want->mapping_count ||
        have->text_size > want->text_size)
        fail("more elements without memory");
    if (memcmp(some.stacks, all.stacks, have->stack_count * sizeof *all.stacks) || memcmp(some.frames, all.frames, have->frame_count * sizeof *all.frames) ||
        memcmp(some.mappings, all.mappings, have->mapping_count * sizeof *all.mappings) || memcmp(some.text, all.text, have->text_size))
        fail("other elements without memory");
}

int main(int argc, char **argv)
{
    FILE *file = argc == 2 ? fopen(argv[1], "rb") : NULL;
    char *data = malloc(CAPACITY * 8);
    size_t size = file && data ? fread(data, 1, CAPACITY * 8, file) : 0;
    if (size == 0)
        return 2;
    failing_request = (unsigned long)-1;
    if (read_stacks(data, size, &all) != DEWIKURA_OK)
        fail("an error with memory");
    for (failing_request = 1; read_stacks(data, size, &some) == DEWIKURA_OUT_OF_MEMORY; failing_request++) {
        if (requests < failing_request)
            fail("out of memory, and no allocation failed");
        compare();
        memset(&some, 0, sizeof some);
    }
    if (requests >= failing_request)
        fail("no error where an allocation failed");
    if (memcmp(&some, &all, sizeof all))
        fail("other elements with memory");
    if (failing_request < 2)
        fail("no allocation");
    return 0;
}
