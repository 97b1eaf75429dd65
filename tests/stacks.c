// `stacks PATH` reads the stacks of a recording with arrays of several capacities, and of each truncation of it (a hundred if it has more than
// 4,096 bytes): the totals are those of a call with arrays of capacity 0, an array contains the first elements up to its capacity, and the
// elements after them are unchanged. `stacks print PATH` prints a line for each stack: its fields, the name of its thread and its frames; then
// one for each mapping, and the status. Texts are printed in hexadecimal.
#include "arguments.h"
#include "dewikura.h"
#include <inttypes.h>
#include <stdio.h>
#include <stdlib.h>
#include <string.h>

struct arrays {
    struct dewikura_stack *stacks;
    struct dewikura_stack_frame *frames;
    struct dewikura_stack_mapping *mappings;
    char *text;
    size_t capacities[4];
    struct dewikura_stack_totals totals;
    dewikura_status status;
};

static const char *where;

static void fail(const char *what, size_t size)
{
    fprintf(stderr, "stacks: %s: %s, %zu bytes\n", where, what, size);
    exit(1);
}

static const size_t sizes[4] = {
    sizeof(struct dewikura_stack), sizeof(struct dewikura_stack_frame), sizeof(struct dewikura_stack_mapping), 1};

static void *array_of(size_t count, size_t size)
{
    void *array = malloc(count * size + 1);
    if (!array)
        exit(2);
    memset(array, 0xaa, count * size + 1);
    return array;
}

// Reads a recording into new arrays with these capacities, and one byte after each.
static struct arrays read_stacks(const uint8_t *data, size_t size, const size_t *capacities)
{
    struct arrays all;
    memset(&all, 0, sizeof all);
    memcpy(all.capacities, capacities, sizeof all.capacities);
    all.stacks = array_of(capacities[0], sizes[0]);
    all.frames = array_of(capacities[1], sizes[1]);
    all.mappings = array_of(capacities[2], sizes[2]);
    all.text = array_of(capacities[3], sizes[3]);
    if (dewikura_input_kind(data, size) == DEWIKURA_KIND_PIPE)
        all.status = dewikura_read_pipe_stacks(data, size, all.stacks, capacities[0], all.frames, capacities[1], all.mappings, capacities[2],
            all.text, capacities[3], &all.totals);
    else
        all.status = dewikura_read_file_stacks(data, size, all.stacks, capacities[0], all.frames, capacities[1], all.mappings, capacities[2],
            all.text, capacities[3], &all.totals);
    return all;
}

static void free_arrays(struct arrays *all)
{
    free(all->stacks);
    free(all->frames);
    free(all->mappings);
    free(all->text);
}

static void counts_of(const struct arrays *all, uint64_t *counts)
{
    counts[0] = all->totals.stack_count;
    counts[1] = all->totals.frame_count;
    counts[2] = all->totals.mapping_count;
    counts[3] = all->totals.text_size;
}

// Compares arrays with arrays that have capacity for all.
static void compare(const struct arrays *all, const struct arrays *some, size_t size)
{
    const void *wanted[4] = {all->stacks, all->frames, all->mappings, all->text};
    const uint8_t *found[4] = {(uint8_t *)some->stacks, (uint8_t *)some->frames, (uint8_t *)some->mappings, (uint8_t *)some->text};
    uint64_t counts[4];
    int i;
    if (memcmp(&all->totals, &some->totals, sizeof all->totals) || all->status != some->status)
        fail("other totals with other capacities", size);
    counts_of(all, counts);
    for (i = 0; i < 4; i++) {
        size_t capacity = some->capacities[i], written = counts[i] < capacity ? (size_t)counts[i] : capacity, at;
        if (memcmp(wanted[i], found[i], written * sizes[i]))
            fail("other elements with other capacities", size);
        for (at = written * sizes[i]; at <= capacity * sizes[i]; at++)
            if (found[i][at] != 0xaa)
                fail("written after the last element", size);
    }
}

static struct arrays read_all(const uint8_t *data, size_t size)
{
    static const size_t none[4] = {0, 0, 0, 0};
    struct arrays counted = read_stacks(data, size, none), all;
    uint64_t counts[4];
    size_t capacities[4];
    int i;
    counts_of(&counted, counts);
    for (i = 0; i < 4; i++)
        capacities[i] = (size_t)counts[i];
    all = read_stacks(data, size, capacities);
    compare(&all, &counted, size);
    free_arrays(&counted);
    return all;
}

static void check(const uint8_t *data, size_t size)
{
    struct arrays all = read_all(data, size);
    int i, part;
    for (part = 0; part < 4; part++) {
        size_t capacities[4];
        struct arrays some;
        for (i = 0; i < 4; i++)
            capacities[i] = (i + part) % 4 == 0 ? 0 : (i + part) % 4 == 1 ? all.capacities[i] / 2 : all.capacities[i] + (size_t)part;
        some = read_stacks(data, size, capacities);
        compare(&all, &some, size);
        free_arrays(&some);
    }
    free_arrays(&all);
}

static void print_text(const char *text, uint64_t offset, uint64_t size)
{
    uint64_t i;
    for (i = 0; i < size; i++)
        printf("%02x", (unsigned)(uint8_t)text[offset + i]);
}

static void print_stack(const struct arrays *all, const struct dewikura_stack *stack)
{
    uint64_t i;
    printf("stack %" PRIu64 " %" PRIu64 " %" PRIu64 " %" PRIu64 " %d %d %d ", stack->offset, stack->timestamp, stack->period, stack->attr_index,
        (int)stack->pid, (int)stack->tid, (int)stack->misc);
    printf(stack->has_name ? "=" : "-");
    print_text(all->text, stack->name_offset, stack->name_size);
    for (i = 0; i < stack->frames_count; i++) {
        const struct dewikura_stack_frame *frame = &all->frames[stack->frames_start + i];
        printf(" %u:%" PRIu64 ":%u:", (unsigned)frame->context, frame->address, (unsigned)frame->is_caller);
        if (frame->mapping == DEWIKURA_NO_MAPPING)
            printf("-:%" PRIu64, frame->file_offset);
        else
            printf("%" PRIu64 ":%" PRIu64, frame->mapping, frame->file_offset);
    }
    printf("\n");
}

static void print_mapping(const struct arrays *all, const struct dewikura_stack_mapping *mapping)
{
    int i;
    printf("mapping %" PRIu64 " %" PRIu64 " %" PRIu64 " %d %u %u %u ", mapping->start, mapping->length, mapping->page_offset, (int)mapping->pid,
        (unsigned)mapping->kind, (unsigned)mapping->protection, (unsigned)mapping->flags);
    for (i = 0; i < 20; i++)
        printf("%02x", (unsigned)mapping->build_id[i]);
    printf(" %u =", (unsigned)mapping->build_id_size);
    print_text(all->text, mapping->path_offset, mapping->path_size);
    printf("\n");
}

static void print(const uint8_t *data, size_t size)
{
    struct arrays all = read_all(data, size);
    uint64_t i;
    for (i = 0; i < all.totals.stack_count; i++)
        print_stack(&all, &all.stacks[i]);
    for (i = 0; i < all.totals.mapping_count; i++)
        print_mapping(&all, &all.mappings[i]);
    printf("status %u\n", (unsigned)all.status);
    free_arrays(&all);
}

int main(int argc, char **argv)
{
    FILE *file;
    uint8_t *data;
    size_t size, length, step;
    int is_print = argc == 3;
    if (argc != 2 && !is_print)
        return 2;
    where = argv[argc - 1];
    file = fopen(where, "rb");
    if (!file || fseek(file, 0, SEEK_END))
        return 2;
    size = (size_t)ftell(file);
    rewind(file);
    data = malloc(size + 1);
    if (!data || fread(data, 1, size, file) != size)
        return 2;
    fclose(file);
    if (is_print)
        print(data, size);
    else {
        step = size > 4096 ? size / 100 : 1;
        for (length = 0; length <= size; length += step) {
            uint8_t *copy = malloc(length + 1);
            if (!copy)
                return 2;
            memcpy(copy, data, length);
            check(copy, length);
            free(copy);
        }
        check(data, size);
        if (size == 0 && dewikura_read_file_stacks(NONE, 0, NONE, 0, NONE, 0, NONE, 0, NONE, 0, IGNORED(0)) == DEWIKURA_OK)
            fail("an empty file opens", size);
    }
    free(data);
    return 0;
}
