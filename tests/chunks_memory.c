// Makes the calls on chunks fail at each of their allocations in turn, and at all later ones: they return DEWIKURA_OUT_OF_MEMORY after the records before, of
// which each is written once, and a call with memory goes on there. Only records of a pipe with metadata need memory. Does the same with
// dewikura_read_error, whose numbers then are those of that error, and with dewikura_dso_kind, which writes nothing.
#include "dewikura.h"
#include <stdio.h>
#include <stdlib.h>
#include <string.h>

void *__libc_malloc(size_t);
void *__libc_realloc(void *, size_t);

// Allocations count while is_counting, and fail from failing_request on.
static unsigned requests, failing_request;
static int is_counting;

static int fails(void)
{
    return is_counting && ++requests >= failing_request;
}

void *malloc(size_t size) { return fails() ? NULL : __libc_malloc(size); }
void *realloc(void *old, size_t size) { return fails() ? NULL : __libc_realloc(old, size); }

static uint8_t data[1 << 16];
static size_t size;
static struct dewikura_opening opening;
static struct dewikura_attr attrs[8];
static uint64_t ids[64];
static struct dewikura_attr_totals totals;

static void fail(const char *what, unsigned number)
{
    fprintf(stderr, "chunks_memory.c: %s (%u)\n", what, number);
    exit(1);
}

// Reads all records, and returns how many there are. Each call fails first, and is then made with memory.
static uint64_t read_all(uint64_t *failures)
{
    static struct dewikura_record records[64];
    static char names[64];
    struct dewikura_cursor cursor = {0, 0};
    uint64_t total = 0, count, consumed, ids_count;
    const uint8_t *chunk = data + opening.records_offset;
    dewikura_status status;
    if (dewikura_read_pipe_attrs(data, (size_t)opening.records_offset, attrs, 8, names, 64, ids, 64, &totals) != DEWIKURA_OK) fail("no attributes", 0);
    do {
        requests = 0;
        is_counting = failing_request != 0;
        status = dewikura_read_chunk_records(chunk, (size_t)(data + size - chunk), opening.is_big_endian, attrs, (size_t)totals.attr_count, ids,
            (size_t)totals.ids_count, &cursor, records, 64, &count, &consumed);
        is_counting = 0;
        if (status != DEWIKURA_OK && status != DEWIKURA_OUT_OF_MEMORY) fail("another status", status);
        if (status == DEWIKURA_OUT_OF_MEMORY) {
            uint64_t again;
            if (requests < failing_request) fail("out of memory, and no allocation failed", failing_request);
            ++*failures;
            total += count;
            chunk += consumed;
            status = dewikura_read_chunk_records(chunk, (size_t)(data + size - chunk), opening.is_big_endian, attrs, (size_t)totals.attr_count, ids,
                (size_t)totals.ids_count, &cursor, records, 64, &again, &consumed);
            if (status != DEWIKURA_OK || again == 0) fail("the call after it", status);
            count = again;
        }
        if (count && records[count - 1].type == DEWIKURA_RECORD_HEADER_ATTR) {
            const struct dewikura_record *record = &records[count - 1];
            struct dewikura_attr attr;
            requests = 0;
            is_counting = failing_request != 0;
            status = dewikura_read_late_attr(chunk + record->body_offset, (size_t)record->body_size, opening.is_big_endian, totals.ids_count,
                &attr, ids + totals.ids_count, 16, &ids_count);
            is_counting = 0;
            if (status == DEWIKURA_OUT_OF_MEMORY) {
                if (ids_count) fail("ids without memory", (unsigned)ids_count);
                ++*failures;
                status = dewikura_read_late_attr(chunk + record->body_offset, (size_t)record->body_size, opening.is_big_endian, totals.ids_count, &attr,
                    ids + totals.ids_count, 16, &ids_count);
            }
            if (status != DEWIKURA_OK) fail("a late attribute", status);
            attrs[totals.attr_count++] = attr;
            totals.ids_count += ids_count;
        }
        total += count;
        chunk += consumed;
    } while (count);
    return total;
}

static void check_error(void)
{
    struct dewikura_error error;
    dewikura_status status;
    failing_request = 0;
    do {
        failing_request++;
        requests = 0;
        is_counting = 1;
        status = dewikura_read_error(data, size, &error);
        is_counting = 0;
        if (status != error.status) fail("another status of the first error", error.status);
        if (status == DEWIKURA_OUT_OF_MEMORY && requests < failing_request) fail("out of memory, and no allocation failed", failing_request);
    } while (status == DEWIKURA_OUT_OF_MEMORY);
    if (status != DEWIKURA_OK || requests >= failing_request || failing_request < 2) fail("no error where an allocation failed", failing_request);
}

static void check_dso_kind(const char *path, uint16_t misc, uint32_t wanted, int needs_memory)
{
    uint32_t kind = 77;
    dewikura_status status;
    failing_request = 0;
    do {
        failing_request++;
        requests = 0;
        is_counting = 1;
        status = dewikura_dso_kind(path, strlen(path), misc, &kind);
        is_counting = 0;
        if (status == DEWIKURA_OUT_OF_MEMORY && (kind != 77 || requests < failing_request)) fail("a kind without memory", kind);
    } while (status == DEWIKURA_OUT_OF_MEMORY);
    if (status != DEWIKURA_OK || kind != wanted || requests >= failing_request) fail("another kind", kind);
    if ((failing_request > 1) != needs_memory) fail("the number of allocations of a kind", failing_request);
}

int main(int argc, char **argv)
{
    uint64_t wanted, failures = 0, before;
    FILE *stream = argc == 2 ? fopen(argv[1], "rb") : NULL;
    if (!stream) return 2;
    size = fread(data, 1, sizeof data, stream);
    fclose(stream);
    if (dewikura_read_opening(data, size, &opening) != DEWIKURA_OK) fail("no opening", 0);
    wanted = read_all(&failures);
    do {
        before = failures;
        failing_request++;
        if (read_all(&failures) != wanted) fail("another number of records", failing_request);
    } while (failures > before);
    if (failing_request < 2) fail("the number of allocations", failing_request);
    check_error();
    check_dso_kind("/usr/bin/true", DEWIKURA_MODE_USER, DEWIKURA_DSO_USER, 1);
    check_dso_kind("/lib/ext4.ko", DEWIKURA_MODE_KERNEL, DEWIKURA_DSO_KERNEL_MODULE, 1);
    check_dso_kind("[vdso]", DEWIKURA_MODE_USER, DEWIKURA_DSO_VDSO64, 0);
    check_dso_kind("//anon", DEWIKURA_MODE_USER, DEWIKURA_DSO_NONE, 0);
    return 0;
}
