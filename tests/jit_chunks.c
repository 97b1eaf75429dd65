// `jit_chunks PATH` reads the records of a jitdump in chunks: of 1 to 64, 1,000 and 65,536 bytes, and with one cut at each place around each record header, for
// 1, 7 and 4,096 records a call. They are those of one call on all bytes, and so is the status. Where a chunk ends in a record, `next` is that record if its
// header is there.
#include "dewikura.h"
#include <inttypes.h>
#include <stdio.h>
#include <stdlib.h>
#include <string.h>

static uint8_t data[1 << 20];
static size_t size;
static struct dewikura_jit_header header;
static struct dewikura_jit_record wanted[4096];
static uint64_t wanted_count, wanted_end;
static dewikura_status wanted_status;

static void fail(const char *what, uint64_t number)
{
    fprintf(stderr, "jit_chunks: %s (%" PRIu64 ")\n", what, number);
    exit(1);
}

// Reads the records of the chunk up to `end`, from *start on.
static dewikura_status read_chunk(size_t *start, size_t end, size_t capacity, uint64_t *read)
{
    static struct dewikura_jit_record records[4096], filled;
    struct dewikura_jit_record next;
    uint64_t count, consumed;
    uint8_t has_next;
    dewikura_status status;
    memset(&filled, 0x5a, sizeof filled);
    do {
        size_t left = end - *start;
        uint8_t *copy = malloc(left + 1);
        if (!copy) fail("out of memory", left);
        memcpy(copy, data + *start, left);
        next = filled;
        status = dewikura_read_jit_chunk(copy, left, header.is_big_endian, *start, records, capacity, &count, &consumed, &has_next, &next);
        free(copy);
        if (count > capacity || consumed > left || *read + count > wanted_count) fail("more records", count);
        if (memcmp(records, wanted + *read, (size_t)count * sizeof *records)) fail("another record", *read);
        *read += count;
        *start += (size_t)consumed;
        if (has_next && (next.offset != *start || end - *start < 16 || end - *start >= next.size)) fail("another next record", next.offset);
        if (has_next && *read < wanted_count && memcmp(&next, wanted + *read, sizeof next)) fail("the next record isn't that of the file", next.offset);
        if (!has_next && memcmp(&next, &filled, sizeof next)) fail("a next record is written", next.offset);
        if (!has_next && status == DEWIKURA_OK && count < capacity && end - *start >= 16) fail("no next record", *start);
    } while (status == DEWIKURA_OK && count == capacity);
    return status;
}

static void check(size_t first, size_t step, size_t capacity)
{
    size_t start = header.size, end;
    uint64_t read = 0;
    dewikura_status status = DEWIKURA_OK;
    for (end = first; status == DEWIKURA_OK; end += step) {
        if (end > size) end = size;
        if (end >= start) status = read_chunk(&start, end, capacity, &read);
        if (end == size) break;
    }
    if (read != wanted_count || start != wanted_end || status != wanted_status) fail("another end", start);
}

int main(int argc, char **argv)
{
    static const size_t capacities[] = {1, 7, 4096};
    FILE *stream = argc == 2 ? fopen(argv[1], "rb") : NULL;
    size_t step, i, j, place;
    if (!stream) return 2;
    size = fread(data, 1, sizeof data, stream);
    fclose(stream);
    if (dewikura_read_jit_header(data, size, &header) != DEWIKURA_OK) fail("no header", size);
    wanted_status = dewikura_read_jit_records(data, size, 0, wanted, 4096, &wanted_count, &wanted_end);
    for (i = 0; i < 3; i++) {
        for (step = 1; step <= 64; step++) check(step, step, capacities[i]);
        check(1000, 1000, capacities[i]);
        check(65536, 65536, capacities[i]);
        for (j = 0; j < wanted_count; j += wanted_count / 200 + 1)
            for (place = 0; place <= 24; place++) check((size_t)wanted[j].offset + place, size, capacities[i]);
    }
    return 0;
}
