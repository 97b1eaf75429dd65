// `finish PATH` finishes each truncation of a perf.data file (every 37th byte if it has more than 4,096), once with its own data size and, as long as no
// byte after the records is left, once with the size 0 that perf writes before its end. Where the attributes precede the truncation, the finished
// recording has exactly those records of the file that end within the truncation, without a change, and no error. A call with less capacity writes the
// start of the same recording and nothing behind its capacity.
#include "dewikura.h"
#include <stdio.h>
#include <stdlib.h>
#include <string.h>

enum { HEADER_SIZE = 104, DATA_OFFSET = 40, DATA_SIZE = 48, CANARY = 0xa5 };

static void fail(const char *what, size_t size)
{
    fprintf(stderr, "finish: %s, %zu bytes\n", what, size);
    exit(1);
}

static void *allocate(size_t size)
{
    void *bytes = calloc(size ? size : 1, 1);
    if (!bytes)
        exit(2);
    return bytes;
}

static uint64_t number(const uint8_t *data, size_t offset)
{
    uint64_t value;
    memcpy(&value, data + offset, sizeof value);
    return value;
}

static struct dewikura_record *records_of(const uint8_t *data, size_t size, uint64_t *count, dewikura_status *status)
{
    size_t capacity = size / 8 + 1;
    struct dewikura_record *records = allocate(capacity * sizeof *records);
    struct dewikura_cursor cursor = {0, 0};
    *status = dewikura_read_file_records(data, size, &cursor, records, capacity, count);
    return records;
}

// The number of the records that end before an offset of the input.
static uint64_t whole_records(const struct dewikura_record *records, uint64_t count, uint64_t end)
{
    uint64_t whole = 0;
    while (whole < count && records[whole].body_offset + records[whole].body_size <= end)
        whole++;
    return whole;
}

static void check_capacity(const uint8_t *data, size_t size, const uint8_t *finished, size_t needed, size_t capacity)
{
    uint8_t *buffer = allocate(needed + 1);
    uint64_t same;
    size_t i;
    memset(buffer, CANARY, needed + 1);
    if (dewikura_finish_recording(data, size, buffer, capacity, &same) != DEWIKURA_OK || same != needed)
        fail("another size with less capacity", size);
    if (memcmp(buffer, finished, capacity))
        fail("other bytes with less capacity", size);
    for (i = capacity; i <= needed; i++)
        if (buffer[i] != CANARY)
            fail("bytes behind the capacity", size);
    free(buffer);
}

static void check(const uint8_t *data, size_t size, const struct dewikura_record *all, uint64_t total, size_t records_start)
{
    uint8_t none = CANARY, *finished;
    uint64_t needed, count, whole = whole_records(all, total, size);
    struct dewikura_record *records;
    dewikura_status status = dewikura_finish_recording(data, size, &none, 0, &needed);
    if (none != CANARY)
        fail("a byte without capacity", size);
    if (status != DEWIKURA_OK) {
        if (size >= records_start || needed != 0)
            fail("isn't finished", size);
        return;
    }
    finished = allocate((size_t)needed);
    if (dewikura_finish_recording(data, size, finished, (size_t)needed, &count) != DEWIKURA_OK || count != needed)
        fail("another size", size);
    records = records_of(finished, (size_t)needed, &count, &status);
    if (size >= records_start && (status != DEWIKURA_OK || count != whole || memcmp(records, all, (size_t)whole * sizeof *all)))
        fail("other records", size);
    check_capacity(data, size, finished, (size_t)needed, (size_t)needed / 2);
    free(records);
    free(finished);
}

int main(int argc, char **argv)
{
    static uint8_t data[1 << 20];
    FILE *stream = argc == 2 ? fopen(argv[1], "rb") : NULL;
    size_t size, shorter, records_start, records_end;
    struct dewikura_record *all;
    uint64_t total;
    dewikura_status status;
    if (!stream)
        return 2;
    size = fread(data, 1, sizeof data, stream);
    fclose(stream);
    all = records_of(data, size, &total, &status);
    if (status != DEWIKURA_OK || size < HEADER_SIZE)
        return 2;
    records_start = (size_t)number(data, DATA_OFFSET);
    records_end = records_start + (size_t)number(data, DATA_SIZE);
    for (shorter = 0; shorter <= size; shorter += size <= 4096 ? 1 : 37) {
        uint8_t *copy = allocate(shorter);
        memcpy(copy, data, shorter);
        check(copy, shorter, all, total, records_start);
        if (shorter >= HEADER_SIZE && shorter <= records_end) {
            memset(copy + DATA_SIZE, 0, sizeof(uint64_t));
            check(copy, shorter, all, total, records_start);
        }
        free(copy);
    }
    free(all);
    return 0;
}
