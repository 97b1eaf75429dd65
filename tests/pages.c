// `pages PATH` reads the records of a file, and of each truncation of it (every 37th if it has more than 4,096 bytes), in one call and in
// chains of calls for 1, 2 and 7 records. The chain returns the same records and the same status. After its end, a further call returns no record and the
// same status. Calls with cursors that no call returned are only to be safe.
#include "dewikura.h"
#include <inttypes.h>
#include <stdio.h>
#include <stdlib.h>
#include <string.h>

static void fail(const char *what, size_t size, size_t capacity)
{
    fprintf(stderr, "pages: %s, %zu bytes, %zu records a call\n", what, size, capacity);
    exit(1);
}

static void check_chain(const uint8_t *data, size_t size, size_t capacity, const struct dewikura_record *all, uint64_t total, dewikura_status wanted)
{
    struct dewikura_cursor cursor = {0, 0}, end;
    struct dewikura_record page[7];
    uint64_t count, read = 0;
    dewikura_status status;
    do {
        status = dewikura_read_file_records(data, size, &cursor, page, capacity, &count);
        if (count > capacity || count > total - read || memcmp(page, all + read, (size_t)count * sizeof *page))
            fail("other records", size, capacity);
        read += count;
    } while (status == DEWIKURA_OK && count == capacity);
    if (status != wanted || read != total)
        fail("another end", size, capacity);
    end = cursor;
    if (dewikura_read_file_records(data, size, &cursor, page, capacity, &count) != wanted || count != 0)
        fail("another result after the end", size, capacity);
    if (memcmp(&cursor, &end, sizeof end))
        fail("the cursor moves after the end", size, capacity);
}

static void check(const uint8_t *data, size_t size)
{
    static const uint64_t numbers[] = {1, 8, 37, UINT64_C(1) << 62, UINT64_MAX - 8, UINT64_MAX};
    size_t capacity = size / 8 + 1, i;
    struct dewikura_record *all = calloc(capacity, sizeof *all), page[7];
    struct dewikura_cursor first = {0, 0};
    uint64_t total;
    dewikura_status status;
    if (!all)
        exit(2);
    status = dewikura_read_file_records(data, size, &first, all, capacity, &total);
    check_chain(data, size, 1, all, total, status);
    check_chain(data, size, 2, all, total, status);
    check_chain(data, size, 7, all, total, status);
    for (i = 0; i < 36; i++) {
        struct dewikura_cursor cursor = {numbers[i / 6], numbers[i % 6]};
        uint64_t count;
        dewikura_status other = dewikura_read_file_records(data, size, &cursor, page, 7, &count);
        if (count > 7 || (other == DEWIKURA_OK && count < 7 && cursor.offset < numbers[i / 6]))
            fail("a cursor that no call returned", size, 7);
    }
    free(all);
}

int main(int argc, char **argv)
{
    static uint8_t data[1 << 20];
    FILE *stream = argc == 2 ? fopen(argv[1], "rb") : NULL;
    size_t size, shorter;
    if (!stream)
        return 2;
    size = fread(data, 1, sizeof data, stream);
    fclose(stream);
    check(data, size);
    for (shorter = 0; shorter < size; shorter += size <= 4096 ? 1 : 37) {
        uint8_t *copy = malloc(shorter + 1);
        if (!copy)
            return 2;
        memcpy(copy, data, shorter);
        check(copy, shorter);
        free(copy);
    }
    return 0;
}
