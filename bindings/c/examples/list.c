/*
 * Lists the records of a perf.data file, of a pipe on standard input, or of a jitdump, one line a record, as perflist does:
 *   list file PATH | pipe | jit PATH
 */
#include <inttypes.h>
#include <stdio.h>
#include <stdlib.h>
#include <string.h>

#include "dewikura.h"

/* All bytes of an input. */
struct input {
    uint8_t *data;
    size_t size;
};

/* Reads a stream to its end. Returns 0 if reading fails or memory runs out. */
static int read_all(FILE *stream, struct input *input)
{
    size_t capacity = 0;
    size_t count;
    do {
        if (input->size == capacity) {
            size_t larger = capacity ? 2 * capacity : 65536;
            uint8_t *data = (uint8_t *)realloc(input->data, larger);
            if (!data)
                return 0;
            input->data = data;
            capacity = larger;
        }
        count = fread(input->data + input->size, 1, capacity - input->size, stream);
        input->size += count;
    } while (count > 0);
    return !ferror(stream);
}

static int read_file(const char *path, struct input *input)
{
    FILE *stream = fopen(path, "rb");
    int is_complete;
    if (!stream)
        return 0;
    is_complete = read_all(stream, input);
    fclose(stream);
    return is_complete;
}

/* Prints a number, or `-` if it is absent, and a separator. */
static void print_number(uint64_t number, int is_present, char separator)
{
    char text[21];
    size_t start = sizeof text;
    text[--start] = separator;
    if (!is_present)
        text[--start] = '-';
    else
        do
            text[--start] = (char)('0' + number % 10);
        while (number /= 10);
    fwrite(text + start, 1, sizeof text - start, stdout);
}

static void print_record(const struct dewikura_record *record)
{
    print_number(record->offset, 1, ' ');
    print_number(record->round, 1, ' ');
    print_number(record->timestamp, record->has_timestamp, ' ');
    print_number(record->attr_index, record->has_attr, ' ');
    print_number(record->type, 1, ' ');
    print_number(record->misc, 1, ' ');
    print_number(record->body_size, 1, '\n');
}

/* Prints the error line if the listing failed. Returns the exit status. */
static int end_listing(int is_complete, uint64_t count)
{
    if (fflush(stdout) || ferror(stdout) || !is_complete) {
        fprintf(stderr, "perflist: fault after %" PRIu64 " records\n", count);
        return 2;
    }
    return 0;
}

/* Lists a file, up to 4,096 records a call. */
static int list_file(const struct input *input)
{
    static struct dewikura_record records[4096];
    struct dewikura_cursor cursor = {0, 0};
    uint64_t count = 0, total = 0, i;
    dewikura_status status;
    do {
        status = dewikura_read_file_records(input->data, input->size, &cursor, records, 4096, &count);
        for (i = 0; i < count; i++)
            print_record(&records[i]);
        total += count;
    } while (status == DEWIKURA_OK && count == 4096);
    return end_listing(status == DEWIKURA_OK, total);
}

/* Lists a pipe. The first array fits records of 32 bytes on average. If there are more, a second call fills a larger array. */
static int list_pipe(const struct input *input)
{
    size_t capacity = input->size / 32 + 1;
    struct dewikura_record *records = (struct dewikura_record *)calloc(capacity, sizeof *records);
    uint64_t total = 0;
    dewikura_status status;
    size_t i;
    if (!records)
        return end_listing(0, 0);
    status = dewikura_read_pipe_records(input->data, input->size, 0, records, capacity, &total);
    if (total > capacity) {
        free(records);
        capacity = total;
        records = (struct dewikura_record *)calloc(capacity, sizeof *records);
        if (!records)
            return end_listing(0, 0);
        status = dewikura_read_pipe_records(input->data, input->size, 0, records, capacity, &total);
    }
    for (i = 0; i < total; i++)
        print_record(&records[i]);
    free(records);
    return end_listing(status == DEWIKURA_OK, total);
}

/* Lists a jitdump, up to 4,096 records a call. */
static int list_jit(const struct input *input)
{
    static struct dewikura_jit_record records[4096];
    uint64_t next_offset = 0, count = 0, total = 0, i;
    dewikura_status status;
    do {
        status = dewikura_read_jit_records(input->data, input->size, next_offset, records, 4096, &count, &next_offset);
        for (i = 0; i < count; i++) {
            print_number(records[i].offset, 1, ' ');
            print_number(records[i].timestamp, 1, ' ');
            print_number(records[i].type, 1, ' ');
            print_number(records[i].size, 1, '\n');
        }
        total += count;
    } while (status == DEWIKURA_OK && count == 4096);
    return end_listing(status == DEWIKURA_OK, total);
}

int main(int argc, char **argv)
{
    struct input input = {NULL, 0};
    int status = 1;
    if (argc == 3 && !strcmp(argv[1], "file"))
        status = read_file(argv[2], &input) ? list_file(&input) : end_listing(0, 0);
    else if (argc == 2 && !strcmp(argv[1], "pipe"))
        status = read_all(stdin, &input) ? list_pipe(&input) : end_listing(0, 0);
    else if (argc == 3 && !strcmp(argv[1], "jit"))
        status = read_file(argv[2], &input) ? list_jit(&input) : end_listing(0, 0);
    else
        fputs("usage: perflist file PATH | pipe | jit PATH\n", stderr);
    free(input.data);
    return status;
}
