/*
 * Counts the samples of each event of a pipe while it is recorded: `perf record -o - -- COMMAND | follow`. Prints the samples so far on
 * standard error once a second, the name of each program that a task executes, and the counts of the events at the end. Memory holds the opening of the pipe, and later the bytes of an
 * incomplete record.
 */
#include <errno.h>
#include <inttypes.h>
#include <stdio.h>
#include <stdlib.h>
#include <string.h>
#include <time.h>
#include <unistd.h>

#include "dewikura.h"

/* The bytes that weren't consumed yet. */
struct pending {
    uint8_t *data;
    size_t size;
    size_t capacity;
};

/* The attributes so far, their names, their ids, and the samples of each. */
struct events {
    struct dewikura_attr *attrs;
    char *names;
    uint64_t *ids;
    uint64_t *samples;
    struct dewikura_attr_totals totals;
};

static void fail(const char *what)
{
    fprintf(stderr, "follow: %s\n", what);
    exit(1);
}

static void fail_with(dewikura_status status)
{
    char text[128];
    dewikura_status_text(status, text, sizeof text);
    fail(text);
}

/* An array with another number of elements. */
static void *resize(void *array, uint64_t count, size_t size)
{
    void *resized = realloc(array, (size_t)(count ? count : 1) * size);
    if (!resized)
        fail("out of memory");
    return resized;
}

/* Reads what there is, and waits if there is nothing. Returns 0 at the end. */
static int read_more(struct pending *pending)
{
    ssize_t count;
    if (pending->size == pending->capacity) {
        pending->capacity = pending->capacity ? 2 * pending->capacity : 65536;
        pending->data = (uint8_t *)resize(pending->data, pending->capacity, 1);
    }
    do
        count = read(STDIN_FILENO, pending->data + pending->size, pending->capacity - pending->size);
    while (count < 0 && errno == EINTR);
    if (count < 0)
        fail(strerror(errno));
    pending->size += (size_t)count;
    return count > 0;
}

static void consume(struct pending *pending, uint64_t size)
{
    pending->size -= (size_t)size;
    memmove(pending->data, pending->data + size, pending->size);
}

/* Reads the attributes of the pipe's opening. */
static void read_events(const struct pending *pending, uint64_t opening_size, struct events *events)
{
    struct dewikura_attr_totals *totals = &events->totals;
    dewikura_status status;
    int pass;
    for (pass = 0; pass < 2; pass++) {
        uint64_t attrs = totals->attr_count, names = totals->names_size, ids = totals->ids_count;
        events->attrs = (struct dewikura_attr *)resize(events->attrs, attrs, sizeof *events->attrs);
        events->names = (char *)resize(events->names, names, 1);
        events->ids = (uint64_t *)resize(events->ids, ids, sizeof *events->ids);
        memset(events->attrs, 0, (attrs ? attrs : 1) * sizeof *events->attrs);
        memset(events->names, 0, names ? names : 1);
        memset(events->ids, 0, (ids ? ids : 1) * sizeof *events->ids);
        status = dewikura_read_pipe_attrs(pending->data, (size_t)opening_size, events->attrs, (size_t)attrs, events->names, (size_t)names,
            events->ids, (size_t)ids, totals);
        if (status != DEWIKURA_OK)
            fail_with(status);
    }
    events->samples = (uint64_t *)resize(events->samples, totals->attr_count, sizeof *events->samples);
    memset(events->samples, 0, (size_t)totals->attr_count * sizeof *events->samples);
}

/* Adds the attribute in the body of a record. */
static void add_event(const uint8_t *body, uint64_t size, uint32_t is_big_endian, struct events *events)
{
    struct dewikura_attr_totals *totals = &events->totals;
    struct dewikura_attr attr;
    uint64_t ids_count, most = size / 8;
    dewikura_status status;
    events->ids = (uint64_t *)resize(events->ids, totals->ids_count + most, sizeof *events->ids);
    memset(events->ids + totals->ids_count, 0, (size_t)most * sizeof *events->ids);
    status = dewikura_read_late_attr(body, (size_t)size, is_big_endian, totals->ids_count, &attr, events->ids + totals->ids_count, (size_t)most,
        &ids_count);
    if (status != DEWIKURA_OK)
        fail_with(status);
    events->attrs = (struct dewikura_attr *)resize(events->attrs, totals->attr_count + 1, sizeof *events->attrs);
    events->samples = (uint64_t *)resize(events->samples, totals->attr_count + 1, sizeof *events->samples);
    events->attrs[totals->attr_count] = attr;
    events->samples[totals->attr_count] = 0;
    totals->attr_count++;
    totals->ids_count += ids_count;
}

/* Prints the name in a record DEWIKURA_RECORD_COMM, if the task executed a program. */
static void print_program(const struct pending *pending, uint32_t is_big_endian, const struct events *events, const struct dewikura_record *record)
{
    static struct dewikura_sample sample;
    static struct dewikura_frame frame;
    static struct dewikura_task task;
    static struct dewikura_mapping mapping;
    static struct dewikura_counter counter;
    uint64_t frames_count, counters_count;
    dewikura_status status = dewikura_read_event(pending->data, pending->size, is_big_endian, events->attrs, (size_t)events->totals.attr_count, record,
        &sample, &frame, 0, &frames_count, &task, &mapping, &counter, 0, &counters_count);
    if (status == DEWIKURA_OK && task.is_execve)
        fprintf(stderr, "%" PRId32 " runs %.*s\n", task.pid, (int)task.name_size, (const char *)pending->data + task.name_offset);
}

/* Counts the samples of the complete records. Returns their number. */
static uint64_t count_samples(struct pending *pending, uint32_t is_big_endian, struct events *events, struct dewikura_cursor *cursor)
{
    static struct dewikura_record records[1024];
    uint64_t count, consumed, samples = 0, i;
    do {
        dewikura_status status = dewikura_read_chunk_records(pending->data, pending->size, is_big_endian, events->attrs,
            (size_t)events->totals.attr_count, events->ids, (size_t)events->totals.ids_count, cursor, records, 1024, &count, &consumed);
        for (i = 0; i < count; i++)
            if (records[i].type == DEWIKURA_RECORD_SAMPLE) {
                events->samples[records[i].attr_index]++;
                samples++;
            } else if (records[i].type == DEWIKURA_RECORD_COMM) {
                print_program(pending, is_big_endian, events, &records[i]);
            }
        if (status != DEWIKURA_OK)
            fail_with(status);
        if (count && records[count - 1].type == DEWIKURA_RECORD_HEADER_ATTR)
            add_event(pending->data + records[count - 1].body_offset, records[count - 1].body_size, is_big_endian, events);
        consume(pending, consumed);
    } while (count);
    return samples;
}

static void print_events(const struct events *events)
{
    uint64_t i;
    for (i = 0; i < events->totals.attr_count; i++) {
        const struct dewikura_attr *attr = &events->attrs[i];
        printf("%" PRIu64 " %.*s\n", events->samples[i], attr->has_name ? (int)attr->name_size : 1,
            attr->has_name ? events->names + attr->name_offset : "-");
    }
}

int main(void)
{
    struct pending pending = {NULL, 0, 0};
    struct events events = {NULL, NULL, NULL, NULL, {0, 0, 0}};
    struct dewikura_cursor cursor = {0, 0};
    struct dewikura_opening opening;
    dewikura_status status = DEWIKURA_MORE;
    uint64_t samples = 0;
    time_t last = time(NULL);
    while (status == DEWIKURA_MORE && read_more(&pending))
        status = dewikura_read_opening(pending.data, pending.size, &opening);
    if (status == DEWIKURA_MORE)
        fail("the pipe ends in its opening, or has no records");
    if (status != DEWIKURA_OK)
        fail_with(status);
    if (opening.kind != DEWIKURA_KIND_PIPE)
        fail("not a pipe");
    read_events(&pending, opening.records_offset, &events);
    consume(&pending, opening.records_offset);
    do {
        samples += count_samples(&pending, opening.is_big_endian, &events, &cursor);
        if (time(NULL) != last) {
            last = time(NULL);
            fprintf(stderr, "%" PRIu64 " samples so far\n", samples);
        }
    } while (read_more(&pending));
    print_events(&events);
    if (pending.size)
        fprintf(stderr, "follow: the pipe ends in a record, after %zu bytes of it\n", pending.size);
    free(events.samples);
    free(events.ids);
    free(events.names);
    free(events.attrs);
    free(pending.data);
    return 0;
}
