// `chunks PATH [CUTTINGS]` reads the records of a file or pipe in chunks, for many cuttings and for 1, 7 and 4,096 records a call, and compares them
// with those of one call on all bytes: the same records in order, once, the same cursor at the end, and the same first error. The cuttings are chunks of
// several sizes, one cut at each byte (at each record and around it, if there are more than 16,384), two cuts at pairs of records, and random ones; and
// those of the file CUTTINGS, lines of a name, a tab, and offsets or *SIZE. Each chunk is a copy of its own size.
#include "dewikura.h"
#include <inttypes.h>
#include <stdio.h>
#include <stdlib.h>
#include <string.h>

#define MOST_CAPACITY 4096
#define FILL 0x5a

// The input, the end of its records, and what one call on all bytes writes.
static uint8_t *data;
static size_t size, records_end;
static struct dewikura_opening opening;
static struct dewikura_record *wanted;
static uint64_t wanted_count;
static dewikura_status wanted_status;
// The cursor at the end, as the first cutting has it.
static struct dewikura_cursor wanted_cursor;
static int has_cursor;
static const char *cutting;

static void fail(const char *what, uint64_t number)
{
    fprintf(stderr, "chunks: %s: %s (%" PRIu64 ")\n", cutting, what, number);
    exit(1);
}

static void *allocate(size_t count, size_t bytes)
{
    void *memory = calloc(count ? count : 1, bytes);
    if (!memory) fail("out of memory", count);
    return memory;
}

// The attributes and ids so far.
struct events {
    struct dewikura_attr attrs[256];
    uint64_t ids[65536];
    struct dewikura_attr_totals totals;
};

static void read_events(struct events *events)
{
    static char names[65536];
    dewikura_status status = opening.kind == DEWIKURA_KIND_FILE
        ? dewikura_read_file_attrs(data, size, events->attrs, 256, names, sizeof names, events->ids, 65536, &events->totals)
        : dewikura_read_pipe_attrs(data, (size_t)opening.records_offset, events->attrs, 256, names, sizeof names, events->ids, 65536, &events->totals);
    if (status != DEWIKURA_OK) fail("the attributes can't be read", status);
    if (events->totals.attr_count > 255 || events->totals.ids_count > 60000) fail("too many attributes", events->totals.attr_count);
}

static void add_event(struct events *events, const struct dewikura_record *record, const uint8_t *chunk)
{
    uint64_t count;
    dewikura_status status = dewikura_read_late_attr(chunk + record->body_offset, (size_t)record->body_size, opening.is_big_endian, events->totals.ids_count,
        &events->attrs[events->totals.attr_count], events->ids + events->totals.ids_count, (size_t)(65536 - events->totals.ids_count), &count);
    if (status != DEWIKURA_OK) fail("a late attribute can't be read", status);
    events->totals.attr_count++;
    events->totals.ids_count += count;
}

// The status of one call on all bytes if these bytes are left, which no chunk call reads: a truncated record is an error in a file alone, and truncated aux
// data are one everywhere.
static dewikura_status status_of_rest(const uint8_t *rest, size_t left)
{
    uint32_t type;
    if (!left) return DEWIKURA_OK;
    if (opening.kind == DEWIKURA_KIND_FILE) return left < 8 ? DEWIKURA_TRUNCATED : DEWIKURA_TRUNCATED_RECORD;
    if (left < 48) return DEWIKURA_OK;
    type = opening.is_big_endian ? (uint32_t)rest[3] | (uint32_t)rest[2] << 8 : (uint32_t)rest[0] | (uint32_t)rest[1] << 8;
    return type == DEWIKURA_RECORD_AUXTRACE ? DEWIKURA_TRUNCATED_RECORD : DEWIKURA_OK;
}

static int is_filled(const struct dewikura_record *record)
{
    size_t i;
    for (i = 0; i < sizeof *record; i++)
        if (((const uint8_t *)record)[i] != FILL) return 0;
    return 1;
}

// What a reading has so far: where its next chunk starts, and how many records it has.
struct reading {
    struct events events;
    struct dewikura_cursor cursor;
    size_t start;
    uint64_t count;
    dewikura_status status;
};

// Reads the records of the chunk that ends at an offset of the input.
static void read_chunk(struct reading *reading, size_t end, size_t capacity)
{
    static struct dewikura_record records[MOST_CAPACITY];
    size_t left = end - reading->start;
    uint8_t *copy = allocate(left, 1), *chunk = copy;
    uint64_t count, consumed, i;
    int is_full, is_attr = 0;
    memcpy(copy, data + reading->start, left);
    do {
        struct dewikura_cursor before = reading->cursor;
        memset(records, FILL, (capacity < 64 ? capacity : 64) * sizeof *records);
        reading->status = dewikura_read_chunk_records(chunk, left, opening.is_big_endian, reading->events.attrs, (size_t)reading->events.totals.attr_count,
            reading->events.ids, (size_t)reading->events.totals.ids_count, &reading->cursor, records, capacity, &count, &consumed);
        if (count > capacity || count > wanted_count - reading->count) fail("more records", count);
        if (consumed > left) fail("more bytes are consumed than there are", consumed);
        if (reading->cursor.offset != before.offset + consumed) fail("the cursor isn't where the consumed bytes end", reading->cursor.offset);
        for (i = 0; i < count; i++) {
            struct dewikura_record record = records[i];
            if (record.body_offset + record.body_size > left) fail("a body isn't in its chunk", record.body_offset);
            record.body_offset += reading->start;
            if (memcmp(&record, wanted + reading->count + i, sizeof record)) fail("another record", reading->count + i);
            is_attr = record.type == DEWIKURA_RECORD_HEADER_ATTR;
            if (is_attr && i + 1 != count) fail("a record after an attribute", i);
        }
        if (count < capacity && count < 64 && !is_filled(&records[count])) fail("an element after the last record is written", count);
        if (is_attr && opening.kind == DEWIKURA_KIND_PIPE) add_event(&reading->events, &records[count - 1], chunk);
        is_full = count == capacity || is_attr;
        is_attr = 0;
        reading->count += count;
        reading->start += (size_t)consumed;
        chunk += consumed;
        left -= (size_t)consumed;
    } while (reading->status == DEWIKURA_OK && is_full);
    free(copy);
}

// Reads the input in chunks that end at these offsets, and at its end.
static void read_cutting(const size_t *cuts, size_t cut_count, size_t capacity)
{
    static struct reading reading;
    struct dewikura_opening found;
    int is_open = 0;
    size_t i;
    memset(&reading, 0, sizeof reading);
    reading.start = (size_t)opening.records_offset;
    for (i = 0; i <= cut_count && reading.status == DEWIKURA_OK; i++) {
        size_t end = i < cut_count && cuts[i] < size ? cuts[i] : size;
        if (!is_open) {
            dewikura_status status = dewikura_read_opening(data, end, &found);
            if (status == DEWIKURA_MORE && end < size) continue;
            if (status != DEWIKURA_OK || memcmp(&found, &opening, sizeof found)) fail("another opening", status);
            read_events(&reading.events);
            is_open = 1;
        }
        if (end > records_end) end = records_end;
        if (end >= reading.start) read_chunk(&reading, end, capacity);
    }
    if (reading.count != wanted_count) fail("fewer records", reading.count);
    if (reading.status == DEWIKURA_OK) reading.status = status_of_rest(data + reading.start, records_end - reading.start);
    if (reading.status != wanted_status) fail("another status", reading.status);
    if (has_cursor && memcmp(&reading.cursor, &wanted_cursor, sizeof wanted_cursor)) fail("another cursor at the end", reading.cursor.offset);
    wanted_cursor = reading.cursor;
    has_cursor = 1;
}

static void check_cuts(const char *name, const size_t *cuts, size_t count)
{
    cutting = name;
    read_cutting(cuts, count, 1);
    read_cutting(cuts, count, 7);
    read_cutting(cuts, count, MOST_CAPACITY);
}

static void check_size(const char *name, size_t chunk_size, size_t *cuts)
{
    size_t count = 0, at;
    for (at = chunk_size; at < size; at += chunk_size) cuts[count++] = at;
    check_cuts(name, cuts, count);
}

// The offsets at which records start.
static size_t find_edges(size_t *edges)
{
    size_t count = 0;
    uint64_t i;
    for (i = 0; i < wanted_count; i++) edges[count++] = (size_t)wanted[i].body_offset - 8;
    return count;
}

static void check_one_cut(const size_t *edges, size_t edge_count)
{
    size_t at, i, step;
    cutting = "one cut";
    if (size <= 16384) {
        for (at = 0; at <= size; at++) read_cutting(&at, 1, at % 3 == 0 ? 1 : at % 3 == 1 ? 7 : MOST_CAPACITY);
        return;
    }
    step = edge_count / 100 + 1;
    for (i = 0; i < edge_count; i += step)
        for (at = edges[i] - 8; at <= edges[i] + 48; at += 4) read_cutting(&at, 1, 7);
}

static void check_two_cuts(const size_t *edges, size_t edge_count)
{
    size_t step = edge_count / 40 + 1, i, j, cuts[2];
    cutting = "two cuts";
    for (i = 0; i < edge_count; i += step)
        for (j = i; j < edge_count; j += step) {
            cuts[0] = edges[i];
            cuts[1] = edges[j] + (i + j) % 9;
            read_cutting(cuts, 2, (i + j) % 2 ? 1 : 7);
        }
}

static int compare(const void *left, const void *right)
{
    size_t a = *(const size_t *)left, b = *(const size_t *)right;
    return a < b ? -1 : a > b;
}

static void check_random_cuts(size_t *cuts)
{
    uint64_t state = 1;
    size_t seed, i;
    for (seed = 0; seed < 5; seed++) {
        for (i = 0; i < 200; i++) {
            state = state * UINT64_C(6364136223846793005) + UINT64_C(1442695040888963407);
            cuts[i] = (size_t)(state >> 33) % (size + 1);
        }
        qsort(cuts, 200, sizeof *cuts, compare);
        check_cuts("random", cuts, 200);
    }
}

// The cuttings of a list.
static void check_list(const char *path, size_t *cuts)
{
    static char line[1 << 22];
    FILE *stream = fopen(path, "r");
    if (!stream) fail("the list can't be read", 0);
    while (fgets(line, sizeof line, stream)) {
        char *text = strchr(line, '\t');
        size_t count = 0;
        if (!text) fail("a line without a tab", 0);
        *text++ = 0;
        if (*text == '*') {
            check_size(line, strtoull(text + 1, NULL, 10), cuts);
            continue;
        }
        for (;;) {
            char *end;
            size_t at = strtoull(text, &end, 10);
            if (end == text) break;
            cuts[count++] = at;
            text = end;
        }
        check_cuts(line, cuts, count);
    }
    fclose(stream);
}

// A chunk of no bytes, and an array of no elements, write nothing.
static void check_nothing(void)
{
    static struct events events;
    struct dewikura_cursor cursor = {0, 0};
    struct dewikura_record record;
    uint64_t count = 1, consumed = 1;
    cutting = "nothing";
    read_events(&events);
    memset(&record, FILL, sizeof record);
    if (dewikura_read_chunk_records(data, 0, opening.is_big_endian, events.attrs, (size_t)events.totals.attr_count, events.ids,
            (size_t)events.totals.ids_count, &cursor, &record, 1, &count, &consumed) != DEWIKURA_OK || count || consumed || cursor.offset || cursor.round
        || !is_filled(&record))
        fail("a chunk of no bytes", count);
    count = consumed = 1;
    if (dewikura_read_chunk_records(data + opening.records_offset, records_end - (size_t)opening.records_offset, opening.is_big_endian, events.attrs,
            (size_t)events.totals.attr_count, events.ids, (size_t)events.totals.ids_count, &cursor, &record, 0, &count, &consumed) != DEWIKURA_OK || count
        || consumed || cursor.offset || cursor.round)
        fail("an array of no elements", count);
    if (dewikura_read_chunk_records(data, 0, 0, events.attrs, 0, events.ids, 0, &cursor, &record, 1, &count, &consumed) != DEWIKURA_NO_ATTRIBUTES || count
        || consumed)
        fail("no attributes", count);
}

static void read_wanted(void)
{
    struct dewikura_cursor cursor = {0, 0};
    cutting = "all bytes";
    if (dewikura_read_opening(data, size, &opening) != DEWIKURA_OK) fail("no opening", size);
    records_end = size;
    if (opening.kind == DEWIKURA_KIND_FILE) {
        if (opening.records_offset + opening.records_size < size) records_end = (size_t)(opening.records_offset + opening.records_size);
        wanted_status = dewikura_read_file_records(data, size, &cursor, wanted, size / 8 + 1, &wanted_count);
    } else {
        wanted_status = dewikura_read_pipe_records(data, size, 0, wanted, size / 8 + 1, &wanted_count);
    }
}

int main(int argc, char **argv)
{
    static const size_t sizes[] = {1, 2, 3, 7, 8, 9, 15, 16, 24, 64, 4095, 4096, 65535, 65536};
    FILE *stream = argc == 2 || argc == 3 ? fopen(argv[1], "rb") : NULL;
    size_t *cuts, *edges, edge_count, i;
    char name[32];
    cutting = "input";
    if (!stream) return 2;
    fseek(stream, 0, SEEK_END);
    size = (size_t)ftell(stream);
    rewind(stream);
    data = allocate(size, 1);
    if (fread(data, 1, size, stream) != size) return 2;
    fclose(stream);
    wanted = allocate(size / 8 + 1, sizeof *wanted);
    cuts = allocate(size + 200, sizeof *cuts);
    edges = allocate(size / 8 + 1, sizeof *edges);
    read_wanted();
    check_nothing();
    check_cuts("no cut", NULL, 0);
    for (i = 0; i < sizeof sizes / sizeof *sizes; i++) {
        if (size > 200000 && sizes[i] < 64) continue;
        snprintf(name, sizeof name, "chunks of %zu", sizes[i]);
        check_size(name, sizes[i], cuts);
    }
    check_random_cuts(cuts);
    edge_count = find_edges(edges);
    check_one_cut(edges, edge_count);
    check_two_cuts(edges, edge_count);
    if (argc == 3) check_list(argv[2], cuts);
    free(edges);
    free(cuts);
    free(wanted);
    free(data);
    return 0;
}
