// `events PATH` reads each record of a file or pipe alone, by dewikura_read_event and dewikura_read_common. What it writes is what the calls on the whole
// input write, and the first words of a sample or the last ones of another record, as this program parses them. Each body is a copy of its own size.
// What a record isn't is unchanged, and an error changes nothing. dewikura_read_error finds the first error of prefixes of the input.
#include "dewikura.h"
#include <inttypes.h>
#include <stdio.h>
#include <stdlib.h>
#include <string.h>

#define FILL 0x5a
#define MOST_FRAMES 65536
#define MOST_COUNTERS 8192

static uint8_t *data;
static size_t size;
static uint32_t kind, is_big_endian;
static struct dewikura_attr attrs[256];
static struct dewikura_attr_totals totals;

// What the calls on the whole input write.
static struct dewikura_record *records;
static struct dewikura_sample *samples;
static struct dewikura_frame *frames;
static struct dewikura_task *tasks;
static struct dewikura_mapping *mappings;
static struct dewikura_counter *counters;
static uint64_t record_count, sample_count, frame_count, task_count, mapping_count, counter_count;
// How many of them records had so far.
static uint64_t next_sample, next_task, next_mapping, next_counter;

// What a call on one record writes.
static struct {
    struct dewikura_sample sample;
    struct dewikura_task task;
    struct dewikura_mapping mapping;
    struct dewikura_frame frames[MOST_FRAMES];
    struct dewikura_counter counters[MOST_COUNTERS];
    struct dewikura_common common;
    uint64_t frames_count, counters_count;
} found;

static void fail(const char *what, uint64_t number)
{
    fprintf(stderr, "events: %s (record %" PRIu64 ")\n", what, number);
    exit(1);
}

static void *allocate(size_t count, size_t bytes)
{
    void *memory = calloc(count ? count : 1, bytes);
    if (!memory) fail("out of memory", count);
    return memory;
}

static int is_filled(const void *bytes, size_t count)
{
    size_t i;
    for (i = 0; i < count; i++)
        if (((const uint8_t *)bytes)[i] != FILL) return 0;
    return 1;
}

// The calls on the whole input. An error ends all of them at the same record.
static void read_whole(void)
{
    static char names[65536];
    static uint64_t ids[65536];
    struct dewikura_cursor cursor = {0, 0};
    dewikura_status status;
    size_t most = size / 8 + 1;
    records = allocate(most, sizeof *records);
    samples = allocate(most, sizeof *samples);
    frames = allocate(most, sizeof *frames);
    tasks = allocate(most, sizeof *tasks);
    mappings = allocate(most, sizeof *mappings);
    counters = allocate(most, sizeof *counters);
    if (kind == DEWIKURA_KIND_FILE) {
        struct dewikura_cursor other;
        status = dewikura_read_file_attrs(data, size, attrs, 256, names, sizeof names, ids, 65536, &totals);
        if (status != DEWIKURA_OK) fail("no attributes", status);
        status = dewikura_read_file_records(data, size, &cursor, records, most, &record_count);
        memset(&other, 0, sizeof other);
        if (dewikura_read_file_samples(data, size, &other, samples, most, &sample_count, frames, most, &frame_count) != status) fail("samples", 0);
        memset(&other, 0, sizeof other);
        if (dewikura_read_file_tasks(data, size, &other, tasks, most, &task_count) != status) fail("tasks", 0);
        memset(&other, 0, sizeof other);
        if (dewikura_read_file_mappings(data, size, &other, mappings, most, &mapping_count) != status) fail("mappings", 0);
        memset(&other, 0, sizeof other);
        if (dewikura_read_file_counters(data, size, &other, counters, most, &counter_count) != status) fail("counters", 0);
    } else {
        status = dewikura_read_pipe_attrs(data, size, attrs, 256, names, sizeof names, ids, 65536, &totals);
        if (dewikura_read_pipe_records(data, size, 0, records, most, &record_count) != status) fail("records", 0);
        if (dewikura_read_pipe_samples(data, size, samples, most, &sample_count, frames, most, &frame_count) != status) fail("samples", 0);
        if (dewikura_read_pipe_tasks(data, size, tasks, most, &task_count) != status) fail("tasks", 0);
        if (dewikura_read_pipe_mappings(data, size, mappings, most, &mapping_count) != status) fail("mappings", 0);
        if (dewikura_read_pipe_counters(data, size, counters, most, &counter_count) != status) fail("counters", 0);
    }
    if (totals.attr_count > 256 || frame_count > most || counter_count > most) fail("too much", totals.attr_count);
}

static dewikura_status read_event(const uint8_t *body, size_t body_size, const struct dewikura_record *record, size_t frames_capacity,
    size_t counters_capacity)
{
    memset(&found.sample, FILL, sizeof found.sample);
    memset(&found.task, FILL, sizeof found.task);
    memset(&found.mapping, FILL, sizeof found.mapping);
    memset(found.frames, FILL, 64 * sizeof *found.frames);
    memset(found.counters, FILL, 64 * sizeof *found.counters);
    found.frames_count = found.counters_count = 1234567;
    return dewikura_read_event(body, body_size, is_big_endian, attrs, (size_t)totals.attr_count, record, &found.sample, found.frames, frames_capacity,
        &found.frames_count, &found.task, &found.mapping, found.counters, counters_capacity, &found.counters_count);
}

static int is_unchanged(void)
{
    return is_filled(&found.sample, sizeof found.sample) && is_filled(&found.task, sizeof found.task) && is_filled(&found.mapping, sizeof found.mapping)
        && is_filled(found.frames, 64 * sizeof *found.frames) && is_filled(found.counters, 64 * sizeof *found.counters) && !found.frames_count
        && !found.counters_count;
}

// The record is a sample: the next one of the whole input, whose frames start at the first element here.
static void check_sample(uint64_t index)
{
    struct dewikura_sample wanted;
    uint64_t count;
    if (next_sample == sample_count) fail("a sample that the input doesn't have", index);
    wanted = samples[next_sample++];
    count = wanted.frames_count;
    if (found.frames_count != count) fail("another number of frames", index);
    if (memcmp(found.frames, frames + wanted.frames_start, (size_t)count * sizeof *frames)) fail("other frames", index);
    if (count < 64 && !is_filled(found.frames + count, sizeof *frames)) fail("an element after the frames is written", index);
    wanted.frames_start = 0;
    if (memcmp(&found.sample, &wanted, sizeof wanted)) fail("another sample", index);
}

// The counter values of the record: those of the whole input with its offset.
static void check_counters(uint64_t index)
{
    uint64_t start = next_counter, count;
    while (next_counter < counter_count && counters[next_counter].offset == records[index].offset) next_counter++;
    count = next_counter - start;
    if (found.counters_count != count) fail("another number of counter values", index);
    if (memcmp(found.counters, counters + start, (size_t)count * sizeof *counters)) fail("other counter values", index);
    if (count < 64 && !is_filled(found.counters + count, sizeof *counters)) fail("an element after the values is written", index);
}

static void check_task(uint64_t index)
{
    struct dewikura_task wanted;
    if (next_task == task_count || tasks[next_task].offset != records[index].offset) {
        if (!is_filled(&found.task, sizeof found.task)) fail("a task that the input doesn't have", index);
        return;
    }
    wanted = tasks[next_task++];
    if (wanted.name_offset) wanted.name_offset -= records[index].body_offset;
    if (memcmp(&found.task, &wanted, sizeof wanted)) fail("another task", index);
}

static void check_mapping(uint64_t index)
{
    struct dewikura_mapping wanted;
    if (next_mapping == mapping_count || mappings[next_mapping].offset != records[index].offset) {
        if (!is_filled(&found.mapping, sizeof found.mapping)) fail("a mapping that the input doesn't have", index);
        return;
    }
    wanted = mappings[next_mapping++];
    wanted.path_offset -= records[index].body_offset;
    if (memcmp(&found.mapping, &wanted, sizeof wanted)) fail("another mapping", index);
}

static uint64_t number_at(const uint8_t *bytes, unsigned count)
{
    uint64_t number = 0;
    unsigned i;
    for (i = 0; i < count; i++) number = number << 8 | bytes[is_big_endian ? i : count - 1 - i];
    return number;
}

// The words of a record that say who wrote it, in order: the bits of the first words of a sample, and of the last ones of another record.
static const uint64_t first_words[] = {DEWIKURA_SAMPLE_IDENTIFIER, DEWIKURA_SAMPLE_IP, DEWIKURA_SAMPLE_TID, DEWIKURA_SAMPLE_TIME, DEWIKURA_SAMPLE_ADDR,
    DEWIKURA_SAMPLE_ID, DEWIKURA_SAMPLE_STREAM_ID, DEWIKURA_SAMPLE_CPU};
static const uint64_t last_words[] = {DEWIKURA_SAMPLE_TID, DEWIKURA_SAMPLE_TIME, DEWIKURA_SAMPLE_ID, DEWIKURA_SAMPLE_STREAM_ID, DEWIKURA_SAMPLE_CPU,
    DEWIKURA_SAMPLE_IDENTIFIER};

static dewikura_status parse_common(const struct dewikura_record *record, const uint8_t *body, struct dewikura_common *common)
{
    const struct dewikura_attr *attr = &attrs[record->attr_index];
    int is_sample = record->type == DEWIKURA_RECORD_SAMPLE;
    const uint64_t *words = is_sample ? first_words : last_words;
    size_t count = is_sample ? 8 : 6, needed = 0, i;
    uint64_t id = 0;
    memset(common, 0, sizeof *common);
    if (!record->has_attr || (!is_sample && !(attr->flags & DEWIKURA_ATTR_SAMPLE_ID_ALL))) return DEWIKURA_OK;
    for (i = 0; i < count; i++) needed += attr->sample_type & words[i] ? 8 : 0;
    if (record->body_size < needed) return DEWIKURA_TRUNCATED;
    if (!is_sample) body += record->body_size - needed;
    for (i = 0; i < count; i++) {
        if (!(attr->sample_type & words[i])) continue;
        if (words[i] == DEWIKURA_SAMPLE_TID) {
            common->pid = (int32_t)number_at(body, 4);
            common->tid = (int32_t)number_at(body + 4, 4);
        }
        if (words[i] == DEWIKURA_SAMPLE_TIME) common->timestamp = number_at(body, 8);
        if (words[i] == DEWIKURA_SAMPLE_STREAM_ID) common->stream_id = number_at(body, 8);
        if (words[i] == DEWIKURA_SAMPLE_CPU) common->cpu = (uint32_t)number_at(body, 4);
        if (words[i] == DEWIKURA_SAMPLE_ID) id = number_at(body, 8);
        if (words[i] == DEWIKURA_SAMPLE_IDENTIFIER) common->id = number_at(body, 8);
        if (words[i] != DEWIKURA_SAMPLE_IP && words[i] != DEWIKURA_SAMPLE_ADDR) common->fields |= (uint32_t)words[i];
        body += 8;
    }
    if (!(attr->sample_type & DEWIKURA_SAMPLE_IDENTIFIER)) common->id = id;
    return DEWIKURA_OK;
}

static void check_common(uint64_t index, const struct dewikura_record *record, const uint8_t *body)
{
    struct dewikura_common wanted;
    dewikura_status status = parse_common(record, body, &wanted);
    memset(&found.common, FILL, sizeof found.common);
    if (dewikura_read_common(body, (size_t)record->body_size, is_big_endian, attrs, (size_t)totals.attr_count, record, &found.common) != status)
        fail("another status of the common fields", index);
    if (status == DEWIKURA_OK ? memcmp(&found.common, &wanted, sizeof wanted) != 0 : !is_filled(&found.common, sizeof found.common))
        fail("other common fields", index);
    if (record->has_timestamp && status == DEWIKURA_OK && found.common.timestamp != record->timestamp) fail("another time", index);
}

// A record whose body or attribute isn't there.
static void check_missing(uint64_t index, struct dewikura_record record, const uint8_t *body, dewikura_status wanted)
{
    size_t body_size = (size_t)records[index].body_size;
    if (read_event(body, body_size, &record, 64, 64) != wanted || !is_unchanged()) fail("another error", index);
    memset(&found.common, FILL, sizeof found.common);
    if (dewikura_read_common(body, body_size, is_big_endian, attrs, (size_t)totals.attr_count, &record, &found.common) != wanted
        || !is_filled(&found.common, sizeof found.common))
        fail("another error of the common fields", index);
}

static void check_errors(uint64_t index, const struct dewikura_record *record, const uint8_t *body)
{
    static const uint64_t offsets[] = {1, UINT64_C(1) << 63, UINT64_MAX - 7, UINT64_MAX}, sizes[] = {0, 1, UINT64_C(1) << 63, UINT64_MAX};
    struct dewikura_record other = *record;
    size_t i;
    for (i = 0; i < 4; i++) {
        other.body_offset = offsets[i];
        check_missing(index, other, body, DEWIKURA_TRUNCATED_RECORD);
        other.body_offset = 0;
        other.body_size = record->body_size + 1 + sizes[i];
        if (other.body_size > record->body_size) check_missing(index, other, body, DEWIKURA_TRUNCATED_RECORD);
        other.body_size = record->body_size;
    }
    other.attr_index = totals.attr_count;
    check_missing(index, other, body, DEWIKURA_NO_ATTRIBUTES);
    other.attr_index = UINT64_MAX;
    check_missing(index, other, body, DEWIKURA_NO_ATTRIBUTES);
}

// With small arrays, what fits is written, and all is counted.
static void check_small(uint64_t index, const struct dewikura_record *record, const uint8_t *body)
{
    static struct dewikura_frame first_frames[2];
    static struct dewikura_counter first_counters[2];
    uint64_t frames_count = found.frames_count, counters_count = found.counters_count;
    size_t capacity;
    memcpy(first_frames, found.frames, sizeof first_frames);
    memcpy(first_counters, found.counters, sizeof first_counters);
    for (capacity = 0; capacity < 2; capacity++) {
        if (read_event(body, (size_t)record->body_size, record, capacity, capacity) != DEWIKURA_OK) fail("another status of small arrays", index);
        if (found.frames_count != frames_count || found.counters_count != counters_count) fail("other numbers of small arrays", index);
        if (memcmp(found.frames, first_frames, (frames_count < capacity ? frames_count : capacity) * sizeof *frames)
            || memcmp(found.counters, first_counters, (counters_count < capacity ? counters_count : capacity) * sizeof *counters)
            || !is_filled(found.frames + capacity, sizeof *frames) || !is_filled(found.counters + capacity, sizeof *counters))
            fail("other elements of small arrays", index);
    }
}

static void check_record(uint64_t index)
{
    struct dewikura_record record = records[index];
    uint8_t *body = allocate((size_t)record.body_size, 1);
    dewikura_status status;
    memcpy(body, data + record.body_offset, (size_t)record.body_size);
    record.body_offset = 0;
    status = read_event(body, (size_t)record.body_size, &record, MOST_FRAMES, MOST_COUNTERS);
    if (status != DEWIKURA_OK && status != DEWIKURA_TRUNCATED && status != DEWIKURA_INVALID_DATA) fail("another status", index);
    if (status != DEWIKURA_OK && (record.type == DEWIKURA_RECORD_SAMPLE || !record.has_attr)) fail("an error", index);
    if (status != DEWIKURA_OK && !is_unchanged()) fail("written with an error", index);
    if (record.type == DEWIKURA_RECORD_SAMPLE)
        check_sample(index);
    else if (!is_filled(&found.sample, sizeof found.sample) || !is_filled(found.frames, 64 * sizeof *found.frames) || found.frames_count)
        fail("a sample", index);
    check_task(index);
    check_mapping(index);
    check_counters(index);
    if (status == DEWIKURA_OK) check_small(index, &record, body);
    check_common(index, &record, body);
    if (index < 64) check_errors(index, &record, body);
    free(body);
}

// Records of the whole input, of which `body_offset` counts from its start.
static void check_in_place(void)
{
    uint64_t i, next = 0;
    for (i = 0; i < record_count; i++) {
        if (read_event(data, size, &records[i], 0, 0) != DEWIKURA_OK) continue;
        if (next < task_count && tasks[next].offset == records[i].offset && memcmp(&found.task, &tasks[next++], sizeof *tasks)) fail("in place", i);
    }
    if (next != task_count) fail("fewer tasks", next);
}

// The first error of the first bytes of the input is that of the call that reads their records, at the offset where it ends.
static void check_error(size_t count)
{
    static const struct dewikura_error none;
    struct dewikura_cursor cursor = {0, 0};
    struct dewikura_error error;
    uint8_t *copy = allocate(count, 1);
    uint64_t total;
    dewikura_status wanted;
    memcpy(copy, data, count);
    if (dewikura_input_kind(copy, count) == DEWIKURA_KIND_PIPE)
        wanted = dewikura_read_pipe_records(copy, count, 0, records, size / 8 + 1, &total);
    else
        wanted = dewikura_read_file_records(copy, count, &cursor, records, size / 8 + 1, &total);
    memset(&error, FILL, sizeof error);
    if (dewikura_read_error(copy, count, &error) != wanted || error.status != wanted) fail("another first error", count);
    if (wanted == DEWIKURA_OK && memcmp(&error, &none, sizeof none)) fail("numbers without an error", count);
    if (kind == DEWIKURA_KIND_FILE && error.offset != (error.has_offset ? cursor.offset : 0)) fail("an error at another offset", count);
    if (wanted != DEWIKURA_OK && total && !error.has_offset) fail("an error of a record without an offset", count);
    free(copy);
}

static void check_errors_of_prefixes(void)
{
    size_t i;
    for (i = 0; i <= size && i < 200; i++) check_error(i);
    for (i = 0; i <= 100; i++) check_error((size_t)((double)size * (double)i / 100));
}

int main(int argc, char **argv)
{
    FILE *stream = argc == 2 ? fopen(argv[1], "rb") : NULL;
    uint64_t i;
    if (!stream) return 2;
    fseek(stream, 0, SEEK_END);
    size = (size_t)ftell(stream);
    rewind(stream);
    data = allocate(size, 1);
    if (fread(data, 1, size, stream) != size) return 2;
    fclose(stream);
    kind = dewikura_input_kind(data, size);
    is_big_endian = dewikura_is_big_endian(data, size);
    read_whole();
    for (i = 0; i < record_count; i++) check_record(i);
    if (next_sample != sample_count || next_task != task_count || next_mapping != mapping_count || next_counter != counter_count) fail("fewer entries", i);
    check_in_place();
    check_errors_of_prefixes();
    free(records);
    free(samples);
    free(frames);
    free(tasks);
    free(mappings);
    free(counters);
    free(data);
    return 0;
}
