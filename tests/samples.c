// `samples PATH` compares the samples and frames of a recording, and of each truncation of it (a hundred if it has more than
// 4,096 bytes), with those that a decoder of its own finds in the bodies of its records: the fields of PERF_RECORD_SAMPLE in the order of
// the kernel's perf_event.h. The samples of a file are also read in chains of calls with small arrays. `samples print PATH` prints a
// line for each sample instead: its fields and its frames.
#include "arguments.h"
#include "contexts.h"
#include "dewikura.h"
#include <inttypes.h>
#include <stdio.h>
#include <stdlib.h>
#include <string.h>

static const char *where;

static void fail(const char *what, size_t size, uint64_t index)
{
    fprintf(stderr, "samples: %s: %s, %zu bytes, sample %" PRIu64 "\n", where, what, size, index);
    exit(1);
}

// ---- the decoder

static int is_big_endian;

static uint64_t number(const uint8_t *bytes, unsigned count)
{
    uint64_t value = 0;
    unsigned i;
    for (i = 0; i < count; i++)
        value |= (uint64_t)bytes[i] << 8 * (is_big_endian ? count - 1 - i : i);
    return value;
}

struct fields {
    const uint8_t *at, *end;
    int is_truncated;
};

static uint64_t take(struct fields *fields, unsigned bytes)
{
    uint64_t value;
    if (fields->is_truncated || (size_t)(fields->end - fields->at) < bytes) {
        fields->is_truncated = 1;
        return 0;
    }
    value = number(fields->at, bytes);
    fields->at += bytes;
    return value;
}

static void skip(struct fields *fields, uint64_t words)
{
    if (fields->is_truncated || (uint64_t)(fields->end - fields->at) / 8 < words)
        fields->is_truncated = 1;
    else
        fields->at += 8 * words;
}

static void skip_values(struct fields *fields, uint64_t format)
{
    uint64_t times = !!(format & DEWIKURA_READ_TOTAL_TIME_ENABLED) + !!(format & DEWIKURA_READ_TOTAL_TIME_RUNNING);
    uint64_t width = 1 + !!(format & DEWIKURA_READ_ID) + !!(format & DEWIKURA_READ_LOST);
    if (format & DEWIKURA_READ_GROUP) {
        uint64_t count = take(fields, 8);
        skip(fields, times);
        if (count > (uint64_t)(fields->end - fields->at))
            fields->is_truncated = 1;
        else
            skip(fields, count * width);
    } else {
        skip(fields, width + times);
    }
}

static const uint64_t WORDS = DEWIKURA_SAMPLE_IDENTIFIER | DEWIKURA_SAMPLE_IP | DEWIKURA_SAMPLE_TID | DEWIKURA_SAMPLE_TIME | DEWIKURA_SAMPLE_ADDR
    | DEWIKURA_SAMPLE_ID | DEWIKURA_SAMPLE_STREAM_ID | DEWIKURA_SAMPLE_CPU | DEWIKURA_SAMPLE_PERIOD;

static int has_known_fields(const struct dewikura_attr *attr)
{
    return attr->sample_type >> 25 == 0 && (!(attr->sample_type & DEWIKURA_SAMPLE_READ) || attr->read_format >> 5 == 0)
        && (!(attr->sample_type & DEWIKURA_SAMPLE_BRANCH_STACK) || attr->branch_sample_type >> 20 == 0);
}

// Writes the frames of a sample, whose number is that of a chain's values at most.
static void decode(const uint8_t *data, const struct dewikura_record *record, const struct dewikura_attr *attr, struct dewikura_sample *sample,
    struct dewikura_frame *frames)
{
    struct fields fields;
    uint64_t type = attr->sample_type, id = 0, count, i;
    uint32_t context = DEWIKURA_CONTEXT_USER;
    fields.at = data + record->body_offset;
    fields.end = fields.at + record->body_size;
    fields.is_truncated = 0;
    memset(sample, 0, sizeof *sample);
    if (type & DEWIKURA_SAMPLE_IDENTIFIER) sample->id = take(&fields, 8);
    if (type & DEWIKURA_SAMPLE_IP) sample->ip = take(&fields, 8);
    if (type & DEWIKURA_SAMPLE_TID) {
        sample->pid = (int32_t)take(&fields, 4);
        sample->tid = (int32_t)take(&fields, 4);
    }
    if (type & DEWIKURA_SAMPLE_TIME) sample->timestamp = take(&fields, 8);
    if (type & DEWIKURA_SAMPLE_ADDR) sample->address = take(&fields, 8);
    if (type & DEWIKURA_SAMPLE_ID) id = take(&fields, 8);
    if (type & DEWIKURA_SAMPLE_STREAM_ID) skip(&fields, 1);
    if (type & DEWIKURA_SAMPLE_CPU) {
        sample->cpu = (uint32_t)take(&fields, 4);
        take(&fields, 4);
    }
    if (type & DEWIKURA_SAMPLE_PERIOD) sample->period = take(&fields, 8);
    if (!(type & DEWIKURA_SAMPLE_IDENTIFIER)) sample->id = id;
    sample->fields = (uint32_t)(type & WORDS);
    if (fields.is_truncated) {
        memset(sample, 0, sizeof *sample);
        sample->error = DEWIKURA_BODY_TRUNCATED;
    } else if (!has_known_fields(attr)) {
        sample->error = DEWIKURA_BODY_UNKNOWN_FIELDS;
    } else {
        if (type & DEWIKURA_SAMPLE_READ) skip_values(&fields, attr->read_format);
        count = type & DEWIKURA_SAMPLE_CALLCHAIN ? take(&fields, 8) : 0;
        if (fields.is_truncated || count > (uint64_t)(fields.end - fields.at) / 8) {
            sample->error = DEWIKURA_BODY_TRUNCATED;
        } else {
            sample->fields = (uint32_t)type;
            for (i = 0; i < count; i++) {
                uint64_t value = take(&fields, 8);
                if (value >= (uint64_t)-4095) {
                    context = context_of(value);
                } else {
                    frames[sample->frames_count].address = value;
                    frames[sample->frames_count].context = context;
                    frames[sample->frames_count++].reserved = 0;
                }
            }
        }
    }
    sample->offset = record->offset;
    sample->misc = record->misc;
    sample->attr_index = (uint32_t)record->attr_index;
}

// ---- the comparison

struct samples {
    struct dewikura_sample *samples;
    struct dewikura_frame *frames;
    uint64_t count, frames_count;
    dewikura_status status;
};

static void *array(size_t count, size_t size)
{
    void *made = calloc(count + 1, size);
    if (!made)
        exit(2);
    return made;
}

static struct samples decode_all(const uint8_t *data, size_t size, int is_pipe)
{
    size_t capacity = size / 8 + 1, i;
    struct dewikura_record *records = array(capacity, sizeof *records);
    struct dewikura_attr *attrs = array(capacity, sizeof *attrs);
    struct dewikura_attr_totals totals;
    struct samples all;
    uint64_t count;
    dewikura_status ignored;
    memset(&all, 0, sizeof all);
    all.samples = array(capacity, sizeof *all.samples);
    all.frames = array(capacity, sizeof *all.frames);
    is_big_endian = (int)dewikura_is_big_endian(data, size);
    if (is_pipe) {
        all.status = dewikura_read_pipe_records(data, size, 0, records, capacity, &count);
        ignored = dewikura_read_pipe_attrs(data, size, attrs, capacity, NONE, 0, NONE, 0, &totals);
    } else {
        all.status = dewikura_read_file_records(data, size, FIRST, records, capacity, &count);
        ignored = dewikura_read_file_attrs(data, size, attrs, capacity, NONE, 0, NONE, 0, &totals);
    }
    (void)ignored;
    for (i = 0; i < count; i++) {
        struct dewikura_sample *sample = all.samples + all.count;
        if (records[i].type != DEWIKURA_RECORD_SAMPLE)
            continue;
        decode(data, records + i, attrs + records[i].attr_index, sample, all.frames + all.frames_count);
        sample->frames_start = all.frames_count;
        all.frames_count += sample->frames_count;
        all.count++;
    }
    free(records);
    free(attrs);
    return all;
}

static void free_samples(struct samples *all)
{
    free(all->samples);
    free(all->frames);
}

static struct samples read_all(const uint8_t *data, size_t size, int is_pipe)
{
    size_t capacity = size / 8 + 1;
    struct samples all;
    memset(&all, 0, sizeof all);
    all.samples = array(capacity, sizeof *all.samples);
    all.frames = array(capacity, sizeof *all.frames);
    if (is_pipe)
        all.status = dewikura_read_pipe_samples(data, size, all.samples, capacity, &all.count, all.frames, capacity, &all.frames_count);
    else
        all.status = dewikura_read_file_samples(data, size, FIRST, all.samples, capacity, &all.count, all.frames, capacity, &all.frames_count);
    return all;
}

static void compare(const struct samples *found, const struct samples *wanted, size_t size)
{
    uint64_t i;
    if (found->status != wanted->status)
        fail("another status", size, found->status);
    if (found->count != wanted->count || found->frames_count != wanted->frames_count)
        fail("other counts", size, found->count);
    for (i = 0; i < wanted->count; i++)
        if (memcmp(found->samples + i, wanted->samples + i, sizeof *found->samples))
            fail("another sample", size, i);
    if (memcmp(found->frames, wanted->frames, (size_t)wanted->frames_count * sizeof *found->frames))
        fail("other frames", size, 0);
}

// Reads samples in calls for at most this many samples and frames. A chain that is longer is read in a call of its own.
static void check_chain(const uint8_t *data, size_t size, size_t capacity, size_t frames_capacity, const struct samples *wanted)
{
    struct dewikura_cursor cursor = {0, 0};
    struct dewikura_sample page[8];
    size_t large = size / 8 + 1;
    struct dewikura_frame *frames = array(large, sizeof *frames);
    uint64_t count, frames_count, read = 0, i;
    size_t room = frames_capacity;
    dewikura_status status;
    for (;;) {
        memset(page, 0xaa, sizeof page);
        memset(frames, 0xaa, (large + 1) * sizeof *frames);
        status = dewikura_read_file_samples(data, size, &cursor, page, capacity, &count, frames, room, &frames_count);
        if (status == DEWIKURA_NO_SPACE) {
            if (count || room != frames_capacity || frames_count <= room || read == wanted->count || frames_count != wanted->samples[read].frames_count)
                fail("no space", size, read);
            room = (size_t)frames_count;
            continue;
        }
        if (count > capacity || frames_count > room || count > wanted->count - read)
            fail("too many", size, read);
        for (i = 0; i < sizeof page[0] && count < 8; i++)
            if (((const uint8_t *)(page + count))[i] != 0xaa)
                fail("written after the last sample", size, read);
        for (i = 0; i < sizeof frames[0]; i++)
            if (((const uint8_t *)(frames + frames_count))[i] != 0xaa)
                fail("written after the last frame", size, read);
        for (i = 0; i < count; i++) {
            struct dewikura_sample sample = wanted->samples[read + i];
            if (page[i].frames_count != (frames_capacity ? sample.frames_count : 0) || page[i].frames_start + page[i].frames_count > frames_count)
                fail("frames of a page", size, read + i);
            if (memcmp(frames + page[i].frames_start, wanted->frames + sample.frames_start, page[i].frames_count * sizeof *frames))
                fail("other frames of a page", size, read + i);
            sample.frames_start = page[i].frames_start;
            sample.frames_count = page[i].frames_count;
            if (memcmp(page + i, &sample, sizeof sample))
                fail("another sample of a page", size, read + i);
        }
        read += count;
        room = frames_capacity;
        if (status != DEWIKURA_OK || count == 0)
            break;
    }
    if (status != wanted->status || read != wanted->count)
        fail("another end", size, read);
    free(frames);
}

static void check(const uint8_t *data, size_t size, int is_pipe)
{
    struct samples wanted = decode_all(data, size, is_pipe), found = read_all(data, size, is_pipe);
    compare(&found, &wanted, size);
    if (is_pipe) {
        struct dewikura_sample samples[2];
        struct dewikura_frame frames[3];
        uint64_t count, frames_count;
        size_t few = wanted.count < 2 ? (size_t)wanted.count : 2, few_frames = wanted.frames_count < 3 ? (size_t)wanted.frames_count : 3;
        if (dewikura_read_pipe_samples(data, size, NONE, 0, &count, NONE, 0, &frames_count) != wanted.status || count != wanted.count
            || frames_count != wanted.frames_count)
            fail("other counts without arrays", size, count);
        if (dewikura_read_pipe_samples(data, size, samples, 2, &count, frames, 3, &frames_count) != wanted.status || count != wanted.count
            || frames_count != wanted.frames_count || memcmp(samples, wanted.samples, few * sizeof *samples)
            || memcmp(frames, wanted.frames, few_frames * sizeof *frames))
            fail("other samples in small arrays", size, count);
    } else {
        check_chain(data, size, 1, 1, &wanted);
        check_chain(data, size, 7, 5, &wanted);
        check_chain(data, size, 2, 40, &wanted);
        check_chain(data, size, 7, 0, &wanted);
    }
    free_samples(&found);
    free_samples(&wanted);
}

// ---- the lines

static void print(const struct samples *all)
{
    uint64_t i, k;
    for (i = 0; i < all->count; i++) {
        const struct dewikura_sample *s = all->samples + i;
        printf("%" PRIu64 " %u %u %u %u %" PRIu64 " %" PRIu64 " %" PRIu64 " %" PRIu64 " %" PRIu64 " %u %d %d", s->offset, s->misc, s->attr_index,
            s->error, s->fields, s->timestamp, s->ip, s->address, s->id, s->period, s->cpu, s->pid, s->tid);
        for (k = 0; k < s->frames_count; k++)
            printf(" %u:%" PRIu64, all->frames[s->frames_start + k].context, all->frames[s->frames_start + k].address);
        putchar('\n');
    }
    printf("%u\n", all->status);
}

int main(int argc, char **argv)
{
    FILE *stream = argc == 2 || argc == 3 ? fopen(argv[argc - 1], "rb") : NULL;
    size_t capacity = 1 << 20, size = 0, shorter, more;
    uint8_t *data = malloc(capacity);
    int is_pipe;
    if (!stream || !data)
        return 2;
    where = argv[argc - 1];
    while ((more = fread(data + size, 1, capacity - size, stream)) > 0) {
        size += more;
        if (size == capacity && !(data = realloc(data, capacity *= 2)))
            return 2;
    }
    fclose(stream);
    is_pipe = dewikura_input_kind(data, size) == DEWIKURA_KIND_PIPE;
    if (argc == 3) {
        struct samples all = read_all(data, size, is_pipe);
        print(&all);
        free_samples(&all);
        free(data);
        return 0;
    }
    check(data, size, is_pipe);
    for (shorter = 0; shorter < size; shorter += size <= 4096 ? 1 : size / 100) {
        uint8_t *copy = malloc(shorter + 1);
        if (!copy)
            return 2;
        memcpy(copy, data, shorter);
        check(copy, shorter, is_pipe);
        free(copy);
    }
    free(data);
    return 0;
}
