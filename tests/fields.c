// Compares each field of each struct of dewikura.h, by its name, with an input in which the fields have different numbers. Also
// makes each call with an empty input and empty arrays, and reads the version and the texts of the statuses.
#include "arguments.h"
#include "dewikura.h"
#include <inttypes.h>
#include <stdio.h>
#include <stdlib.h>
#include <string.h>

static uint8_t input[1 << 16];
static size_t size;

static void put(uint64_t number, unsigned bytes)
{
    while (bytes--) {
        input[size++] = (uint8_t)number;
        number >>= 8;
    }
}

static void put_text(const char *text, size_t bytes)
{
    strncpy((char *)input + size, text, bytes);
    size += bytes;
}

static void put_at(size_t offset, uint64_t number, unsigned bytes)
{
    size_t end = size;
    size = offset;
    put(number, bytes);
    size = end;
}

#define CHECK(value, expected) check((uint64_t)(value), (uint64_t)(expected), #value, __LINE__)
static void check(uint64_t value, uint64_t expected, const char *what, int line)
{
    if (value != expected) {
        fprintf(stderr, "fields.c:%d: %s is %" PRIu64 " instead of %" PRIu64 "\n", line, what, value, expected);
        exit(1);
    }
}

#define SAMPLE_TYPE (DEWIKURA_SAMPLE_IDENTIFIER | DEWIKURA_SAMPLE_IP)

// A perf_event_attr of 136 bytes.
static void put_attr_of_counters(uint64_t config, uint64_t sample_type, uint64_t read_format)
{
    put(0x21, 4); // type
    put(136, 4);
    put(config, 8);
    put(0x1102, 8); // sample_period
    put(sample_type, 8);
    put(read_format, 8);
    put(DEWIKURA_ATTR_SAMPLE_ID_ALL | DEWIKURA_ATTR_MMAP, 8);
    put(0x22, 4);   // wakeup_events
    put(0x23, 4);   // bp_type
    put(0x1103, 8); // config1
    put(0x1104, 8); // config2
    put(0x1105, 8); // branch_sample_type
    put(0x1106, 8); // sample_regs_user
    put(0x24, 4);   // sample_stack_user
    put((uint32_t)-25, 4); // clockid
    put(0x1107, 8); // sample_regs_intr
    put(0x26, 4);   // aux_watermark
    put(0x27, 2);   // sample_max_stack
    put(0, 2);
    put(0x28, 4);   // aux_sample_size
    put(0, 4);
    put(0x1108, 8); // sig_data
    put(0x1109, 8); // config3
}

static void put_attr(uint64_t config, uint64_t sample_type)
{
    put_attr_of_counters(config, sample_type, DEWIKURA_READ_TOTAL_TIME_ENABLED | DEWIKURA_READ_LOST);
}

static void put_header(uint32_t type, uint16_t misc, uint16_t record_size)
{
    put(type, 4);
    put(misc, 2);
    put(record_size, 2);
}

// An event of the section EVENT_DESC.
static void put_event(uint64_t config, uint64_t sample_type, const char *name, uint32_t name_size, uint32_t ids, uint64_t first_id)
{
    uint32_t i;
    put_attr(config, sample_type);
    put(ids, 4);
    put(name_size, 4);
    put_text(name, name_size);
    for (i = 0; i < ids; i++) put(first_id + i, 8);
}

// A file with two attributes, the features 12, 65, 131 and 197, and these records: two markers, a sample without a time, and one with.
static void put_file(void)
{
    static const char feature_1[] = "feature of 64..";
    size_t data_start, table, section;
    size = 0;
    put_text("PERFILE2", 8);
    put(104, 8);
    put(152, 8);  // the size of an entry of the attribute section
    put(104, 8);  // the attribute section, which the section EVENT_DESC replaces
    put(152, 8);
    put(256, 8);  // the data section
    put(0, 8);
    put(0, 8);
    put(0, 8);
    put(UINT64_C(1) << 12, 8);
    put(UINT64_C(1) << 1, 8);
    put(UINT64_C(1) << 3, 8);
    put(UINT64_C(1) << 5, 8);
    put_attr(0x1101, SAMPLE_TYPE);
    put(0, 16);
    data_start = size;
    put_header(DEWIKURA_RECORD_FINISHED_ROUND, 0, 8);
    put_header(DEWIKURA_RECORD_FINISHED_ROUND, 0, 8);
    put_header(DEWIKURA_RECORD_SAMPLE, 0x4002, 24);
    put(0x501, 8); // the identifier
    put(0x502, 8);
    put_header(DEWIKURA_RECORD_SAMPLE, 0x4001, 40);
    put(0x605, 8);
    put(0x603, 8);
    put(0x604, 8); // the time
    put(0x606, 8);
    CHECK(data_start, 256);
    put_at(48, size - data_start, 8);
    table = size;
    put(0, 64);
    section = size;
    put(2, 4);
    put(136, 4);
    put_event(0x1101, SAMPLE_TYPE, "first-event", 11, 2, 0x501);
    put_event(0x1111, SAMPLE_TYPE | DEWIKURA_SAMPLE_TIME, "second", 6, 3, 0x603);
    put_at(table, section, 8);
    put_at(table + 8, size - section, 8);
    put_at(table + 16, size, 8);
    put_at(table + 24, sizeof feature_1, 8);
    put_text(feature_1, sizeof feature_1);
    put_at(table + 32, size, 8);
    put_at(table + 48, size, 8);
}

static void check_file(void)
{
    struct dewikura_cursor cursor = {0, 0};
    struct dewikura_record records[3];
    struct dewikura_attr attrs[2];
    struct dewikura_attr_totals totals;
    struct dewikura_feature_set set;
    char names[32] = {0};
    uint64_t ids[8] = {0}, count = 0, feature_size = 0;
    uint8_t is_present = 0;
    memset(records, 0xab, sizeof records);
    put_file();
    CHECK(dewikura_is_big_endian(input, size), 0);
    CHECK(dewikura_read_file_records(input, size, &cursor, records, 1, &count), DEWIKURA_OK);
    CHECK(count, 1);
    CHECK(cursor.offset, 40);
    CHECK(cursor.round, 2);
    memset(records, 0xab, sizeof records);
    CHECK(dewikura_read_file_records(input, size, &cursor, records, 3, &count), DEWIKURA_OK);
    CHECK(count, 1);
    CHECK(records[1].type, 0xabababab);
    CHECK(records[0].offset, 40);
    CHECK(records[0].body_offset, 256 + 40 + 8);
    CHECK(records[0].body_size, 32);
    CHECK(records[0].round, 2);
    CHECK(records[0].timestamp, 0x604);
    CHECK(records[0].attr_index, 1);
    CHECK(records[0].type, DEWIKURA_RECORD_SAMPLE);
    CHECK(records[0].misc, 0x4001);
    CHECK(records[0].has_timestamp, 1);
    CHECK(records[0].has_attr, 1);
    CHECK(dewikura_read_file_records(input, size, FIRST, records, 1, IGNORED(0)), DEWIKURA_OK);
    CHECK(records[0].timestamp, 0);
    CHECK(records[0].attr_index, 0);
    CHECK(records[0].has_timestamp, 0);
    CHECK(records[0].has_attr, 1);
    CHECK(dewikura_read_file_attrs(input, size, attrs, 2, names, sizeof names, ids, 8, &totals), DEWIKURA_OK);
    CHECK(totals.attr_count, 2);
    CHECK(totals.names_size, 17);
    CHECK(totals.ids_count, 5);
    CHECK(strcmp(names, "first-eventsecond"), 0);
    CHECK(ids[1], 0x502);
    CHECK(ids[4], 0x605);
    CHECK(attrs[0].config, 0x1101);
    CHECK(attrs[1].config, 0x1111);
    CHECK(attrs[1].sample_period_or_freq, 0x1102);
    CHECK(attrs[1].sample_type, SAMPLE_TYPE | DEWIKURA_SAMPLE_TIME);
    CHECK(attrs[1].read_format, DEWIKURA_READ_TOTAL_TIME_ENABLED | DEWIKURA_READ_LOST);
    CHECK(attrs[1].flags, DEWIKURA_ATTR_SAMPLE_ID_ALL | DEWIKURA_ATTR_MMAP);
    CHECK(attrs[1].config1, 0x1103);
    CHECK(attrs[1].config2, 0x1104);
    CHECK(attrs[1].branch_sample_type, 0x1105);
    CHECK(attrs[1].sample_regs_user, 0x1106);
    CHECK(attrs[1].sample_regs_intr, 0x1107);
    CHECK(attrs[1].sig_data, 0x1108);
    CHECK(attrs[1].config3, 0x1109);
    CHECK(attrs[1].name_offset, 11);
    CHECK(attrs[1].name_size, 6);
    CHECK(attrs[1].ids_start, 2);
    CHECK(attrs[1].ids_count, 3);
    CHECK(attrs[1].type, 0x21);
    CHECK(attrs[1].size, 136);
    CHECK(attrs[1].wakeup_events, 0x22);
    CHECK(attrs[1].bp_type, 0x23);
    CHECK(attrs[1].sample_stack_user, 0x24);
    CHECK(attrs[1].clockid, -25);
    CHECK(attrs[1].aux_watermark, 0x26);
    CHECK(attrs[1].sample_max_stack, 0x27);
    CHECK(attrs[1].aux_sample_size, 0x28);
    CHECK(attrs[1].has_name, 1);
    CHECK(dewikura_read_file_feature_set(input, size, &set), DEWIKURA_OK);
    CHECK(set.bits0, 1 << 12);
    CHECK(set.bits1, 1 << 1);
    CHECK(set.bits2, 1 << 3);
    CHECK(set.bits3, 1 << 5);
    CHECK(dewikura_read_file_feature(input, size, 65, names, sizeof names, &is_present, &feature_size), DEWIKURA_OK);
    CHECK(is_present, 1);
    CHECK(feature_size, 16);
    CHECK(strcmp(names, "feature of 64.."), 0);
    CHECK(dewikura_read_file_feature(input, size, 66, NONE, 0, &is_present, IGNORED(0)), DEWIKURA_OK);
    CHECK(is_present, 0);
}

// Starts a file with one attribute and a data section of this size, in bytes. The attribute and the place of its ids, 152 bytes, follow.
static void start_file(uint64_t data_size)
{
    size = 0;
    put_text("PERFILE2", 8);
    put(104, 8);
    put(152, 8); // the size of an entry of the attribute section
    put(104, 8);
    put(152, 8);
    put(256, 8); // the data section
    put(data_size, 8);
    put(0, 48);
}

// A file with one attribute, whose samples have all words and a call chain: a complete sample, one whose call chain is truncated, and one
// whose words are.
static void check_samples(void)
{
    static const uint64_t words = DEWIKURA_SAMPLE_IDENTIFIER | DEWIKURA_SAMPLE_IP | DEWIKURA_SAMPLE_TID | DEWIKURA_SAMPLE_TIME | DEWIKURA_SAMPLE_ADDR
        | DEWIKURA_SAMPLE_ID | DEWIKURA_SAMPLE_STREAM_ID | DEWIKURA_SAMPLE_CPU | DEWIKURA_SAMPLE_PERIOD;
    struct dewikura_cursor cursor = {0, 0};
    struct dewikura_sample samples[4];
    struct dewikura_frame frames[4];
    uint64_t count = 0, frames_count = 0;
    int i;
    start_file(8 + 128 + 96 + 24);
    put_attr(0x1101, words | DEWIKURA_SAMPLE_CALLCHAIN);
    put(0, 16);
    CHECK(size, 256);
    put_header(DEWIKURA_RECORD_FINISHED_ROUND, 0, 8);
    for (i = 0; i < 2; i++) {
        put_header(DEWIKURA_RECORD_SAMPLE, DEWIKURA_MODE_KERNEL, i ? 96 : 128);
        put(0x701, 8); // the identifier
        put(0x702, 8); // ip
        put((uint32_t)-3, 4); // pid
        put(0x704, 4); // tid
        put(0x705, 8); // time
        put(0x706, 8); // address
        put(0x707, 8); // id
        put(0x708, 8); // stream id
        put(0x709, 4); // cpu
        put(0, 4);
        put(0x70a, 8); // period
        put(5, 8);     // values of the call chain
        put((uint64_t)-128, 8);
        if (i)
            break;
        put(0x70b, 8);
        put((uint64_t)-512, 8);
        put(0x70c, 8);
        put(0x70d, 8);
    }
    put_header(DEWIKURA_RECORD_SAMPLE, DEWIKURA_MODE_USER, 24);
    put(0x701, 8);
    put(0x702, 8);
    memset(samples, 0xab, sizeof samples);
    memset(frames, 0xab, sizeof frames);
    CHECK(dewikura_read_file_samples(input, size, &cursor, samples, 4, &count, frames, 2, &frames_count), DEWIKURA_NO_SPACE);
    CHECK(count, 0);
    CHECK(frames_count, 3);
    CHECK(cursor.offset, 0);
    CHECK(samples[0].cpu, 0xabababab);
    CHECK(frames[0].context, 0xabababab);
    CHECK(dewikura_read_file_samples(input, size, &cursor, samples, 4, &count, frames, 4, &frames_count), DEWIKURA_OK);
    CHECK(count, 3);
    CHECK(frames_count, 3);
    CHECK(cursor.offset, 256);
    CHECK(cursor.round, 1);
    CHECK(samples[0].offset, 8);
    CHECK(samples[0].timestamp, 0x705);
    CHECK(samples[0].ip, 0x702);
    CHECK(samples[0].address, 0x706);
    CHECK(samples[0].id, 0x701);
    CHECK(samples[0].period, 0x70a);
    CHECK(samples[0].frames_start, 0);
    CHECK(samples[0].frames_count, 3);
    CHECK(samples[0].attr_index, 0);
    CHECK(samples[0].fields, words | DEWIKURA_SAMPLE_CALLCHAIN);
    CHECK(samples[0].cpu, 0x709);
    CHECK(samples[0].pid, -3);
    CHECK(samples[0].tid, 0x704);
    CHECK(samples[0].misc, DEWIKURA_MODE_KERNEL);
    CHECK(samples[0].error, DEWIKURA_BODY_COMPLETE);
    for (i = 0; i < 5; i++)
        CHECK(samples[0].reserved[i], 0);
    CHECK(frames[0].address, 0x70b);
    CHECK(frames[0].context, DEWIKURA_CONTEXT_KERNEL);
    CHECK(frames[0].reserved, 0);
    CHECK(frames[1].address, 0x70c);
    CHECK(frames[1].context, DEWIKURA_CONTEXT_USER);
    CHECK(frames[2].address, 0x70d);
    CHECK(frames[2].context, DEWIKURA_CONTEXT_USER);
    CHECK(frames[3].context, 0xabababab);
    CHECK(samples[1].offset, 136);
    CHECK(samples[1].period, 0x70a);
    CHECK(samples[1].frames_start, 3);
    CHECK(samples[1].frames_count, 0);
    CHECK(samples[1].fields, words);
    CHECK(samples[1].error, DEWIKURA_BODY_TRUNCATED);
    CHECK(samples[2].offset, 232);
    CHECK(samples[2].ip, 0);
    CHECK(samples[2].fields, 0);
    CHECK(samples[2].misc, DEWIKURA_MODE_USER);
    CHECK(samples[2].error, DEWIKURA_BODY_TRUNCATED);
    CHECK(samples[3].cpu, 0xabababab);
    CHECK(dewikura_read_file_samples(input, size, &cursor, samples, 4, &count, frames, 4, &frames_count), DEWIKURA_OK);
    CHECK(count | frames_count, 0);
    CHECK(cursor.offset, 256);
    CHECK(dewikura_read_file_samples(input, size, FIRST, samples, 1, IGNORED(0), NONE, 0, IGNORED(1)), DEWIKURA_OK);
    CHECK(samples[0].frames_count, 0);
    CHECK(samples[0].fields, words | DEWIKURA_SAMPLE_CALLCHAIN);
    put_at(256 + 8 + 128 + 96 + 6, 7, 2); // a record size below that of a record header
    CHECK(dewikura_read_file_samples(input, size, FIRST, samples, 4, &count, frames, 4, &frames_count), DEWIKURA_BAD_RECORD_SIZE);
    CHECK(count, 2);
    CHECK(frames_count, 3);
}

// A file with one attribute, and the records of a task: its name after an exec, its start, one that isn't on a task, and its end.
static void check_tasks(void)
{
    struct dewikura_cursor cursor = {0, 0};
    struct dewikura_task tasks[4];
    uint64_t count = 0;
    int i;
    start_file(40 + 48 + 32 + 48 + 24);
    put_attr(0x1101, DEWIKURA_SAMPLE_TIME | DEWIKURA_SAMPLE_IDENTIFIER);
    put(0, 16);
    put_header(DEWIKURA_RECORD_COMM, 0x2000, 40); // PERF_RECORD_MISC_COMM_EXEC
    put((uint32_t)-3, 4);
    put(0x802, 4);
    put_text("a name", 8);
    put(0x803, 8); // time, and the identifier
    put(1, 8);
    for (i = 0; i < 2; i++) {
        put_header(i ? DEWIKURA_RECORD_EXIT : DEWIKURA_RECORD_FORK, 0, 48);
        put(0x901, 4); // pid, the parent's pid, tid, the parent's tid
        put(0x902, 4);
        put(0x903, 4);
        put((uint32_t)-4, 4);
        put(0x905, 8);
        put(0x906 + (uint64_t)i, 8); // time, and the identifier
        put(1, 8);
        if (i == 0) {
            put_header(DEWIKURA_RECORD_LOST_SAMPLES, 0, 32);
            put(7, 8);
            put(0xa01, 8);
            put(1, 8);
        }
    }
    put_header(DEWIKURA_RECORD_COMM, 0, 24); // a name that is truncated
    put(0, 16);
    memset(tasks, 0xab, sizeof tasks);
    CHECK(dewikura_read_file_tasks(input, size, &cursor, tasks, 1, &count), DEWIKURA_OK);
    CHECK(count, 1);
    CHECK(cursor.offset, 40);
    CHECK(tasks[0].offset, 0);
    CHECK(tasks[0].timestamp, 0x803);
    CHECK(tasks[0].name_offset, 256 + 8 + 8);
    CHECK(tasks[0].name_size, 6);
    CHECK(tasks[0].type, DEWIKURA_RECORD_COMM);
    CHECK(tasks[0].is_execve, 1);
    CHECK(tasks[0].pid, -3);
    CHECK(tasks[0].tid, 0x802);
    CHECK(tasks[0].ppid | tasks[0].ptid, 0);
    CHECK(tasks[1].type, 0xabababab);
    CHECK(dewikura_read_file_tasks(input, size, &cursor, tasks, 4, &count), DEWIKURA_OK);
    CHECK(count, 2);
    CHECK(tasks[0].offset, 40);
    CHECK(tasks[0].timestamp, 0x906);
    CHECK(tasks[0].name_offset | tasks[0].name_size, 0);
    CHECK(tasks[0].type, DEWIKURA_RECORD_FORK);
    CHECK(tasks[0].is_execve, 0);
    CHECK(tasks[0].pid, 0x901);
    CHECK(tasks[0].tid, 0x903);
    CHECK(tasks[0].ppid, 0x902);
    CHECK(tasks[0].ptid, -4);
    CHECK(tasks[1].offset, 40 + 48 + 32);
    CHECK(tasks[1].timestamp, 0x907);
    CHECK(tasks[1].type, DEWIKURA_RECORD_EXIT);
    CHECK(tasks[2].type, 0xabababab);
    CHECK(dewikura_read_file_tasks(NONE, 0, FIRST, NONE, 0, IGNORED(0)), DEWIKURA_TRUNCATED);
}

// A file with one attribute, and three mappings: by an inode, by a build id, and without an identity; then one that is truncated.
static void check_mappings(void)
{
    struct dewikura_cursor cursor = {0, 0};
    struct dewikura_mapping mappings[4];
    uint64_t count = 0;
    int i, is_build_id;
    start_file(2 * 96 + 64 + 80);
    put_attr(0x1101, DEWIKURA_SAMPLE_TIME | DEWIKURA_SAMPLE_IDENTIFIER);
    put(0, 16);
    for (is_build_id = 0; is_build_id < 2; is_build_id++) {
        put_header(DEWIKURA_RECORD_MMAP2, is_build_id ? 0x4002 : 0x2001, 96); // PERF_RECORD_MISC_MMAP_BUILD_ID; _MMAP_DATA
        put((uint32_t)-3, 4);
        put(0x802, 4);
        put(0x803, 8);
        put(0x804, 8);
        put(0x805, 8);
        if (is_build_id) {
            put(16, 4);
            put_text("0123456789abcdefghij", 20);
        } else {
            put(0x806, 4);
            put(0x807, 4);
            put(0x808, 8);
            put(0x809, 8);
        }
        put(0x80a, 4);
        put(0x80b, 4);
        put_text("/a/path", 8);
        put(0x80c + (uint64_t)is_build_id, 8); // time, and the identifier
        put(1, 8);
    }
    put_header(DEWIKURA_RECORD_MMAP, 0, 64);
    put(0x901, 4);
    put(0x902, 4);
    put(0x903, 8);
    put(0x904, 8);
    put(0x905, 8);
    put_text("anon", 8);
    put(0x906, 8);
    put(1, 8);
    put_header(DEWIKURA_RECORD_MMAP2, 0, 80); // the path has no NUL
    put(0, 64);
    put_text("a path..", 8);
    memset(mappings, 0xab, sizeof mappings);
    CHECK(dewikura_read_file_mappings(input, size, &cursor, mappings, 2, &count), DEWIKURA_OK);
    CHECK(count, 2);
    CHECK(cursor.offset, 192);
    for (is_build_id = 0; is_build_id < 2; is_build_id++) {
        const struct dewikura_mapping *mapping = mappings + is_build_id;
        CHECK(mapping->offset, is_build_id ? 96 : 0);
        CHECK(mapping->timestamp, is_build_id ? 0x80d : 0x80c);
        CHECK(mapping->address, 0x803);
        CHECK(mapping->length, 0x804);
        CHECK(mapping->page_offset, 0x805);
        CHECK(mapping->inode, is_build_id ? 0 : 0x808);
        CHECK(mapping->inode_generation, is_build_id ? 0 : 0x809);
        CHECK(mapping->path_offset, 256 + mapping->offset + 8 + 64);
        CHECK(mapping->path_size, 7);
        CHECK(mapping->type, DEWIKURA_RECORD_MMAP2);
        CHECK(mapping->major, is_build_id ? 0 : 0x806);
        CHECK(mapping->minor, is_build_id ? 0 : 0x807);
        CHECK(mapping->protection, 0x80a);
        CHECK(mapping->flags, 0x80b);
        CHECK(mapping->pid, -3);
        CHECK(mapping->tid, 0x802);
        for (i = 0; i < 20; i++)
            CHECK(mapping->build_id[i], is_build_id && i < 16 ? "0123456789abcdef"[i] : 0);
        CHECK(mapping->build_id_size, is_build_id ? 16 : 0);
        CHECK(mapping->is_data, is_build_id ? 0 : 1);
        CHECK(mapping->misc, is_build_id ? 0x4002 : 0x2001);
        CHECK(mapping->reserved, 0);
    }
    CHECK(mappings[2].type, 0xabababab);
    CHECK(dewikura_read_file_mappings(input, size, &cursor, mappings, 4, &count), DEWIKURA_OK);
    CHECK(count, 1);
    CHECK(mappings[0].offset, 192);
    CHECK(mappings[0].timestamp, 0x906);
    CHECK(mappings[0].address, 0x903);
    CHECK(mappings[0].length, 0x904);
    CHECK(mappings[0].page_offset, 0x905);
    CHECK(mappings[0].inode | mappings[0].inode_generation | mappings[0].major | mappings[0].minor, 0);
    CHECK(mappings[0].path_offset, 256 + 192 + 8 + 32);
    CHECK(mappings[0].path_size, 4);
    CHECK(mappings[0].type, DEWIKURA_RECORD_MMAP);
    CHECK(mappings[0].protection | mappings[0].flags, 0);
    CHECK(mappings[0].pid, 0x901);
    CHECK(mappings[0].tid, 0x902);
    CHECK(mappings[0].build_id_size | mappings[0].is_data | mappings[0].misc, 0);
    CHECK(dewikura_read_file_mappings(NONE, 0, FIRST, NONE, 0, IGNORED(0)), DEWIKURA_TRUNCATED);
    CHECK(dewikura_read_pipe_mappings(NONE, 0, NONE, 0, IGNORED(0)), DEWIKURA_TRUNCATED);
    CHECK(dewikura_read_pipe_tasks(NONE, 0, NONE, 0, IGNORED(0)), DEWIKURA_TRUNCATED);
}

static void check_counter(const struct dewikura_counter *counter, uint64_t first, uint64_t offset)
{
    CHECK(counter->value, first);
    CHECK(counter->id, first + 1);
    CHECK(counter->time_enabled, 0xa01);
    CHECK(counter->time_running, 0xa02);
    CHECK(counter->lost, first + 2);
    CHECK(counter->offset, offset);
}

// The counts and the times of a group, and this many numbers from `first` on.
static void put_group(uint64_t count, uint64_t first, uint64_t numbers)
{
    uint64_t i;
    put(count, 8);
    put(0xa01, 8);
    put(0xa02, 8);
    for (i = 0; i < numbers; i++)
        put(first + i, 8);
}

// A file with one attribute of a group: a sample with two counters, a READ record with one, and a sample that is truncated.
static void check_counters(void)
{
    struct dewikura_cursor cursor = {0, 0};
    struct dewikura_counter counters[4];
    uint64_t count = 0;
    start_file(88 + 72 + 40);
    put_attr_of_counters(0x1101, DEWIKURA_SAMPLE_READ | DEWIKURA_SAMPLE_IDENTIFIER,
        DEWIKURA_READ_GROUP | DEWIKURA_READ_TOTAL_TIME_ENABLED | DEWIKURA_READ_TOTAL_TIME_RUNNING | DEWIKURA_READ_ID | DEWIKURA_READ_LOST);
    put(0, 16);
    put_header(DEWIKURA_RECORD_SAMPLE, 2, 88);
    put(1, 8); // identifier
    put_group(2, 0xb01, 6);
    put_header(DEWIKURA_RECORD_READ, 0, 72);
    put(0x901, 4);
    put(0x902, 4);
    put_group(1, 0xc01, 3);
    put(1, 8); // identifier
    put_header(DEWIKURA_RECORD_SAMPLE, 2, 40);
    put(1, 8);
    put_group(2, 0, 0);
    memset(counters, 0xab, sizeof counters);
    CHECK(dewikura_read_file_counters(input, size, &cursor, counters, 1, &count), DEWIKURA_NO_SPACE);
    CHECK(count, 2);
    CHECK(cursor.offset, 0);
    CHECK(counters[0].value, UINT64_C(0xabababababababab));
    CHECK(dewikura_read_file_counters(input, size, &cursor, counters, 2, &count), DEWIKURA_OK);
    CHECK(count, 2);
    CHECK(cursor.offset, 88);
    check_counter(counters, 0xb01, 0);
    check_counter(counters + 1, 0xb04, 0);
    CHECK(counters[2].value, UINT64_C(0xabababababababab));
    CHECK(dewikura_read_file_counters(input, size, &cursor, counters, 4, &count), DEWIKURA_OK);
    CHECK(count, 1);
    check_counter(counters, 0xc01, 88);
    CHECK(dewikura_read_file_counters(input, size, &cursor, counters, 4, &count), DEWIKURA_OK);
    CHECK(count, 0);
    CHECK(dewikura_read_file_counters(NONE, 0, FIRST, NONE, 0, IGNORED(0)), DEWIKURA_TRUNCATED);
    CHECK(dewikura_read_pipe_counters(NONE, 0, NONE, 0, IGNORED(0)), DEWIKURA_TRUNCATED);
}

// The body of a sample with all parts.
static void check_details(void)
{
    struct dewikura_sample_details details;
    struct dewikura_attr attr;
    uint64_t i;
    memset(&attr, 0, sizeof attr);
    attr.sample_type = DEWIKURA_SAMPLE_STREAM_ID | DEWIKURA_SAMPLE_RAW | DEWIKURA_SAMPLE_BRANCH_STACK | DEWIKURA_SAMPLE_REGS_USER
        | DEWIKURA_SAMPLE_STACK_USER | DEWIKURA_SAMPLE_WEIGHT | DEWIKURA_SAMPLE_DATA_SRC | DEWIKURA_SAMPLE_TRANSACTION | DEWIKURA_SAMPLE_REGS_INTR
        | DEWIKURA_SAMPLE_PHYS_ADDR | DEWIKURA_SAMPLE_CGROUP | DEWIKURA_SAMPLE_DATA_PAGE_SIZE | DEWIKURA_SAMPLE_CODE_PAGE_SIZE | DEWIKURA_SAMPLE_AUX;
    attr.branch_sample_type = UINT64_C(1) << 17; // PERF_SAMPLE_BRANCH_HW_INDEX
    attr.sample_regs_user = 5;
    attr.sample_regs_intr = 7;
    size = 0;
    put(0x801, 8);
    put(12, 4);
    put_text("raw data..", 12);
    put(2, 8); // two branches
    put(0x802, 8);
    for (i = 0; i < 6; i++) put(0xa00 + i, 8);
    put(2, 8); // two registers of 64 bits
    put(0xb00, 8);
    put(0xb01, 8);
    put(16, 8);
    put_text("the user stack", 16);
    put(9, 8);
    for (i = 0x803; i < 0x806; i++) put(i, 8);
    put(1, 8);
    for (i = 0; i < 3; i++) put(0xc00 + i, 8);
    for (i = 0x806; i < 0x80a; i++) put(i, 8);
    put(5, 8);
    put_text("aux..", 5);
    memset(&details, 0xab, sizeof details);
    CHECK(dewikura_read_sample_details(input, size - 1, 0, &attr, &details), DEWIKURA_TRUNCATED);
    CHECK(details.weight, UINT64_C(0xabababababababab));
    CHECK(dewikura_read_sample_details(input, size, 0, &attr, &details), DEWIKURA_OK);
    CHECK(details.stream_id, 0x801);
    CHECK(details.weight, 0x803);
    CHECK(details.data_source, 0x804);
    CHECK(details.transaction, 0x805);
    CHECK(details.physical_address, 0x806);
    CHECK(details.cgroup, 0x807);
    CHECK(details.data_page_size, 0x808);
    CHECK(details.code_page_size, 0x809);
    CHECK(details.raw_offset, 12);
    CHECK(details.raw_size, 12);
    CHECK(details.branches_offset, 40);
    CHECK(details.branches_count, 2);
    CHECK(details.branches_hw_index, 0x802);
    CHECK(details.user_abi, 2);
    CHECK(details.user_registers_offset, 96);
    CHECK(details.user_registers_count, 2);
    CHECK(details.user_stack_offset, 120);
    CHECK(details.user_stack_size, 16);
    CHECK(details.user_stack_dynamic_size, 9);
    CHECK(details.interrupt_abi, 1);
    CHECK(details.interrupt_registers_offset, 176);
    CHECK(details.interrupt_registers_count, 3);
    CHECK(details.aux_offset, 240);
    CHECK(details.aux_size, 5);
    attr.sample_type |= UINT64_C(1) << 63;
    CHECK(dewikura_read_sample_details(input, size, 0, &attr, &details), DEWIKURA_OTHER);
    attr.sample_type = 0;
    CHECK(dewikura_read_sample_details(NONE, 0, 0, &attr, &details), DEWIKURA_OK);
    for (i = 0; i < sizeof details; i++)
        CHECK(((const uint8_t *)&details)[i], 0);
}

static void check_build_id(void)
{
    struct dewikura_build_id entry;
    size_t i;
    size = 0;
    put(0, 16);
    put_header(0, 2, 36 + 24); // the mode: user
    put(77, 4);
    put_text("0123456789abcdefghij", 20);
    put(0, 4);
    put_text("/usr/bin/true", 24);
    CHECK(dewikura_read_build_id(input, size, 0, 16, &entry), DEWIKURA_OK);
    CHECK(entry.id_offset, 16 + 12);
    CHECK(entry.id_size, 20);
    CHECK(entry.path_offset, 16 + 36);
    CHECK(entry.path_size, 13);
    CHECK(entry.next_offset, 16 + 60);
    CHECK(entry.pid, 77);
    CHECK(entry.dso_kind, DEWIKURA_DSO_USER);
    CHECK(entry.misc, DEWIKURA_MODE_USER);
    for (i = 0; i < sizeof entry.reserved; i++)
        CHECK(entry.reserved[i], 0);
    CHECK(dewikura_read_build_id(input, size, 0, entry.next_offset, &entry), DEWIKURA_TRUNCATED);
}

// Paths, the misc bits of a record, and what they name.
static void check_dso_kinds(void)
{
    static const struct {
        const char *path;
        uint16_t misc;
        uint32_t kind;
    } cases[] = {
        {"//anon", DEWIKURA_MODE_USER, DEWIKURA_DSO_NONE},
        {"/usr/bin/true", DEWIKURA_MODE_USER, DEWIKURA_DSO_USER},
        {"/usr/bin/true", 0x2000 | DEWIKURA_MODE_GUEST_USER, DEWIKURA_DSO_USER},
        {"/usr/bin/true", DEWIKURA_MODE_UNKNOWN, DEWIKURA_DSO_NONE},
        {"[kernel.kallsyms]_text", DEWIKURA_MODE_KERNEL, DEWIKURA_DSO_KERNEL},
        {"[kernel.kallsyms]", DEWIKURA_MODE_GUEST_KERNEL, DEWIKURA_DSO_GUEST_KERNEL},
        {"[guest.kernel.kallsyms.9]", DEWIKURA_MODE_USER, DEWIKURA_DSO_GUEST_KERNEL},
        {"/lib/modules/ext4.ko", DEWIKURA_MODE_KERNEL, DEWIKURA_DSO_KERNEL_MODULE},
        {"/boot/vmlinuz", DEWIKURA_MODE_KERNEL, DEWIKURA_DSO_KERNEL},
        {"[vdso]", DEWIKURA_MODE_USER, DEWIKURA_DSO_VDSO64},
        {"[vdso32]", DEWIKURA_MODE_USER, DEWIKURA_DSO_VDSO32},
        {"[vdsox32]", DEWIKURA_MODE_USER, DEWIKURA_DSO_VDSOX32},
        {"[vsyscall]", DEWIKURA_MODE_USER, DEWIKURA_DSO_VSYSCALL},
        {"", DEWIKURA_MODE_USER, DEWIKURA_DSO_USER},
    };
    size_t i;
    for (i = 0; i < sizeof cases / sizeof *cases; i++) {
        uint32_t kind = 0xabababab;
        CHECK(dewikura_dso_kind(cases[i].path, strlen(cases[i].path), cases[i].misc, &kind), DEWIKURA_OK);
        CHECK(kind, cases[i].kind);
    }
}

// A sample and a record with sample_id fields: who wrote them. Their first words, and the last ones, have different numbers.
static void check_common(void)
{
    static const uint64_t words = DEWIKURA_SAMPLE_IDENTIFIER | DEWIKURA_SAMPLE_IP | DEWIKURA_SAMPLE_TID | DEWIKURA_SAMPLE_TIME | DEWIKURA_SAMPLE_ADDR
                                  | DEWIKURA_SAMPLE_ID | DEWIKURA_SAMPLE_STREAM_ID | DEWIKURA_SAMPLE_CPU;
    struct dewikura_attr attr;
    struct dewikura_record record;
    struct dewikura_common common;
    int is_sample;
    memset(&attr, 0, sizeof attr);
    memset(&record, 0, sizeof record);
    for (is_sample = 0; is_sample < 2; is_sample++) {
        attr.sample_type = words;
        attr.flags = is_sample ? 0 : DEWIKURA_ATTR_SAMPLE_ID_ALL;
        record.type = is_sample ? DEWIKURA_RECORD_SAMPLE : DEWIKURA_RECORD_LOST_SAMPLES;
        record.body_offset = 8;
        size = 0;
        put(0, 8);
        put(is_sample ? 0x801 : 7, 8); // the identifier, or the number of lost samples
        if (is_sample)
            put(0x802, 8); // ip
        put((uint32_t)-3, 4);
        put(0x804, 4);
        put(0x805, 8);
        if (is_sample)
            put(0x806, 8); // address
        put(0x807, 8);
        put(0x808, 8);
        put(0x809, 4);
        put(0, 4);
        if (!is_sample)
            put(0x801, 8);
        record.body_size = size - 8;
        memset(&common, 0xab, sizeof common);
        CHECK(dewikura_read_common(input, size, 0, &attr, 1, &record, &common), DEWIKURA_OK);
        CHECK(common.timestamp, 0x805);
        CHECK(common.id, 0x801);
        CHECK(common.stream_id, 0x808);
        CHECK(common.fields, words & ~(DEWIKURA_SAMPLE_IP | DEWIKURA_SAMPLE_ADDR));
        CHECK(common.cpu, 0x809);
        CHECK(common.pid, -3);
        CHECK(common.tid, 0x804);
        attr.sample_type &= ~DEWIKURA_SAMPLE_IDENTIFIER;
        if (is_sample)
            record.body_offset += 8;
        record.body_size -= 8;
        CHECK(dewikura_read_common(input, size, 0, &attr, 1, &record, &common), DEWIKURA_OK);
        CHECK(common.id, 0x807);
        record.body_size = 31;
        memset(&common, 0xab, sizeof common);
        CHECK(dewikura_read_common(input, size, 0, &attr, 1, &record, &common), DEWIKURA_TRUNCATED);
        CHECK(common.cpu, 0xabababab);
        CHECK(dewikura_read_common(input, size, 0, &attr, 0, &record, &common), DEWIKURA_NO_ATTRIBUTES);
        CHECK(dewikura_read_common(input, 38, 0, &attr, 1, &record, &common), DEWIKURA_TRUNCATED_RECORD);
        CHECK(common.cpu, 0xabababab);
    }
    // Without sample_id fields, and a record that a tool wrote.
    record.type = DEWIKURA_RECORD_LOST_SAMPLES;
    CHECK(dewikura_read_common(input, size, 0, &attr, 1, &record, &common), DEWIKURA_OK);
    CHECK(common.fields | common.cpu | common.timestamp | common.id | common.stream_id, 0);
    attr.flags = DEWIKURA_ATTR_SAMPLE_ID_ALL;
    record.type = DEWIKURA_RECORD_HEADER_ATTR;
    CHECK(dewikura_read_common(input, size, 0, &attr, 1, &record, &common), DEWIKURA_OK);
    CHECK(common.fields | common.cpu | common.timestamp | common.id | common.stream_id, 0);
}

// Records that can't be parsed, and the status of each.
static void check_event_errors(void)
{
    static const struct {
        uint32_t type;
        uint16_t misc;
        unsigned body_size;
        uint8_t fill;
        dewikura_status status;
    } cases[] = {
        {DEWIKURA_RECORD_COMM, 0, 7, 0, DEWIKURA_TRUNCATED},
        {DEWIKURA_RECORD_COMM, 0, 16, 'x', DEWIKURA_INVALID_DATA}, // no NUL
        {DEWIKURA_RECORD_FORK, 0, 23, 0, DEWIKURA_TRUNCATED},
        {DEWIKURA_RECORD_EXIT, 0, 24, 0, DEWIKURA_OK},
        {DEWIKURA_RECORD_MMAP, 0, 31, 0, DEWIKURA_TRUNCATED},
        {DEWIKURA_RECORD_MMAP2, 0x4000, 80, 21, DEWIKURA_INVALID_DATA}, // a build id of 21 bytes
        {DEWIKURA_RECORD_READ, 0, 15, 0, DEWIKURA_TRUNCATED},
        {DEWIKURA_RECORD_READ, 0, 16, 0, DEWIKURA_OK},
        {DEWIKURA_RECORD_HEADER_ATTR, 0, 3, 0, DEWIKURA_OK},
        {63, 0, 3, 0, DEWIKURA_OK},
    };
    struct dewikura_attr attr;
    struct dewikura_record record;
    struct dewikura_sample sample;
    struct dewikura_task task;
    struct dewikura_mapping mapping;
    struct dewikura_counter counter;
    size_t i;
    memset(&attr, 0, sizeof attr);
    for (i = 0; i < sizeof cases / sizeof *cases; i++) {
        uint64_t frames_count = 7, counters_count = 7;
        memset(&record, 0, sizeof record);
        record.type = cases[i].type;
        record.misc = cases[i].misc;
        record.body_size = cases[i].body_size;
        memset(input, cases[i].fill, cases[i].body_size);
        memset(&task, 0xab, sizeof task);
        memset(&mapping, 0xab, sizeof mapping);
        CHECK(dewikura_read_event(input, cases[i].body_size, 0, &attr, 1, &record, &sample, NONE, 0, &frames_count, &task, &mapping, &counter, 1,
                  &counters_count),
            cases[i].status);
        CHECK(frames_count, 0);
        CHECK(counters_count, cases[i].type == DEWIKURA_RECORD_READ && cases[i].status == DEWIKURA_OK);
        CHECK(task.type, cases[i].type == DEWIKURA_RECORD_EXIT ? DEWIKURA_RECORD_EXIT : 0xabababab);
        CHECK(mapping.type, 0xabababab);
    }
}

// The sections that are numbers alone: how many bytes each number has.
static void check_numbers(void)
{
    static const struct {
        uint32_t feature;
        uint8_t sizes[6];
    } cases[] = {
        {DEWIKURA_FEATURE_NRCPUS, {4, 4}},
        {DEWIKURA_FEATURE_TOTAL_MEM, {8}},
        {DEWIKURA_FEATURE_SAMPLE_TIME, {8, 8}},
        {DEWIKURA_FEATURE_CLOCKID, {8}},
        {DEWIKURA_FEATURE_DIR_FORMAT, {8}},
        {DEWIKURA_FEATURE_COMPRESSED, {4, 4, 4, 4, 4}},
        {DEWIKURA_FEATURE_CLOCK_DATA, {4, 4, 8, 8}},
        {DEWIKURA_FEATURE_HOSTNAME, {0}},
        {DEWIKURA_FEATURE_SIMPLEPERF_FILE2, {0}},
        {UINT32_MAX, {0}},
    };
    uint64_t numbers[6], total;
    size_t i, count, capacity, n;
    for (i = 0; i < sizeof cases / sizeof *cases; i++) {
        size = 0;
        for (count = 0; cases[i].sizes[count]; count++)
            put(0xfedcba00 + count, cases[i].sizes[count]);
        for (capacity = 0; capacity <= 6; capacity++) {
            memset(numbers, 0xab, sizeof numbers);
            total = 7;
            CHECK(dewikura_read_numbers(input, size, cases[i].feature, 0, numbers, capacity, &total), DEWIKURA_OK);
            CHECK(total, count);
            for (n = 0; n < 6; n++)
                CHECK(numbers[n], n < count && n < capacity ? 0xfedcba00 + n : UINT64_C(0xabababababababab));
        }
        for (n = 0; n < size; n++) {
            total = 7;
            CHECK(dewikura_read_numbers(input, n, cases[i].feature, 0, numbers, 6, &total), DEWIKURA_TRUNCATED);
            CHECK(total, 0);
        }
    }
    size = 0;
    put(0x01020304, 4);
    put(0x05060708, 4);
    CHECK(dewikura_read_numbers(input, size, DEWIKURA_FEATURE_NRCPUS, 1, numbers, 2, &total), DEWIKURA_OK);
    CHECK(numbers[0], 0x04030201);
    CHECK(numbers[1], 0x08070605);
}

// The numbers of errors: an input without the magic, an attribute that is larger than its entry, two attributes that aren't consistent, and a record with a
// size below 8 after another record.
static void check_errors(void)
{
    struct dewikura_error error;
    size_t i, case_number;
    memset(&error, 0xab, sizeof error);
    for (i = 0; i < 104; i++)
        input[i] = (uint8_t)(i + 1);
    CHECK(dewikura_read_error(input, 104, &error), DEWIKURA_BAD_MAGIC);
    CHECK(error.status, DEWIKURA_BAD_MAGIC);
    CHECK(error.has_offset | error.offset | error.attr_size | error.entry_size | error.attr_index, 0);
    for (i = 0; i < 8; i++)
        CHECK(error.magic[i], i + 1);
    for (case_number = 0; case_number < 4; case_number++) {
        static const dewikura_status wanted[] = {DEWIKURA_ATTRIBUTE_TOO_LARGE, DEWIKURA_MISSING_IDENTIFIER, DEWIKURA_SAMPLE_ID_ALL_MISMATCH,
            DEWIKURA_BAD_RECORD_SIZE};
        size = 0;
        put_text("PERFILE2", 8);
        put(104, 8);
        put(152, 8); // size of an entry: an attribute and its ids' section
        put(104, 8); // of attributes
        put(2 * 152, 8);
        put(408, 8); // of the records
        put(24, 8);
        put(0, 8 + 8 + 32);
        for (i = 0; i < 2; i++) {
            put_attr(1, DEWIKURA_SAMPLE_IDENTIFIER);
            put(0, 16);
        }
        if (case_number == 0)
            put_at(104 + 152 + 4, 153, 4); // own size of the second attribute
        if (case_number == 1)
            put_at(104 + 152 + 24, 0, 8); // its sample type
        if (case_number == 2)
            put_at(104 + 152 + 40, 0, 8); // its flags
        put_header(DEWIKURA_RECORD_SAMPLE, 0, 16);
        put(1, 8);
        put_header(DEWIKURA_RECORD_SAMPLE, 0, 7);
        CHECK(dewikura_read_error(input, size, &error), wanted[case_number]);
        CHECK(error.status, wanted[case_number]);
        CHECK(error.attr_size, case_number == 0 ? 153 : 0);
        CHECK(error.entry_size, case_number == 0 ? 152 : 0);
        CHECK(error.attr_index, case_number == 1 || case_number == 2);
        CHECK(error.has_offset, case_number == 3);
        CHECK(error.offset, case_number == 3 ? 16 : 0);
        for (i = 0; i < 8; i++)
            CHECK(error.magic[i], 0);
    }
    put_at(408 + 16 + 6, 8, 2);
    CHECK(dewikura_read_error(input, size, &error), DEWIKURA_OK);
    CHECK(error.status | error.has_offset | error.offset, 0);
}

static void check_pmu(void)
{
    struct dewikura_pmu pmu;
    size_t n;
    size = 0;
    put(2, 4);
    put(9, 4);
    put(8, 4);
    put_text("cpu", 8);
    put(0x801, 4);
    put(8, 4);
    put_text("software", 8); // without a NUL
    CHECK(dewikura_read_pmu(input, size, 0, 4, &pmu), DEWIKURA_OK);
    CHECK(pmu.name_offset, 12);
    CHECK(pmu.name_size, 3);
    CHECK(pmu.next_offset, 20);
    CHECK(pmu.event_type, 9);
    CHECK(pmu.reserved, 0);
    CHECK(dewikura_read_pmu(input, size, 0, pmu.next_offset, &pmu), DEWIKURA_OK);
    CHECK(pmu.name_offset, 28);
    CHECK(pmu.name_size, 8);
    CHECK(pmu.next_offset, size);
    CHECK(pmu.event_type, 0x801);
    for (n = 20; n < size; n++)
        CHECK(dewikura_read_pmu(input, n, 0, 20, &pmu), DEWIKURA_TRUNCATED);
    CHECK(dewikura_read_pmu(input, size, 0, size, &pmu), DEWIKURA_TRUNCATED);
    CHECK(dewikura_read_pmu(input, size, 0, UINT64_MAX, &pmu), DEWIKURA_TRUNCATED);
    CHECK(dewikura_read_pmu(input, size, 1, 4, &pmu), DEWIKURA_TRUNCATED);
    CHECK(dewikura_read_pmu(NONE, 0, 0, 0, &pmu), DEWIKURA_TRUNCATED);
    CHECK(pmu.event_type, 0x801);
}

static void check_string(void)
{
    struct dewikura_string string;
    size = 0;
    put(1, 4);
    put(8, 4);
    put_text("record", 8);
    CHECK(dewikura_read_string(input, size, 0, 4, &string), DEWIKURA_OK);
    CHECK(string.text_offset, 8);
    CHECK(string.text_size, 6);
    CHECK(string.next_offset, 16);
    CHECK(dewikura_read_string(input, size - 1, 0, 4, &string), DEWIKURA_TRUNCATED);
    CHECK(dewikura_read_string(NONE, 0, 0, 0, &string), DEWIKURA_TRUNCATED);
}

static void check_meta_info(void)
{
    struct dewikura_meta_pair pairs[3];
    uint64_t total = 0;
    size = 0;
    put_text("first", 6);
    put_text("one", 4);
    put_text("second", 7);
    put_text("", 1);
    put_text("no value", 8);
    memset(pairs, 0xab, sizeof pairs);
    CHECK(dewikura_read_meta_info(input, size, pairs, 3, &total), DEWIKURA_OK);
    CHECK(total, 2);
    CHECK(pairs[0].key_offset, 0);
    CHECK(pairs[0].key_size, 5);
    CHECK(pairs[0].value_offset, 6);
    CHECK(pairs[0].value_size, 3);
    CHECK(pairs[1].key_offset, 10);
    CHECK(pairs[1].key_size, 6);
    CHECK(pairs[1].value_offset, 17);
    CHECK(pairs[1].value_size, 0);
    CHECK(pairs[2].key_offset, UINT64_C(0xabababababababab));
    CHECK(dewikura_read_meta_info(input, 14, pairs, 0, &total), DEWIKURA_OK);
    CHECK(total, 1);
    input[18] = 0xff;
    input[19] = 0;
    CHECK(dewikura_read_meta_info(input, size, pairs, 1, &total), DEWIKURA_INVALID_UTF8);
    CHECK(total, 2);
}

// A symbol of the section SIMPLEPERF_FILE.
static void put_symbol(uint64_t vaddr, uint32_t length, const char *name)
{
    put(vaddr, 8);
    put(length, 4);
    put_text(name, strlen(name) + 1);
}

// The files of both sections: a DEX file with two symbols and two offsets, an ELF file with one symbol, and a kernel module without one.
static void check_files(uint32_t feature)
{
    struct dewikura_symbol_file files[4];
    struct dewikura_symbol symbols[4];
    struct dewikura_symbol_totals totals = {0, 0, 0, 0};
    char names[64] = {0};
    uint64_t offsets[3] = {0, 0, 3};
    memset(files, 0xab, sizeof files);
    memset(symbols, 0xab, sizeof symbols);
    CHECK(dewikura_read_symbol_tables(input, size, feature, 0, NONE, 0, NONE, 0, NONE, 0, NONE, 0, &totals), DEWIKURA_OK);
    CHECK(totals.file_count, 3);
    CHECK(totals.symbol_count, 3);
    CHECK(totals.names_size, 33);
    CHECK(totals.dex_offset_count, 2);
    CHECK(dewikura_read_symbol_tables(input, size, feature, 0, files, 4, symbols, 4, names, sizeof names, offsets, 3, IGNORED(0)), DEWIKURA_OK);
    CHECK(strcmp(names, "/a.vdexfirstsecond/lib/c.somain/d"), 0);
    CHECK(offsets[0], 0x301);
    CHECK(offsets[1], 0x302);
    CHECK(offsets[2], 3);
    CHECK(files[0].path_offset, 0);
    CHECK(files[0].path_size, 7);
    CHECK(files[0].min_vaddr, 0x102);
    CHECK(files[0].symbols_start, 0);
    CHECK(files[0].symbols_count, 2);
    CHECK(files[0].min_vaddr_offset, 0);
    CHECK(files[0].dex_offsets_start, 0);
    CHECK(files[0].dex_offsets_count, 2);
    CHECK(files[0].type, DEWIKURA_SYMBOL_FILE_DEX);
    CHECK(files[0].info_type, DEWIKURA_SYMBOL_FILE_DEX);
    CHECK(files[1].path_offset, 18);
    CHECK(files[1].path_size, 9);
    CHECK(files[1].min_vaddr, 0x103);
    CHECK(files[1].symbols_start, 2);
    CHECK(files[1].symbols_count, 1);
    CHECK(files[1].min_vaddr_offset, 0x303);
    CHECK(files[1].dex_offsets_start, 2);
    CHECK(files[1].dex_offsets_count, 0);
    CHECK(files[1].type, DEWIKURA_SYMBOL_FILE_ELF);
    CHECK(files[1].info_type, DEWIKURA_SYMBOL_FILE_ELF);
    CHECK(files[2].path_offset, 31);
    CHECK(files[2].path_size, 2);
    CHECK(files[2].symbols_start, 3);
    CHECK(files[2].symbols_count, 0);
    CHECK(files[2].min_vaddr_offset, 0x304);
    CHECK(files[2].type, DEWIKURA_SYMBOL_FILE_KERNEL_MODULE);
    CHECK(files[2].info_type, DEWIKURA_SYMBOL_FILE_KERNEL_MODULE);
    CHECK(files[3].type, 0xabababab);
    CHECK(symbols[0].vaddr, 0x201);
    CHECK(symbols[0].size, 0x11);
    CHECK(symbols[0].name_offset, 7);
    CHECK(symbols[0].name_size, 5);
    CHECK(symbols[1].vaddr, 0x202);
    CHECK(symbols[1].size, 0x12);
    CHECK(symbols[1].name_offset, 12);
    CHECK(symbols[1].name_size, 6);
    CHECK(symbols[2].vaddr, 0x203);
    CHECK(symbols[2].size, 0x13);
    CHECK(symbols[2].name_offset, 27);
    CHECK(symbols[2].name_size, 4);
    CHECK(symbols[3].vaddr, UINT64_C(0xabababababababab));
    memset(names, 'x', sizeof names);
    CHECK(dewikura_read_symbol_tables(input, size - 1, feature, 0, files, 4, symbols, 4, names, 64, offsets, 3, &totals), DEWIKURA_TRUNCATED);
    CHECK(totals.file_count | totals.symbol_count | totals.names_size | totals.dex_offset_count, 0);
    CHECK(names[0], 'x');
    CHECK(dewikura_read_symbol_tables(input, size, feature, 0, files, 1, symbols, 1, names, 9, offsets, 1, &totals), DEWIKURA_OK);
    CHECK(memcmp(names, "/a.vdexfixxx", 12), 0);
}

static void check_file_section(void)
{
    size_t start;
    size = 0;
    put(7 + 1 + 4 + 8 + 4 + 18 + 19 + 4 + 16, 4);
    start = size;
    put_text("/a.vdex", 8);
    put(DEWIKURA_SYMBOL_FILE_DEX, 4);
    put(0x102, 8);
    put(2, 4);
    put_symbol(0x201, 0x11, "first");
    put_symbol(0x202, 0x12, "second");
    put(2, 4);
    put(0x301, 8);
    put(0x302, 8);
    CHECK(size - start, input[0]);
    put(9 + 1 + 4 + 8 + 4 + 17 + 8, 4);
    put_text("/lib/c.so", 10);
    put(DEWIKURA_SYMBOL_FILE_ELF, 4);
    put(0x103, 8);
    put(1, 4);
    put_symbol(0x203, 0x13, "main");
    put(0x303, 8);
    put(2 + 1 + 4 + 8 + 4 + 8, 4);
    put_text("/d", 3);
    put(DEWIKURA_SYMBOL_FILE_KERNEL_MODULE, 4);
    put(0, 8);
    put(0, 4);
    put(0x304, 8);
    check_files(DEWIKURA_FEATURE_SIMPLEPERF_FILE);
    input[start + 8] = 6; // a type that no file has
    CHECK(dewikura_read_symbol_tables(input, size, DEWIKURA_FEATURE_SIMPLEPERF_FILE, 0, NONE, 0, NONE, 0, NONE, 0, NONE, 0, IGNORED(0)), DEWIKURA_BAD_SYMBOL_TABLE);
}

// The fields of a protobuf message: a number, and bytes.
static void put_number_field(unsigned field, uint64_t number)
{
    put(field << 3, 1);
    for (; number >= 128; number >>= 7) put(number % 128 + 128, 1);
    put(number, 1);
}

static void put_bytes_field(unsigned field, const char *text, size_t bytes)
{
    put(field << 3 | 2, 1);
    put(bytes, 1);
    put_text(text, bytes);
}

// A symbol of the section SIMPLEPERF_FILE2.
static void put_symbol_field(uint64_t vaddr, uint32_t length, const char *name)
{
    put_bytes_field(4, "", 5 + 2 + strlen(name));
    size -= 5 + 2 + strlen(name);
    put_number_field(1, vaddr);
    put_number_field(2, length);
    put_bytes_field(3, name, strlen(name));
}

static void put_chunk_size(size_t start)
{
    put_at(start, size - start - 4, 4);
}

static void check_file2_section(void)
{
    size_t start = 0;
    size = 4;
    put_bytes_field(1, "/a.vdex", 7);
    put_number_field(2, DEWIKURA_SYMBOL_FILE_DEX);
    put_number_field(3, 0x102);
    put_symbol_field(0x201, 0x11, "first");
    put_symbol_field(0x202, 0x12, "second");
    put_bytes_field(5, "\12\4\x81\6\x82\6", 6);
    put_chunk_size(start);
    start = size;
    size += 4;
    put_bytes_field(1, "/lib/c.so", 9);
    put_number_field(2, DEWIKURA_SYMBOL_FILE_ELF);
    put_number_field(3, 0x103);
    put_symbol_field(0x203, 0x13, "main");
    put_bytes_field(6, "\10\x83\6", 3);
    put_chunk_size(start);
    start = size;
    size += 4;
    put_bytes_field(1, "/d", 2);
    put_number_field(2, DEWIKURA_SYMBOL_FILE_KERNEL_MODULE);
    put_bytes_field(7, "\10\x84\6", 3);
    put_chunk_size(start);
    check_files(DEWIKURA_FEATURE_SIMPLEPERF_FILE2);
    input[4] = 8; // the path as a number
    CHECK(dewikura_read_symbol_tables(input, size, DEWIKURA_FEATURE_SIMPLEPERF_FILE2, 0, NONE, 0, NONE, 0, NONE, 0, NONE, 0, IGNORED(0)), DEWIKURA_BAD_SYMBOL_TABLE);
}

static void check_jitdump(void)
{
    struct dewikura_jit_header header;
    struct dewikura_jit_record record;
    struct dewikura_jit_load load;
    struct dewikura_jit_move move;
    struct dewikura_jit_unwinding unwinding;
    struct dewikura_jit_debug_entry entries[3];
    uint64_t count = 0, next_offset = 0, code_address = 0;
    size = 0;
    put_text("DTiJ", 4);
    put(1, 4);      // version
    put(48, 4);     // size
    put(62, 4);     // machine
    put(0, 4);
    put(0x701, 4);  // pid
    put(0x702, 8);  // timestamp
    put(0x703, 8);  // flags
    put(0, 8);
    put(DEWIKURA_JIT_CODE_CLOSE, 4);
    put(16, 4);
    put(0x801, 8);
    put(DEWIKURA_JIT_CODE_LOAD, 4);
    put(16 + 40 + 5 + 9, 4);
    put(0x802, 8);
    put(0x901, 4);  // pid
    put(0x902, 4);  // tid
    put(0x903, 8);  // vma
    put(0x904, 8);  // address
    put(9, 8);      // code size
    put(0x905, 8);  // index
    put_text("name", 5);
    put_text("\1\2\3\4\5\6\7\10\11", 9);
    put(DEWIKURA_JIT_CODE_MOVE, 4);
    put(16 + 48, 4);
    put(0x803, 8);
    put(0xa01, 4);  // pid
    put(0xa02, 4);  // tid
    put(0xa03, 8);  // vma
    put(0xa04, 8);  // old address
    put(0xa05, 8);  // new address
    put(0xa06, 8);  // code size
    put(0xa07, 8);  // index
    put(DEWIKURA_JIT_CODE_UNWINDING_INFO, 4);
    put(16 + 24 + 11, 4);
    put(0x804, 8);
    put(11, 8);     // data size
    put(4, 8);      // index size
    put(0xb01, 8);  // mapped size
    put_text("hdr.frames.", 11);
    put(DEWIKURA_JIT_CODE_DEBUG_INFO, 4);
    put(16 + 16 + 16 + 7 + 16 + 4, 4);
    put(0x805, 8);
    put(0xc01, 8);  // code address
    put(2, 8);      // entries
    put(0xc02, 8);  // address
    put(0xc03, 4);  // line
    put(0xc04, 4);  // column
    put_text("main.c", 7);
    put(0xc05, 8);
    put(0xc06, 4);
    put(0, 4);
    put_text("b.c", 4);
    CHECK(dewikura_read_jit_header(input, size, &header), DEWIKURA_OK);
    CHECK(header.timestamp, 0x702);
    CHECK(header.flags, 0x703);
    CHECK(header.version, 1);
    CHECK(header.size, 48);
    CHECK(header.elf_machine, 62);
    CHECK(header.pid, 0x701);
    CHECK(header.is_big_endian, 0);
    CHECK(header.reserved, 0);
    CHECK(dewikura_read_jit_records(input, size, 0, &record, 1, &count, &next_offset), DEWIKURA_OK);
    CHECK(count, 1);
    CHECK(next_offset, 64);
    CHECK(record.offset, 48);
    CHECK(record.timestamp, 0x801);
    CHECK(record.type, DEWIKURA_JIT_CODE_CLOSE);
    CHECK(record.size, 16);
    CHECK(dewikura_read_jit_load(input, size, record.offset, &load), DEWIKURA_JIT_WRONG_TYPE);
    CHECK(dewikura_read_jit_load(input, size, next_offset, &load), DEWIKURA_OK);
    CHECK(load.vma, 0x903);
    CHECK(load.code_address, 0x904);
    CHECK(load.code_index, 0x905);
    CHECK(load.name_offset, 64 + 56);
    CHECK(load.name_size, 4);
    CHECK(load.code_offset, 64 + 61);
    CHECK(load.code_size, 9);
    CHECK(load.pid, 0x901);
    CHECK(load.tid, 0x902);
    CHECK(dewikura_read_jit_move(input, size, next_offset, &move), DEWIKURA_JIT_WRONG_TYPE);
    CHECK(dewikura_read_jit_move(input, size, 64 + 70, &move), DEWIKURA_OK);
    CHECK(move.pid, 0xa01);
    CHECK(move.tid, 0xa02);
    CHECK(move.vma, 0xa03);
    CHECK(move.old_code_address, 0xa04);
    CHECK(move.new_code_address, 0xa05);
    CHECK(move.code_size, 0xa06);
    CHECK(move.code_index, 0xa07);
    CHECK(dewikura_read_jit_unwinding(input, size, 64 + 70 + 64, &unwinding), DEWIKURA_OK);
    CHECK(unwinding.mapped_size, 0xb01);
    CHECK(unwinding.eh_frame_hdr_offset, 64 + 70 + 64 + 40);
    CHECK(unwinding.eh_frame_hdr_size, 4);
    CHECK(unwinding.eh_frame_offset, 64 + 70 + 64 + 44);
    CHECK(unwinding.eh_frame_size, 7);
    CHECK(dewikura_read_jit_unwinding(input, size, size, &unwinding), DEWIKURA_TRUNCATED);
    next_offset = 64 + 70 + 64 + 51;
    memset(entries, 0xab, sizeof entries);
    CHECK(dewikura_read_jit_debug_info(input, size, next_offset, &code_address, entries, 3, &count), DEWIKURA_OK);
    CHECK(code_address, 0xc01);
    CHECK(count, 2);
    CHECK(entries[0].code_address, 0xc02);
    CHECK(entries[0].path_offset, next_offset + 48);
    CHECK(entries[0].path_size, 6);
    CHECK(entries[0].line, 0xc03);
    CHECK(entries[0].column, 0xc04);
    CHECK(entries[1].code_address, 0xc05);
    CHECK(entries[1].path_offset, next_offset + 48 + 7 + 16);
    CHECK(entries[1].path_size, 3);
    CHECK(entries[1].line, 0xc06);
    CHECK(entries[1].column, 0);
    CHECK(entries[2].line, 0xabababab);
    CHECK(dewikura_read_jit_debug_info(input, size, next_offset, IGNORED(0), NONE, 0, IGNORED(1)), DEWIKURA_OK);
    CHECK(dewikura_read_jit_debug_info(input, size, 64, &code_address, entries, 3, &count), DEWIKURA_JIT_WRONG_TYPE);
    CHECK(code_address | count, 0);
    input[next_offset + 24] = 3; // one entry more than the record contains
    CHECK(dewikura_read_jit_debug_info(input, size, next_offset, IGNORED(0), NONE, 0, IGNORED(1)), DEWIKURA_JIT_BAD_BODY);
}

// An input with the magic of perf and a header of this size, in both byte orders.
static void check_kind_of_size(uint64_t header_size, uint32_t kind)
{
    unsigned i;
    size = 0;
    put_text("PERFILE2", 8);
    put(header_size, 8);
    CHECK(dewikura_input_kind(input, size), kind);
    CHECK(dewikura_input_kind(input, size + 100), kind);
    for (i = 0; i < size; i++)
        CHECK(dewikura_input_kind(input, i), DEWIKURA_KIND_NONE);
    size = 0;
    put_text("2ELIFREP", 8);
    for (i = 8; i--;)
        put(header_size >> 8 * i, 1);
    CHECK(dewikura_input_kind(input, size), kind);
    input[7]++;
    CHECK(dewikura_input_kind(input, size), DEWIKURA_KIND_NONE);
}

static void check_kinds(void)
{
    check_kind_of_size(0, DEWIKURA_KIND_PIPE);
    check_kind_of_size(16, DEWIKURA_KIND_PIPE);
    check_kind_of_size(24, DEWIKURA_KIND_PIPE);
    check_kind_of_size(103, DEWIKURA_KIND_PIPE);
    check_kind_of_size(104, DEWIKURA_KIND_FILE);
    check_kind_of_size(UINT64_MAX, DEWIKURA_KIND_FILE);
    CHECK(dewikura_input_kind("DTiJ", 4), DEWIKURA_KIND_JITDUMP);
    CHECK(dewikura_input_kind("JiTD rest", 9), DEWIKURA_KIND_JITDUMP);
    CHECK(dewikura_input_kind("DTiJ", 3), DEWIKURA_KIND_NONE);
    CHECK(dewikura_input_kind("DTij", 4), DEWIKURA_KIND_NONE);
}

// A name whose text has 22 bytes, and its signature six more.
static void check_names(void)
{
    static const char name[] = "_ZNK9LoadBNode11memory_typeEv", wanted[] = "LoadBNode::memory_type() const";
    char text[64];
    uint64_t text_size = 1;
    memset(text, 'x', sizeof text);
    CHECK(dewikura_demangle(name, strlen(name), DEWIKURA_STYLE_NAME, text, sizeof text, &text_size), DEWIKURA_OK);
    CHECK(text_size, 22);
    CHECK(memcmp(text, wanted, 22), 0);
    CHECK(text[22], 'x');
    CHECK(dewikura_demangle(name, strlen(name), DEWIKURA_STYLE_SIGNATURE, text, 24, &text_size), DEWIKURA_OK);
    CHECK(text_size, 30);
    CHECK(memcmp(text, wanted, 24), 0);
    CHECK(text[24], 'x');
    CHECK(dewikura_demangle(name, strlen(name), DEWIKURA_STYLE_SIGNATURE, NONE, 0, &text_size), DEWIKURA_OK);
    CHECK(text_size, 30);
    CHECK(dewikura_demangle(name, strlen(name), DEWIKURA_STYLE_NAME, text, sizeof text, IGNORED(0)), DEWIKURA_OK);
    // Rust, of today and of before
    CHECK(dewikura_demangle("_RNvC3foo3bar", 13, DEWIKURA_STYLE_NAME, text, sizeof text, &text_size), DEWIKURA_OK);
    CHECK(text_size, 8);
    CHECK(memcmp(text, "foo::bar", 8), 0);
    CHECK(dewikura_demangle("_ZN3foo3bar17h70f7ef1d485fa773E", 31, DEWIKURA_STYLE_NAME, text, sizeof text, &text_size), DEWIKURA_OK);
    CHECK(text_size, 8);
    CHECK(memcmp(text, "foo::bar", 8), 0);
    // No names
    memset(text, 'x', sizeof text);
    CHECK(dewikura_demangle("main", 4, DEWIKURA_STYLE_NAME, text, sizeof text, &text_size), DEWIKURA_OK);
    CHECK(text_size, 0);
    text_size = 1;
    CHECK(dewikura_demangle(name, 10, DEWIKURA_STYLE_NAME, text, sizeof text, &text_size), DEWIKURA_OK);
    CHECK(text_size, 0);
    text_size = 1;
    CHECK(dewikura_demangle(name, 0, DEWIKURA_STYLE_SIGNATURE, text, sizeof text, &text_size), DEWIKURA_OK);
    CHECK(text_size, 0);
    CHECK(text[0], 'x');
}

static void check_empty(void)
{
    struct dewikura_feature_set set;
    struct dewikura_build_id entry;
    struct dewikura_jit_header header;
    struct dewikura_jit_load load;
    CHECK(dewikura_status_text(DEWIKURA_OK, NONE, 0), 8);
    CHECK(dewikura_input_kind(NONE, 0), DEWIKURA_KIND_NONE);
    CHECK(dewikura_is_big_endian(NONE, 0), 0);
    CHECK(dewikura_read_file_records(NONE, 0, FIRST, NONE, 0, IGNORED(0)), DEWIKURA_TRUNCATED);
    CHECK(dewikura_read_pipe_records(NONE, 0, 0, NONE, 0, IGNORED(0)), DEWIKURA_TRUNCATED);
    CHECK(dewikura_read_file_samples(NONE, 0, FIRST, NONE, 0, IGNORED(0), NONE, 0, IGNORED(1)), DEWIKURA_TRUNCATED);
    CHECK(dewikura_read_pipe_samples(NONE, 0, NONE, 0, IGNORED(0), NONE, 0, IGNORED(1)), DEWIKURA_TRUNCATED);
    CHECK(dewikura_read_file_attrs(NONE, 0, NONE, 0, NONE, 0, NONE, 0, IGNORED(0)), DEWIKURA_TRUNCATED);
    CHECK(dewikura_read_pipe_attrs(NONE, 0, NONE, 0, NONE, 0, NONE, 0, IGNORED(0)), DEWIKURA_TRUNCATED);
    CHECK(dewikura_read_file_feature_set(NONE, 0, &set), DEWIKURA_TRUNCATED);
    CHECK(set.bits0 | set.bits1 | set.bits2 | set.bits3, 0);
    CHECK(dewikura_read_pipe_feature_set(NONE, 0, &set), DEWIKURA_TRUNCATED);
    CHECK(dewikura_read_file_feature(NONE, 0, 1, NONE, 0, IGNORED(0), IGNORED(1)), DEWIKURA_TRUNCATED);
    CHECK(dewikura_read_pipe_feature(NONE, 0, 1, NONE, 0, IGNORED(0), IGNORED(1)), DEWIKURA_TRUNCATED);
    CHECK(dewikura_read_build_id(NONE, 0, 0, 0, &entry), DEWIKURA_TRUNCATED);
    CHECK(dewikura_read_meta_info(NONE, 0, NONE, 0, IGNORED(0)), DEWIKURA_OK);
    CHECK(dewikura_read_symbol_tables(NONE, 0, DEWIKURA_FEATURE_SIMPLEPERF_FILE, 0, NONE, 0, NONE, 0, NONE, 0, NONE, 0, IGNORED(0)), DEWIKURA_OK);
    CHECK(dewikura_read_symbol_tables(NONE, 0, DEWIKURA_FEATURE_SIMPLEPERF_FILE2, 0, NONE, 0, NONE, 0, NONE, 0, NONE, 0, IGNORED(0)), DEWIKURA_OK);
    CHECK(dewikura_read_jit_header(NONE, 0, &header), DEWIKURA_JIT_TRUNCATED_HEADER);
    CHECK(dewikura_read_jit_records(NONE, 0, 0, NONE, 0, IGNORED(0), IGNORED(1)), DEWIKURA_JIT_TRUNCATED_HEADER);
    CHECK(dewikura_read_jit_load(NONE, 0, 0, &load), DEWIKURA_JIT_TRUNCATED_HEADER);
    CHECK(dewikura_read_jit_debug_info(NONE, 0, 0, IGNORED(0), NONE, 0, IGNORED(1)), DEWIKURA_JIT_TRUNCATED_HEADER);
    CHECK(dewikura_demangle(NONE, 0, DEWIKURA_STYLE_NAME, NONE, 0, IGNORED(0)), DEWIKURA_OK);
}

// A late attribute with two ids, of which one fits.
static void check_late_attr(void)
{
    struct dewikura_attr attr;
    uint64_t ids[2] = {0, 7}, count = 0;
    size = 0;
    put_attr(0x1101, SAMPLE_TYPE);
    put(0x31, 8);
    put(0x32, 8);
    memset(&attr, 0xab, sizeof attr);
    CHECK(dewikura_read_late_attr(input, size, 0, 40, &attr, ids, 1, &count), DEWIKURA_OK);
    CHECK(count, 2);
    CHECK(ids[0], 0x31);
    CHECK(ids[1], 7);
    CHECK(attr.config, 0x1101);
    CHECK(attr.sample_period_or_freq, 0x1102);
    CHECK(attr.sample_type, SAMPLE_TYPE);
    CHECK(attr.read_format, DEWIKURA_READ_TOTAL_TIME_ENABLED | DEWIKURA_READ_LOST);
    CHECK(attr.flags, DEWIKURA_ATTR_SAMPLE_ID_ALL | DEWIKURA_ATTR_MMAP);
    CHECK(attr.config1, 0x1103);
    CHECK(attr.config2, 0x1104);
    CHECK(attr.branch_sample_type, 0x1105);
    CHECK(attr.sample_regs_user, 0x1106);
    CHECK(attr.sample_regs_intr, 0x1107);
    CHECK(attr.sig_data, 0x1108);
    CHECK(attr.config3, 0x1109);
    CHECK(attr.name_offset | attr.name_size | attr.has_name, 0);
    CHECK(attr.ids_start, 40);
    CHECK(attr.ids_count, 2);
    CHECK(attr.type, 0x21);
    CHECK(attr.size, 136);
    CHECK(attr.wakeup_events, 0x22);
    CHECK(attr.bp_type, 0x23);
    CHECK(attr.sample_stack_user, 0x24);
    CHECK(attr.clockid, -25);
    CHECK(attr.aux_watermark, 0x26);
    CHECK(attr.sample_max_stack, 0x27);
    CHECK(attr.aux_sample_size, 0x28);
    attr.config = 5;
    CHECK(dewikura_read_late_attr(input, size - 1, 0, 0, &attr, ids, 2, &count), DEWIKURA_TRUNCATED);
    CHECK(dewikura_read_late_attr(NONE, 0, 0, 0, &attr, ids, 2, &count), DEWIKURA_TRUNCATED);
    input[4] = 63;
    CHECK(dewikura_read_late_attr(input, size, 0, 0, &attr, ids, 2, &count), DEWIKURA_INVALID_DATA);
    CHECK(count, 0);
    CHECK(attr.config, 5);
    CHECK(ids[1], 7);
}

// The openings of a file and of a pipe; that of each prefix says that more is needed.
static void check_openings(void)
{
    struct dewikura_opening opening;
    size_t i;
    put_file();
    memset(&opening, 0xab, sizeof opening);
    CHECK(dewikura_read_opening(input, size, &opening), DEWIKURA_OK);
    CHECK(opening.records_offset, 256);
    CHECK(opening.records_size, 80);
    CHECK(opening.attrs_offset, 104);
    CHECK(opening.attrs_size, 152);
    CHECK(opening.event_types_offset | opening.event_types_size, 0);
    CHECK(opening.features_offset, 256 + 80);
    CHECK(opening.features_size, 4 * 16);
    CHECK(opening.kind, DEWIKURA_KIND_FILE);
    CHECK(opening.is_big_endian, 0);
    opening.kind = 7;
    for (i = 0; i < 104; i++)
        CHECK(dewikura_read_opening(input, i, &opening), DEWIKURA_MORE);
    put_at(40, UINT64_MAX, 8);
    CHECK(dewikura_read_opening(input, size, &opening), DEWIKURA_BAD_DATA_SECTION);
    put_at(8, UINT64_MAX, 8);
    CHECK(dewikura_read_opening(input, size, &opening), DEWIKURA_INVALID_HEADER_SIZE);
    input[0]++;
    CHECK(dewikura_read_opening(input, size, &opening), DEWIKURA_BAD_MAGIC);
    CHECK(opening.kind, 7);
    size = 0;
    put_text("PERFILE2", 8);
    put(24, 8);
    put(0, 8);
    put_header(DEWIKURA_RECORD_HEADER_ATTR, 0, 144);
    put_attr(0x1101, SAMPLE_TYPE);
    put_header(DEWIKURA_RECORD_HEADER_FEATURE, 0, 16);
    put(3, 8);
    put_header(DEWIKURA_RECORD_SAMPLE, 0, 8);
    for (i = 0; i < size; i++)
        CHECK(dewikura_read_opening(input, i, &opening), DEWIKURA_MORE);
    CHECK(opening.kind, 7);
    CHECK(dewikura_read_opening(input, size, &opening), DEWIKURA_OK);
    CHECK(opening.records_offset, 24 + 144 + 16);
    CHECK(opening.records_size | opening.attrs_offset | opening.attrs_size | opening.features_offset | opening.features_size, 0);
    CHECK(opening.kind, DEWIKURA_KIND_PIPE);
    CHECK(opening.is_big_endian, 0);
    put_at(24 + 144 + 6, 7, 2);
    CHECK(dewikura_read_opening(input, size, &opening), DEWIKURA_BAD_RECORD_SIZE);
}

// Sorts records with random times, of which some are none: all are there once, ascending, and those with one time in their old order.
static void check_sort_of(size_t count)
{
    struct dewikura_record *records = (struct dewikura_record *)calloc(count, sizeof *records);
    unsigned char *seen = (unsigned char *)calloc(count, 1);
    uint64_t state = 1, last = 0, last_offset = 0;
    size_t i;
    CHECK(records != NULL && seen != NULL, 1);
    for (i = 0; i < count; i++) {
        state = state * 6364136223846793005u + 1442695040888963407u;
        records[i].offset = i;
        records[i].timestamp = i % 7 == 0 ? UINT64_MAX : state >> 46;
        records[i].has_timestamp = i % 5 != 0;
    }
    CHECK(dewikura_sort_records(records, count), DEWIKURA_OK);
    for (i = 0; i < count; i++) {
        uint64_t offset = records[i].offset;
        uint64_t time = records[i].has_timestamp && records[i].timestamp != UINT64_MAX ? records[i].timestamp : 0;
        CHECK(i == 0 || time > last || (time == last && offset > last_offset), 1);
        CHECK(offset < count && !seen[offset], 1);
        seen[offset] = 1;
        last = time;
        last_offset = offset;
    }
    free(seen);
    free(records);
}

static void check_sort(void)
{
    static const uint64_t times[] = {7, 0, 3, 7, UINT64_MAX}, order[] = {1, 4, 2, 0, 3};
    struct dewikura_record records[5];
    size_t i;
    memset(records, 0, sizeof records);
    for (i = 0; i < 5; i++) {
        records[i].offset = i;
        records[i].timestamp = times[i];
        records[i].has_timestamp = i != 1;
    }
    CHECK(dewikura_sort_records(records, 5), DEWIKURA_OK);
    for (i = 0; i < 5; i++) {
        CHECK(records[i].offset, order[i]);
        CHECK(records[i].timestamp, times[order[i]]);
    }
    CHECK(dewikura_sort_records(NONE, 0), DEWIKURA_OK);
    check_sort_of(20);
    check_sort_of(21);
    check_sort_of(65536);
    check_sort_of(1000000);
}

static void check_texts(void)
{
    char text[128], part[8], unknown[128];
    dewikura_status status;
    size_t length;
    CHECK(dewikura_version(), DEWIKURA_VERSION);
    CHECK(dewikura_status_text(DEWIKURA_MORE + 1, unknown, sizeof unknown), 14);
    for (status = DEWIKURA_OK; status <= DEWIKURA_MORE; status++) {
        length = dewikura_status_text(status, text, sizeof text);
        CHECK(length, strlen(text));
        CHECK(!strcmp(text, unknown), 0);
        memset(part, 'x', sizeof part);
        CHECK(dewikura_status_text(status, part, sizeof part - 1), length);
        CHECK(strlen(part), length < 6 ? length : 6);
        CHECK(memcmp(part, text, strlen(part)), 0);
        CHECK(part[7], 'x');
    }
}

int main(void)
{
    check_file();
    check_samples();
    check_tasks();
    check_mappings();
    check_counters();
    check_details();
    check_build_id();
    check_dso_kinds();
    check_common();
    check_event_errors();
    check_numbers();
    check_pmu();
    check_errors();
    check_string();
    check_meta_info();
    check_file_section();
    check_file2_section();
    check_jitdump();
    check_kinds();
    check_names();
    check_late_attr();
    check_openings();
    check_empty();
    check_sort();
    check_texts();
    return 0;
}
