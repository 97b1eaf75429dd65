// `entries PATH` prints a line for each record on a task and for each mapping of a recording: its fields, and the bytes of its
// name or path in hexadecimal; then a line with the status of each call. Before that it reads them once more with small arrays, the entries
// of a file in pages, and fails if anything differs. Then it prints a line for the details of each sample, with their numbers and the bytes
// of their parts, and one for each counter value of a sample or a READ record.
#include "arguments.h"
#include "dewikura.h"
#include <inttypes.h>
#include <stdio.h>
#include <stdlib.h>
#include <string.h>

static const uint8_t *data;
static size_t size;
static int is_pipe;

static void fail(const char *what, uint64_t index)
{
    fprintf(stderr, "entries: %s, entry %" PRIu64 "\n", what, index);
    exit(1);
}

static dewikura_status read_tasks(struct dewikura_cursor *cursor, void *array, size_t capacity, uint64_t *count)
{
    return is_pipe ? dewikura_read_pipe_tasks(data, size, array, capacity, count) : dewikura_read_file_tasks(data, size, cursor, array, capacity, count);
}

static dewikura_status read_mappings(struct dewikura_cursor *cursor, void *array, size_t capacity, uint64_t *count)
{
    return is_pipe ? dewikura_read_pipe_mappings(data, size, array, capacity, count)
                   : dewikura_read_file_mappings(data, size, cursor, array, capacity, count);
}

typedef dewikura_status reader(struct dewikura_cursor *, void *, size_t, uint64_t *);

// Whether the bytes after the written entries are unchanged.
static int is_unchanged(const uint8_t *bytes, size_t count)
{
    while (count > 0 && *bytes == 0xaa) {
        bytes++;
        count--;
    }
    return count == 0;
}

// Reads the entries of a file in calls with small arrays.
static void check_pages(reader *read, size_t entry_size, size_t capacity, const uint8_t *wanted, uint64_t wanted_count, dewikura_status wanted_status)
{
    struct dewikura_cursor cursor = {0, 0};
    uint8_t page[9 * 128];
    uint64_t done = 0, count;
    dewikura_status status;
    do {
        memset(page, 0xaa, sizeof page);
        status = read(&cursor, page, capacity, &count);
        if (count > capacity || count > wanted_count - done)
            fail("too many entries in a page", done);
        if (memcmp(page, wanted + done * entry_size, (size_t)count * entry_size))
            fail("other entries in a page", done);
        if (!is_unchanged(page + count * entry_size, sizeof page - (size_t)count * entry_size))
            fail("written after the last entry", done);
        done += count;
    } while (status == DEWIKURA_OK && count == capacity);
    if (status != wanted_status || done != wanted_count)
        fail("another end of the pages", done);
}

// Reads the entries of a pipe into a small array.
static void check_few(reader *read, size_t entry_size, const uint8_t *wanted, uint64_t wanted_count, dewikura_status wanted_status)
{
    uint8_t few[4 * 128];
    size_t written = wanted_count < 3 ? (size_t)wanted_count : 3;
    uint64_t count;
    memset(few, 0xaa, sizeof few);
    if (read(FIRST, few, 3, &count) != wanted_status || count != wanted_count)
        fail("another count with a small array", count);
    if (memcmp(few, wanted, written * entry_size))
        fail("other entries in a small array", 0);
    if (!is_unchanged(few + written * entry_size, sizeof few - written * entry_size))
        fail("written after a small array", 0);
}

static void *read_all(reader *read, size_t entry_size, uint64_t *count, dewikura_status *status)
{
    size_t capacity = size / 8 + 1;
    uint8_t *all = calloc(capacity + 1, entry_size);
    if (!all)
        exit(2);
    *status = read(FIRST, all, capacity, count);
    if (is_pipe) {
        check_few(read, entry_size, all, *count, *status);
    } else {
        check_pages(read, entry_size, 1, all, *count, *status);
        check_pages(read, entry_size, 7, all, *count, *status);
    }
    return all;
}

static void print_bytes(const uint8_t *bytes, uint64_t count)
{
    putchar(' ');
    while (count--)
        printf("%02x", *bytes++);
}

static void print_tasks(void)
{
    uint64_t count, i;
    dewikura_status status;
    struct dewikura_task *all = read_all(read_tasks, sizeof *all, &count, &status);
    for (i = 0; i < count; i++) {
        const struct dewikura_task *t = all + i;
        printf("task %" PRIu64 " %" PRIu64 " %u %u %d %d %d %d", t->offset, t->timestamp, t->type, t->is_execve, t->pid, t->tid, t->ppid,
            t->ptid);
        print_bytes(data + t->name_offset, t->name_size);
        putchar('\n');
    }
    printf("tasks %u\n", status);
    free(all);
}

static void print_mappings(void)
{
    uint64_t count, i;
    dewikura_status status;
    struct dewikura_mapping *all = read_all(read_mappings, sizeof *all, &count, &status);
    for (i = 0; i < count; i++) {
        const struct dewikura_mapping *m = all + i;
        printf("mapping %" PRIu64 " %" PRIu64 " %u %u %d %d", m->offset, m->timestamp, m->type, m->misc, m->pid, m->tid);
        printf(" %" PRIu64 " %" PRIu64 " %" PRIu64 " %" PRIu64 " %" PRIu64, m->address, m->length, m->page_offset, m->inode, m->inode_generation);
        printf(" %u %u %u %u %u %u %u", m->major, m->minor, m->protection, m->flags, m->is_data, m->build_id_size, m->reserved);
        print_bytes(m->build_id, sizeof m->build_id);
        print_bytes(data + m->path_offset, m->path_size);
        putchar('\n');
    }
    printf("mappings %u\n", status);
    free(all);
}

static dewikura_status read_counters(struct dewikura_cursor *cursor, void *array, size_t capacity, uint64_t *count)
{
    return is_pipe ? dewikura_read_pipe_counters(data, size, array, capacity, count)
                   : dewikura_read_file_counters(data, size, cursor, array, capacity, count);
}

// Reads the counters of a file in calls with small arrays, each as large as the next record needs.
static void check_counter_pages(size_t capacity, const struct dewikura_counter *wanted, uint64_t wanted_count, dewikura_status wanted_status)
{
    struct dewikura_cursor cursor = {0, 0};
    uint64_t done = 0, count;
    dewikura_status status;
    do {
        struct dewikura_cursor before = cursor;
        uint8_t *page = malloc((capacity + 1) * sizeof *wanted);
        if (!page)
            exit(2);
        memset(page, 0xaa, (capacity + 1) * sizeof *wanted);
        status = read_counters(&cursor, page, capacity, &count);
        if (status == DEWIKURA_NO_SPACE) {
            if (count <= capacity || !is_unchanged(page, (capacity + 1) * sizeof *wanted))
                fail("no space, but written", done);
            // The markers before the record are skipped.
            if (cursor.offset < before.offset || count > wanted_count - done)
                fail("no space for another record", done);
            capacity = (size_t)count;
        } else {
            if (count > capacity || count > wanted_count - done || memcmp(page, wanted + done, (size_t)count * sizeof *wanted))
                fail("other counters in a page", done);
            if (!is_unchanged(page + count * sizeof *wanted, (capacity + 1 - (size_t)count) * sizeof *wanted))
                fail("written after the last counter", done);
            done += count;
        }
        free(page);
    } while (status == DEWIKURA_NO_SPACE || (status == DEWIKURA_OK && count > 0));
    if (status != wanted_status || done != wanted_count)
        fail("another end of the counters", done);
}

static void print_counters(void)
{
    size_t capacity = size / 8 + 1;
    uint64_t count, i;
    struct dewikura_counter *all = calloc(capacity, sizeof *all);
    dewikura_status status;
    if (!all)
        exit(2);
    status = read_counters(FIRST, all, capacity, &count);
    if (is_pipe) {
        check_few(read_counters, sizeof *all, (const uint8_t *)all, count, status);
    } else {
        check_counter_pages(1, all, count, status);
        check_counter_pages(7, all, count, status);
    }
    for (i = 0; i < count; i++)
        printf("counter %" PRIu64 " %" PRIu64 " %" PRIu64 " %" PRIu64 " %" PRIu64 " %" PRIu64 "\n", all[i].offset, all[i].value, all[i].id,
            all[i].time_enabled, all[i].time_running, all[i].lost);
    printf("counters %u\n", status);
    free(all);
}

static void *array(size_t count, size_t entry_size)
{
    void *made = calloc(count + 1, entry_size);
    if (!made)
        exit(2);
    return made;
}

static void print_details_of(const struct dewikura_record *record, const struct dewikura_attr *attr)
{
    const uint8_t *body = data + record->body_offset;
    struct dewikura_sample_details d;
    dewikura_status status;
    memset(&d, 0, sizeof d);
    status = dewikura_read_sample_details(body, (size_t)record->body_size, dewikura_is_big_endian(data, size), attr, &d);
    printf("details %" PRIu64 " %u %" PRIu64 " %" PRIu64 " %" PRIu64 " %" PRIu64, record->offset, status, d.stream_id, d.weight, d.data_source,
        d.transaction);
    printf(" %" PRIu64 " %" PRIu64 " %" PRIu64 " %" PRIu64, d.physical_address, d.cgroup, d.data_page_size, d.code_page_size);
    printf(" %" PRIu64 " %" PRIu64 " %" PRIu64 " %" PRIu64, d.branches_count, d.branches_hw_index, d.user_abi, d.user_registers_count);
    printf(" %" PRIu64 " %" PRIu64 " %" PRIu64, d.user_stack_dynamic_size, d.interrupt_abi, d.interrupt_registers_count);
    print_bytes(body + d.raw_offset, d.raw_size);
    print_bytes(body + d.branches_offset, 24 * d.branches_count);
    print_bytes(body + d.user_registers_offset, 8 * d.user_registers_count);
    print_bytes(body + d.user_stack_offset, d.user_stack_size);
    print_bytes(body + d.interrupt_registers_offset, 8 * d.interrupt_registers_count);
    print_bytes(body + d.aux_offset, d.aux_size);
    putchar('\n');
}

static void print_details(void)
{
    size_t capacity = size / 8 + 1;
    struct dewikura_record *records = array(capacity, sizeof *records);
    struct dewikura_attr *attrs = array(capacity, sizeof *attrs);
    uint64_t count, i;
    dewikura_status ignored;
    if (is_pipe) {
        ignored = dewikura_read_pipe_records(data, size, 0, records, capacity, &count);
        ignored = dewikura_read_pipe_attrs(data, size, attrs, capacity, NONE, 0, NONE, 0, IGNORED(0));
    } else {
        ignored = dewikura_read_file_records(data, size, FIRST, records, capacity, &count);
        ignored = dewikura_read_file_attrs(data, size, attrs, capacity, NONE, 0, NONE, 0, IGNORED(0));
    }
    (void)ignored;
    for (i = 0; i < count; i++)
        if (records[i].type == DEWIKURA_RECORD_SAMPLE)
            print_details_of(records + i, attrs + records[i].attr_index);
    free(records);
    free(attrs);
}

int main(int argc, char **argv)
{
    FILE *stream = argc == 2 ? fopen(argv[1], "rb") : NULL;
    size_t capacity = 1 << 16, more;
    uint8_t *bytes = malloc(capacity);
    if (!stream || !bytes)
        return 2;
    while ((more = fread(bytes + size, 1, capacity - size, stream)) > 0) {
        size += more;
        if (size == capacity && !(bytes = realloc(bytes, capacity *= 2)))
            return 2;
    }
    fclose(stream);
    data = bytes;
    is_pipe = dewikura_input_kind(data, size) == DEWIKURA_KIND_PIPE;
    print_tasks();
    print_mappings();
    print_details();
    print_counters();
    free(bytes);
    return 0;
}
