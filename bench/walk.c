// A walk over a mapped perf.data file with little-endian numbers: `walk library PATH` fills an array by the library, `walk pages PATH` one
// of 4,096 records again and again, and `walk own PATH` fills the same array by plain C: the identifiers of the attributes are in a sorted
// array, and time and identifier at fixed offsets. These print the number of records. `walk compare PATH` compares both arrays. `walk samples
// PATH` and `walk own-samples PATH` fill arrays of samples and their frames, and print the number of samples; `walk compare-samples PATH`
// compares them. `walk stacks PATH` fills arrays of stacks, frames, mappings and texts, and prints the number of stacks. `walk plain PATH` writes
// a recording of `perf record -z` without compression.
#include "../tests/contexts.h"
#include "dewikura.h"
#include <fcntl.h>
#include <inttypes.h>
#include <stdio.h>
#include <stdlib.h>
#include <string.h>
#include <sys/mman.h>
#include <sys/stat.h>
#include <unistd.h>

static uint64_t number_at(const uint8_t *bytes) {
    uint64_t number;
    memcpy(&number, bytes, 8);
    return number;
}

typedef struct { uint64_t id, index; } Pair;

// The offsets of a record's time and identifier in bytes, or -1: from the start of a sample's body, and from the end of all others.
typedef struct { long time, id, time_from_end, id_from_end; } Offsets;

static int is_set(uint64_t bits, int bit) { return bits >> bit & 1; }

static Offsets offsets_of(uint64_t type, uint64_t flags) {
    int identifier = is_set(type, 16), id = is_set(type, 6), time = is_set(type, 2), all = is_set(flags, 18);
    int before = identifier + is_set(type, 0) + is_set(type, 1), after = is_set(type, 9) + is_set(type, 7) + identifier;
    return (Offsets){
        time ? 8 * before : -1,
        identifier ? 0 : id ? 8 * (before + time + is_set(type, 3)) : -1,
        time && all ? 8 * (1 + id + after) : -1,
        !all ? -1 : identifier ? 8 : id ? 8 * (1 + after) : -1,
    };
}

static int compare_pairs(const void *left, const void *right) {
    uint64_t a = ((const Pair *)left)->id, b = ((const Pair *)right)->id;
    return a < b ? -1 : a > b;
}

// Reads the identifiers of all attributes in ascending order. The identifiers of a recording are distinct.
static size_t read_pairs(const uint8_t *bytes, uint64_t entry_size, Pair *pairs) {
    uint64_t attrs = number_at(bytes + 24), attrs_size = number_at(bytes + 32), count = 0;
    for (uint64_t index = 0; index < attrs_size / entry_size; index++) {
        const uint8_t *section = bytes + attrs + (index + 1) * entry_size - 16;
        uint64_t offset = number_at(section), size = number_at(section + 8);
        for (uint64_t i = 0; i + 8 <= size; i += 8) pairs[count++] = (Pair){number_at(bytes + offset + i), index};
    }
    qsort(pairs, count, sizeof *pairs, compare_pairs);
    return count;
}

static uint64_t index_of(const Pair *pairs, size_t count, uint64_t id) {
    size_t from = 0, to = count;
    while (from < to) {
        size_t middle = from + (to - from) / 2;
        if (pairs[middle].id < id) from = middle + 1;
        else to = middle;
    }
    return from < count && pairs[from].id == id ? pairs[from].index : 0;
}

// The number at an offset of a body, if it contains one there.
static int find(const uint8_t *body, uint64_t size, int is_sample, long offset, long offset_from_end, uint64_t *number) {
    long at = is_sample ? offset : offset_from_end < 0 ? -1 : (long)size - offset_from_end;
    if (at < 0 || (uint64_t)at + 8 > size) return 0;
    *number = number_at(body + at);
    return 1;
}

static uint64_t own(const uint8_t *bytes, struct dewikura_record *records) {
    static Pair pairs[1 << 16];
    uint64_t start = number_at(bytes + 40), size = number_at(bytes + 48), offset = 0, round = 0, count = 0;
    uint64_t entry_size = number_at(bytes + 16), attrs = number_at(bytes + 24), has_several = number_at(bytes + 32) > entry_size;
    Offsets offsets = offsets_of(number_at(bytes + attrs + 24), number_at(bytes + attrs + 40));
    size_t pairs_count = has_several ? read_pairs(bytes, entry_size, pairs) : 0;
    while (offset < size) {
        const uint8_t *header = bytes + start + offset;
        uint64_t number = number_at(header), time = 0, id;
        uint32_t type = (uint32_t)number;
        uint16_t record_size = (uint16_t)(number >> 48);
        if (record_size < 8) break;
        if (type == DEWIKURA_RECORD_FINISHED_ROUND) round++;
        else {
            struct dewikura_record *record = &records[count++];
            uint64_t body_size = record_size - 8u;
            int has_attr = type < 64, is_sample = type == DEWIKURA_RECORD_SAMPLE;
            record->offset = offset;
            record->body_offset = start + offset + 8;
            record->body_size = body_size;
            record->round = round;
            record->has_timestamp = has_attr && find(header + 8, body_size, is_sample, offsets.time, offsets.time_from_end, &time);
            record->timestamp = time;
            record->attr_index = has_attr && has_several && find(header + 8, body_size, is_sample, offsets.id, offsets.id_from_end, &id)
                ? index_of(pairs, pairs_count, id) : 0;
            record->type = type;
            record->misc = (uint16_t)(number >> 32);
            record->has_attr = (uint8_t)has_attr;
        }
        offset += record_size;
    }
    return count;
}

static uint64_t pages(const uint8_t *bytes, size_t size, struct dewikura_record *records) {
    struct dewikura_cursor cursor = {0, 0};
    uint64_t count, total = 0;
    do {
        if (dewikura_read_file_records(bytes, size, &cursor, records, 4096, &count)) exit(2);
        total += count;
    } while (count == 4096);
    return total;
}

// ---- samples

typedef struct {
    struct dewikura_sample *samples;
    struct dewikura_frame *frames;
    uint64_t count, frames_count;
} Samples;

// The next word. Returns 0 if it isn't complete.
static inline int next_word(const uint8_t **at, const uint8_t *end, uint64_t *word) {
    if (end - *at < 8) return 0;
    *word = number_at(*at);
    *at += 8;
    return 1;
}

// Decodes the words of a sample, and its call chain. Returns 0 if it is truncated.
static int decode(uint64_t type, const uint8_t *at, const uint8_t *end, struct dewikura_sample *sample, struct dewikura_frame *frames) {
    uint64_t task = 0, id = 0, cpu = 0, unused, count = 0;
    if (is_set(type, 16) && !next_word(&at, end, &sample->id)) return 0;
    if (is_set(type, 0) && !next_word(&at, end, &sample->ip)) return 0;
    if (is_set(type, 1) && !next_word(&at, end, &task)) return 0;
    if (is_set(type, 2) && !next_word(&at, end, &sample->timestamp)) return 0;
    if (is_set(type, 3) && !next_word(&at, end, &sample->address)) return 0;
    if (is_set(type, 6) && !next_word(&at, end, &id)) return 0;
    if (is_set(type, 9) && !next_word(&at, end, &unused)) return 0;
    if (is_set(type, 7) && !next_word(&at, end, &cpu)) return 0;
    if (is_set(type, 8) && !next_word(&at, end, &sample->period)) return 0;
    if (!is_set(type, 16)) sample->id = id;
    sample->pid = (int32_t)task;
    sample->tid = (int32_t)(task >> 32);
    sample->cpu = (uint32_t)cpu;
    if (is_set(type, 5)) {
        uint32_t context = DEWIKURA_CONTEXT_USER, written = 0;
        if (!next_word(&at, end, &count) || count > (uint64_t)(end - at) / 8) return 0;
        for (uint64_t i = 0; i < count; i++) {
            uint64_t value = number_at(at + 8 * i);
            if (value >= (uint64_t)-4095) context = context_of(value);
            else frames[written++] = (struct dewikura_frame){value, context, 0};
        }
        sample->frames_count = written;
    }
    sample->fields = (uint32_t)type;
    return 1;
}

static void own_samples(const uint8_t *bytes, Samples *all) {
    static Pair pairs[1 << 16];
    uint64_t start = number_at(bytes + 40), size = number_at(bytes + 48), offset = 0;
    uint64_t entry_size = number_at(bytes + 16), attrs = number_at(bytes + 24), has_several = number_at(bytes + 32) > entry_size;
    uint64_t type = number_at(bytes + attrs + 24);
    Offsets offsets = offsets_of(type, number_at(bytes + attrs + 40));
    size_t pairs_count = has_several ? read_pairs(bytes, entry_size, pairs) : 0;
    while (offset < size) {
        const uint8_t *header = bytes + start + offset;
        uint64_t number = number_at(header), id, index = 0;
        uint16_t record_size = (uint16_t)(number >> 48);
        if (record_size < 8) break;
        if ((uint32_t)number == DEWIKURA_RECORD_SAMPLE) {
            struct dewikura_sample *sample = &all->samples[all->count++];
            if (has_several) {
                if (find(header + 8, record_size - 8u, 1, offsets.id, offsets.id_from_end, &id)) index = index_of(pairs, pairs_count, id);
                type = number_at(bytes + attrs + index * entry_size + 24);
            }
            memset(sample, 0, sizeof *sample);
            sample->error = !decode(type, header + 8, header + record_size, sample, all->frames + all->frames_count);
            sample->offset = offset;
            sample->attr_index = (uint32_t)index;
            sample->misc = (uint16_t)(number >> 32);
            sample->frames_start = all->frames_count;
            all->frames_count += sample->frames_count;
        }
        offset += record_size;
    }
}

static void *reserve(size_t size) {
    void *found = mmap(NULL, size, PROT_READ | PROT_WRITE, MAP_PRIVATE | MAP_ANONYMOUS | MAP_NORESERVE, -1, 0);
    if (found == MAP_FAILED) exit(1);
    return found;
}

static uint64_t read_samples(const char *mode, const uint8_t *bytes, size_t size) {
    size_t capacity = size / 8;
    Samples all = {reserve(capacity * sizeof *all.samples), reserve(capacity * sizeof *all.frames), 0, 0};
    if (strcmp(mode, "samples")) own_samples(bytes, &all);
    if (!strcmp(mode, "own-samples")) return all.count;
    Samples found = {reserve(capacity * sizeof *all.samples), reserve(capacity * sizeof *all.frames), 0, 0};
    if (dewikura_read_file_samples(bytes, size, &(struct dewikura_cursor){0, 0}, found.samples, capacity, &found.count, found.frames, capacity, &found.frames_count)) exit(2);
    if (strcmp(mode, "samples")
        && (found.count != all.count || memcmp(found.samples, all.samples, all.count * sizeof *all.samples) || found.frames_count != all.frames_count
            || memcmp(found.frames, all.frames, all.frames_count * sizeof *all.frames))) exit(3);
    return found.count;
}

// ---- stacks

static uint64_t read_stacks(const uint8_t *bytes, size_t size) {
    struct dewikura_stack *stacks = reserve(size / 8 * sizeof *stacks);
    struct dewikura_stack_frame *frames = reserve(size / 8 * sizeof *frames);
    struct dewikura_stack_mapping *mappings = reserve(size / 8 * sizeof *mappings);
    struct dewikura_stack_totals totals;
    if (dewikura_read_file_stacks(bytes, size, stacks, size / 8, frames, size / 8, mappings, size / 8, reserve(size), size, &totals)) exit(2);
    return totals.stack_count;
}

// Writes a recording without compression to standard output.
static int write_plain(const uint8_t *bytes, size_t size) {
    uint64_t needed = 0;
    uint8_t none = 0;
    if (dewikura_decompress(bytes, size, &none, 0, &needed) || !needed) return 2;
    uint8_t *plain = malloc(needed);
    if (!plain || dewikura_decompress(bytes, size, plain, needed, &needed)) return 2;
    return fwrite(plain, 1, needed, stdout) != needed;
}

int main(int argc, char **argv) {
    struct stat file_stat;
    int file = argc == 3 ? open(argv[2], O_RDONLY) : -1;
    if (file < 0 || fstat(file, &file_stat)) return 1;
    size_t size = (size_t)file_stat.st_size, capacity = size / 8;
    const uint8_t *bytes = mmap(NULL, size, PROT_READ, MAP_PRIVATE, file, 0);
    // (the pages of the array that contain no record are never allocated)
    struct dewikura_record *records = mmap(NULL, capacity * sizeof *records, PROT_READ | PROT_WRITE, MAP_PRIVATE | MAP_ANONYMOUS | MAP_NORESERVE, -1, 0);
    uint64_t total = 0;
    if (bytes == MAP_FAILED || records == MAP_FAILED) return 1;
    if (!strcmp(argv[1], "plain")) return write_plain(bytes, size);
    if (strstr(argv[1], "samples")) total = read_samples(argv[1], bytes, size);
    else if (!strcmp(argv[1], "stacks")) total = read_stacks(bytes, size);
    else if (!strcmp(argv[1], "own")) total = own(bytes, records);
    else if (!strcmp(argv[1], "compare")) {
        struct dewikura_record *others = calloc(total = own(bytes, records), sizeof *others);
        uint64_t count = 0;
        if (!others || dewikura_read_file_records(bytes, size, &(struct dewikura_cursor){0, 0}, others, total, &count)) return 2;
        if (count != total || memcmp(records, others, total * sizeof *others)) return 3;
    }
    else if (!strcmp(argv[1], "pages")) total = pages(bytes, size, records);
    else if (dewikura_read_file_records(bytes, size, &(struct dewikura_cursor){0, 0}, records, capacity, &total)) return 2;
    printf("%" PRIu64 "\n", total);
    return 0;
}
