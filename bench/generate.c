// Writes the files that `run` times, of about the requested number of bytes: `generate KIND PATH SIZE`. Each run writes the same
// bytes. KIND is
//   one          a perf.data file with one attribute whose records have TIME, and records of mixed kinds and sizes
//   small        the same with samples of 32 bytes
//   events       one with eight attributes and their identifiers, in the layout of perf record: ids, attributes, records, EVENT_DESC
//   rounds       the same of a system-wide recording: in each round one CPU's records after the other's, so most are later than the next CPU's
//   pipe         the records of `one` as a pipe
//   chains       one of samples with call chains of 20 frames
//   pipe-events  the records of `events` as a pipe
//   late         a pipe that begins with one attribute and contains SIZE late ones, with a sample after each
//   late-named   the same with an EVENT_DESC after the first attribute
//   described    the same with an EVENT_DESC of a tenth as many descriptions, at most 779, that name them
//   opening      those attributes and that EVENT_DESC before the first sample
//   renamed      SIZE attributes before the first sample, and after it as many EVENT_DESC, by turns of no description and of one
//   ids-up, ids-down            a pipe with SIZE late identifiers, ascending or descending, 8,000 in each record
//   single-up, single-down      the same, one in each record
//   attributes   a file with SIZE attributes in its attribute section, and one sample
//   types        a file with SIZE event types, an identifier for each, and one sample
//   pmu          a file with SIZE PMU mappings, whose numbers decrease, and one sample
//   jit          a jitdump of loads, moves and debug info
#include "bytes.h"
#include <stdio.h>
#include <stdlib.h>
#include <string.h>

enum { HEADER = 104, ATTRIBUTE = 64, PERF_ATTRIBUTE = 128, EVENTS = 8, CPUS = 16 };
enum { MOST_BODY = 200, ROUND = 1000, MOST_RECORD = 4096 };
enum { MMAP = 1, LOST = 2, COMM = 3, EXIT = 4, FORK = 7, SAMPLE = 9, MMAP2 = 10, ATTR = 64, FINISHED_ROUND = 68, THREAD_MAP = 73, FEATURE = 80 };
enum { EVENT_DESC = 12, PMU_MAPPINGS = 16 };

static const uint64_t IP = 1 << 0, TID = 1 << 1, TIME = 1 << 2, CALLCHAIN = 1 << 5, CPU = 1 << 7, PERIOD = 1 << 8, IDENTIFIER = 1 << 16;
static const uint64_t SAMPLE_ID_ALL = 1 << 18;

static FILE *out;

static void write_bytes(const void *bytes, size_t count) {
    if (fwrite(bytes, 1, count, out) != count) exit(1);
}

static void write_number(uint64_t value, int count) {
    unsigned char bytes[8];
    put(bytes, value, count);
    write_bytes(bytes, (size_t)count);
}

static size_t put_head(unsigned char *at, uint64_t kind, uint64_t misc, size_t size) {
    put(at, kind, 4);
    put(at + 4, misc, 2);
    put(at + 6, size, 2);
    return size;
}

static void put_attribute(unsigned char *at, size_t size, uint64_t type, uint64_t flags) {
    memset(at, 0, size);
    put(at + 4, size, 4);
    put(at + 24, type, 8);
    put(at + 40, flags, 8);
}

// ---- records of one attribute

static uint64_t clock_of(uint64_t number, uint64_t *state) { return 1000000000000u + number * 1000 + next(state) % 1000; }

// Writes one record. Its time increases slowly.
static size_t put_record(unsigned char *at, uint64_t number, uint64_t *state) {
    static const int kinds[16] = {SAMPLE, SAMPLE, SAMPLE, MMAP, SAMPLE, SAMPLE, LOST, SAMPLE, SAMPLE, COMM, SAMPLE, SAMPLE, SAMPLE, THREAD_MAP, SAMPLE, SAMPLE};
    uint64_t time = clock_of(number, state);
    int kind = number % ROUND == ROUND - 1 ? FINISHED_ROUND : kinds[next(state) % 16];
    size_t body = kind == FINISHED_ROUND ? 0 : 8 * (1 + next(state) % (MOST_BODY / 8));
    put_head(at, kind, next(state) % 8, 8 + body);
    for (size_t i = 0; i < body; i += 8) put(at + 8 + i, next(state) * 2654435761u, 8);
    if (kind == SAMPLE && body >= 24) put(at + 8 + 16, time, 8);
    if (kind < 64 && kind != SAMPLE && body >= 8) put(at + 8 + body - 8, time, 8);
    return 8 + body;
}

// ---- records of eight attributes

// The identifier of an event on a CPU, as the kernel counts them: event by event, with gaps.
static uint64_t id_of(int event, int cpu) { return 4000 + 97 * (uint64_t)event + 5 * (uint64_t)cpu; }

// Writes one record of an event on a CPU at a time. A sample begins with its identifier, all other records end with theirs.
static size_t put_event_at(unsigned char *at, uint64_t time, uint64_t *state) {
    static const int kinds[16] = {SAMPLE, SAMPLE, SAMPLE, SAMPLE, SAMPLE, MMAP2, SAMPLE, SAMPLE, SAMPLE, COMM, SAMPLE, SAMPLE, MMAP, SAMPLE, SAMPLE, SAMPLE};
    int kind = kinds[next(state) % 16], event = (int)(next(state) % EVENTS), cpu = (int)(next(state) % CPUS);
    uint64_t id = id_of(event, cpu);
    // the minimum body size, and the size that a call chain or a name adds
    size_t body = (kind == SAMPLE ? 48 : 64) + 8 * (next(state) % 13);
    put_head(at, kind, kind == SAMPLE ? 2 : 0, 8 + body);
    for (size_t i = 0; i < body; i += 8) put(at + 8 + i, next(state) * 2654435761u, 8);
    if (kind == SAMPLE) {
        put(at + 8, id, 8);
        put(at + 8 + 24, time, 8);
    } else {
        unsigned char *words = at + 8 + body - 32;
        put(words, 0x100000001, 8);
        put(words + 8, time, 8);
        put(words + 16, (uint64_t)cpu, 8);
        put(words + 24, id, 8);
    }
    return 8 + body;
}

static size_t put_event_record(unsigned char *at, uint64_t number, uint64_t *state) {
    if (number % ROUND == ROUND - 1) return put_head(at, FINISHED_ROUND, 0, 8);
    return put_event_at(at, clock_of(number, state), state);
}

// Writes one record of a round in which the buffers of the CPUs were drained one by one. All cover the same time.
static size_t put_round_record(unsigned char *at, uint64_t number, uint64_t *state) {
    const uint64_t size = CPUS * ROUND, each = ROUND * 1000;
    if (number % size == size - 1) return put_head(at, FINISHED_ROUND, 0, 8);
    return put_event_at(at, number / size * each + clock_of(number % ROUND, state), state);
}

typedef size_t (*Put)(unsigned char *, uint64_t, uint64_t *);

// A sample of 32 bytes.
static size_t put_small(unsigned char *at, uint64_t number, uint64_t *state) {
    put_head(at, SAMPLE, 2, 32);
    put(at + 8, next(state) * 2654435761u, 8);
    put(at + 16, 0x700000007, 8);
    put(at + 24, clock_of(number, state), 8);
    return 32;
}

// A sample with a call chain of 20 frames: 5 of the kernel and 15 of a program.
static size_t put_chain(unsigned char *at, uint64_t number, uint64_t *state) {
    const size_t size = 8 + 5 * 8 + 22 * 8;
    put_head(at, SAMPLE, 1, size);
    put(at + 8, next(state) * 2654435761u, 8);
    put(at + 16, 0x700000007, 8);
    put(at + 24, clock_of(number, state), 8);
    put(at + 32, 1 + next(state) % 1000, 8);
    put(at + 40, 22, 8);
    for (int i = 0; i < 22; i++) put(at + 48 + 8 * i, i == 0 ? (uint64_t)-128 : i == 6 ? (uint64_t)-512 : next(state) * 2654435761u, 8);
    return size;
}

static uint64_t write_records(Put put_one, uint64_t wanted) {
    uint64_t state = 1, size = 0;
    for (uint64_t number = 0; size < wanted; number++) {
        unsigned char record[MOST_RECORD];
        size_t length = put_one(record, number, &state);
        write_bytes(record, length);
        size += length;
    }
    return size;
}

// ---- files

static void write_header(uint64_t attr_size, uint64_t attrs, uint64_t attrs_size, uint64_t records, uint64_t size, uint64_t features) {
    write_bytes("PERFILE2", 8);
    uint64_t fields[] = {HEADER, attr_size, attrs, attrs_size, records, size, 0, 0, features, 0, 0, 0};
    for (size_t i = 0; i < sizeof fields / sizeof *fields; i++) write_number(fields[i], 8);
}

static const uint64_t ONE_TYPE = IP | TID | TIME;
static const uint64_t EVENT_TYPE = IDENTIFIER | IP | TID | TIME | CPU | PERIOD;

// perf reads such a file too: an attribute is followed by the section of its identifiers, which is empty.
static void write_plain(Put put_one, uint64_t type, uint64_t wanted) {
    unsigned char attribute[ATTRIBUTE + 16] = {0};
    put_attribute(attribute, ATTRIBUTE, type, SAMPLE_ID_ALL);
    write_header(sizeof attribute, HEADER, sizeof attribute, HEADER + sizeof attribute, 0, 0);
    write_bytes(attribute, sizeof attribute);
    uint64_t size = write_records(put_one, wanted);
    rewind(out);
    write_header(sizeof attribute, HEADER, sizeof attribute, HEADER + sizeof attribute, size, 0);
}

static void write_one(uint64_t wanted) { write_plain(put_record, ONE_TYPE, wanted); }

static void write_small(uint64_t wanted) { write_plain(put_small, ONE_TYPE, wanted); }

static void write_chains(uint64_t wanted) { write_plain(put_chain, ONE_TYPE | PERIOD | CALLCHAIN, wanted); }

// An EVENT_DESC section: each attribute with its name and its identifiers.
static void write_descriptions(void) {
    unsigned char attribute[PERF_ATTRIBUTE];
    put_attribute(attribute, sizeof attribute, EVENT_TYPE, SAMPLE_ID_ALL);
    write_number(EVENTS, 4);
    write_number(PERF_ATTRIBUTE, 4);
    for (int event = 0; event < EVENTS; event++) {
        char name[16] = {0};
        snprintf(name, sizeof name, "event-%d", event);
        write_bytes(attribute, sizeof attribute);
        write_number(CPUS, 4);
        write_number(sizeof name, 4);
        write_bytes(name, sizeof name);
        for (int cpu = 0; cpu < CPUS; cpu++) write_number(id_of(event, cpu), 8);
    }
}

enum { DESCRIPTIONS = 8 + EVENTS * (PERF_ATTRIBUTE + 4 + 4 + 16 + 8 * CPUS) };

static void write_event_file(Put put_one, uint64_t wanted) {
    const uint64_t attr_size = PERF_ATTRIBUTE + 16, attrs = HEADER + EVENTS * CPUS * 8;
    const uint64_t records = attrs + EVENTS * attr_size;
    uint64_t size = 0;
    for (int pass = 0; pass < 2; pass++) {
        rewind(out);
        write_header(attr_size, attrs, EVENTS * attr_size, records, size, 1 << EVENT_DESC);
        if (pass) break;
        for (int event = 0; event < EVENTS; event++)
            for (int cpu = 0; cpu < CPUS; cpu++) write_number(id_of(event, cpu), 8);
        unsigned char attribute[PERF_ATTRIBUTE];
        put_attribute(attribute, sizeof attribute, EVENT_TYPE, SAMPLE_ID_ALL);
        for (int event = 0; event < EVENTS; event++) {
            write_bytes(attribute, sizeof attribute);
            write_number(HEADER + (uint64_t)event * CPUS * 8, 8);
            write_number(CPUS * 8, 8);
        }
        size = write_records(put_one, wanted);
        write_number(records + size + 16, 8);
        write_number(DESCRIPTIONS, 8);
        write_descriptions();
    }
}

static void write_events(uint64_t wanted) { write_event_file(put_event_record, wanted); }

static void write_rounds(uint64_t wanted) { write_event_file(put_round_record, wanted); }

// ---- pipes

static void write_pipe_header(void) {
    write_bytes("PERFILE2", 8);
    write_number(16, 8);
}

// A record that contains an attribute with its identifiers.
static void write_attribute(size_t size, uint64_t type, uint64_t flags, const uint64_t *ids, size_t count) {
    unsigned char record[8 + PERF_ATTRIBUTE];
    put_head(record, ATTR, 0, 8 + size + 8 * count);
    put_attribute(record + 8, size, type, flags);
    write_bytes(record, 8 + size);
    for (size_t i = 0; i < count; i++) write_number(ids[i], 8);
}

static void write_pipe(uint64_t wanted) {
    write_pipe_header();
    write_attribute(ATTRIBUTE, ONE_TYPE, SAMPLE_ID_ALL, NULL, 0);
    write_records(put_record, wanted);
}

// A record that contains an EVENT_DESC.
static void write_description_record(void) {
    unsigned char head[8];
    put_head(head, FEATURE, 0, 16 + DESCRIPTIONS);
    write_bytes(head, sizeof head);
    write_number(EVENT_DESC, 8);
    write_descriptions();
}

static void write_pipe_events(uint64_t wanted) {
    write_pipe_header();
    for (int event = 0; event < EVENTS; event++) {
        uint64_t ids[CPUS];
        for (int cpu = 0; cpu < CPUS; cpu++) ids[cpu] = id_of(event, cpu);
        write_attribute(PERF_ATTRIBUTE, EVENT_TYPE, SAMPLE_ID_ALL, ids, CPUS);
    }
    write_description_record();
    write_records(put_event_record, wanted);
}

// A sample with this identifier and this time.
static void write_sample(uint64_t id, uint64_t time) {
    unsigned char sample[24];
    put_head(sample, SAMPLE, 2, sizeof sample);
    put(sample + 8, id, 8);
    put(sample + 16, time, 8);
    write_bytes(sample, sizeof sample);
}

static void write_attributes(uint64_t count, int is_named) {
    write_pipe_header();
    for (uint64_t id = 1; id <= count + 1; id++) {
        write_attribute(ATTRIBUTE, IDENTIFIER | TIME, 0, &id, 1);
        if (is_named && id == 1) write_description_record();
        write_sample(1 + id / 2, 1000 * id);
    }
}

static void write_late(uint64_t count) { write_attributes(count, 0); }

static void write_late_named(uint64_t count) { write_attributes(count, 1); }

// A record that contains an EVENT_DESC of that many events, whose first identifiers are 1, 2 and so on.
static void write_short_descriptions(uint64_t count) {
    enum { DESCRIPTION = ATTRIBUTE + 4 + 4 + 4 + 8 };
    unsigned char head[8], attribute[ATTRIBUTE];
    if (count > 779) count = 779;
    put_head(head, FEATURE, 0, 8 + 8 + 8 + DESCRIPTION * count);
    write_bytes(head, sizeof head);
    write_number(EVENT_DESC, 8);
    write_number(count, 4);
    write_number(ATTRIBUTE, 4);
    put_attribute(attribute, sizeof attribute, IDENTIFIER | TIME, 0);
    for (uint64_t id = 1; id <= count; id++) {
        write_bytes(attribute, sizeof attribute);
        write_number(1, 4);
        write_number(4, 4);
        write_bytes("abc", 4);
        write_number(id, 8);
    }
}

static void write_described(uint64_t count) {
    write_pipe_header();
    for (uint64_t id = 1; id <= count; id++) {
        write_attribute(ATTRIBUTE, IDENTIFIER | TIME, 0, &id, 1);
        if (id > 1) continue;
        write_short_descriptions(count / 10);
        write_sample(1, 1000);
    }
    write_sample(count, 2000);
}

static void write_opening(uint64_t count) {
    write_pipe_header();
    for (uint64_t id = 1; id <= count; id++) write_attribute(ATTRIBUTE, IDENTIFIER | TIME, 0, &id, 1);
    write_short_descriptions(count / 10);
    write_sample(count, 2000);
}

static void write_renamed(uint64_t count) {
    write_pipe_header();
    for (uint64_t id = 1; id <= count; id++) write_attribute(ATTRIBUTE, IDENTIFIER | TIME, 0, &id, 1);
    write_sample(1, 1000);
    for (uint64_t i = 0; i < count; i++) write_short_descriptions(i % 2);
    write_sample(count, 2000);
}

// Late attributes with that many identifiers each, which increase or decrease from record to record and within each.
static void write_ids(uint64_t count, uint64_t each, int is_falling) {
    static uint64_t ids[8000];
    uint64_t first = 1;
    write_pipe_header();
    write_attribute(ATTRIBUTE, IDENTIFIER | TIME, 0, &first, 1);
    write_sample(1, 1000);
    for (uint64_t from = 0; from < count; from += each) {
        uint64_t some = count - from < each ? count - from : each;
        for (uint64_t i = 0; i < some; i++) ids[i] = is_falling ? 2 + count - from - i : 2 + from + i;
        write_attribute(ATTRIBUTE, IDENTIFIER | TIME, 0, ids, some);
    }
    write_sample(2, 2000);
}

static void write_ids_up(uint64_t count) { write_ids(count, 8000, 0); }

static void write_ids_down(uint64_t count) { write_ids(count, 8000, 1); }

static void write_single_up(uint64_t count) { write_ids(count, 1, 0); }

static void write_single_down(uint64_t count) { write_ids(count, 1, 1); }

// A file with that many attributes, in the attribute section, or in the event types section with an identifier each.
static void write_section(uint64_t count, int has_ids) {
    unsigned char attribute[ATTRIBUTE];
    uint64_t entry = ATTRIBUTE + (has_ids ? 16 : 0), ids = HEADER + entry * count, records = ids + (has_ids ? 8 * count : 0);
    uint64_t fields[] = {HEADER, ATTRIBUTE, HEADER, has_ids ? 0 : entry * count, records, 24, HEADER, has_ids ? entry * count : 0, 0, 0, 0, 0};
    write_bytes("PERFILE2", 8);
    for (size_t i = 0; i < sizeof fields / sizeof *fields; i++) write_number(fields[i], 8);
    put_attribute(attribute, sizeof attribute, IDENTIFIER | TIME, 0);
    for (uint64_t index = 0; index < count; index++) {
        write_bytes(attribute, sizeof attribute);
        if (!has_ids) continue;
        write_number(ids + 8 * index, 8);
        write_number(8, 8);
    }
    for (uint64_t index = 0; has_ids && index < count; index++) write_number(1 + index, 8);
    write_sample(1, 1000);
}

static void write_attribute_section(uint64_t count) { write_section(count, 0); }

static void write_types(uint64_t count) { write_section(count, 1); }

static void write_pmu(uint64_t count) {
    unsigned char attribute[ATTRIBUTE];
    uint64_t records = HEADER + ATTRIBUTE, section = records + 24 + 16;
    uint64_t fields[] = {HEADER, ATTRIBUTE, HEADER, ATTRIBUTE, records, 24, 0, 0, 1 << PMU_MAPPINGS, 0, 0, 0};
    write_bytes("PERFILE2", 8);
    for (size_t i = 0; i < sizeof fields / sizeof *fields; i++) write_number(fields[i], 8);
    put_attribute(attribute, sizeof attribute, IDENTIFIER | TIME, 0);
    write_bytes(attribute, sizeof attribute);
    write_sample(1, 1000);
    write_number(section, 8);
    write_number(4 + count * (4 + 4 + 4), 8);
    write_number(count, 4);
    for (uint64_t number = count; number > 0; number--) {
        write_number(number, 4);
        write_number(4, 4);
        write_bytes("pmu", 4);
    }
}

// ---- jitdump

static size_t put_jit_head(unsigned char *at, uint64_t kind, size_t size, uint64_t time) {
    put(at, kind, 4);
    put(at + 4, size, 4);
    put(at + 8, time, 8);
    return size;
}

// A load record of 100 to 20,000 bytes. Small ones are more frequent.
static size_t put_load(unsigned char *at, uint64_t number, uint64_t *state) {
    size_t most = 100 + 19900 / (1 + next(state) % 10), size = 100 + next(state) % (most - 99);
    char name[44];
    size_t named = (size_t)snprintf(name, sizeof name, "LazyCompile:*f%" PRIu64 " app.js:%" PRIu64, number, number % 5000) + 1;
    put(at + 16, 7, 4);
    put(at + 20, 7, 4);
    put(at + 24, 0x10000 + number * 64, 8);
    put(at + 32, 0x10000 + number * 64, 8);
    put(at + 40, size - 56 - named, 8);
    put(at + 48, number, 8);
    memset(at + 56, (int)(number % 256), size - 56);
    memcpy(at + 56, name, named);
    return size;
}

static size_t put_debug_info(unsigned char *at, uint64_t number, uint64_t *state) {
    uint64_t count = 1 + next(state) % 40;
    put(at + 16, 0x10000 + number * 64, 8);
    put(at + 24, count, 8);
    size_t size = 32;
    for (uint64_t i = 0; i < count; i++) {
        put(at + size, 0x10000 + number * 64 + 4 * i, 8);
        put(at + size + 8, i, 4);
        put(at + size + 12, 0, 4);
        memcpy(at + size + 16, "app.js", 7);
        size += 16 + 7;
    }
    return size;
}

static size_t put_move(unsigned char *at, uint64_t number) {
    uint64_t words[] = {0x700000007, 0x10000, 0x10000, 0x20000 + number, 64, number};
    for (size_t i = 0; i < 6; i++) put(at + 16 + 8 * i, words[i], 8);
    return 64;
}

enum { JIT_HEADER = 40 };

static void write_jit_header(void) {
    unsigned char header[JIT_HEADER] = "DTiJ";
    put(header + 4, 1, 4);
    put(header + 8, sizeof header, 4);
    put(header + 12, 62, 4);
    put(header + 20, 7, 4);
    write_bytes(header, sizeof header);
}

static void write_jit(uint64_t wanted) {
    write_jit_header();
    uint64_t state = 1, size = JIT_HEADER;
    for (uint64_t number = 0; size < wanted; number++) {
        static unsigned char record[32768];
        uint64_t choice = next(&state) % 8, kind = choice < 5 ? 0 : choice < 7 ? 2 : 1;
        size_t length = kind == 0 ? put_load(record, number, &state) : kind == 2 ? put_debug_info(record, number, &state) : put_move(record, number);
        put_jit_head(record, kind, length, 1000000000 + 500 * number);
        write_bytes(record, length);
        size += length;
    }
}

int main(int argc, char **argv) {
    static const struct { const char *name; void (*write)(uint64_t); } kinds[] = {
        {"one", write_one}, {"small", write_small}, {"events", write_events}, {"chains", write_chains}, {"rounds", write_rounds},
        {"pipe", write_pipe}, {"pipe-events", write_pipe_events},
        {"late", write_late}, {"late-named", write_late_named}, {"described", write_described}, {"opening", write_opening}, {"renamed", write_renamed},
        {"ids-up", write_ids_up}, {"ids-down", write_ids_down}, {"single-up", write_single_up}, {"single-down", write_single_down},
        {"attributes", write_attribute_section}, {"types", write_types}, {"pmu", write_pmu},
        {"jit", write_jit},
    };
    if (argc != 4) return 1;
    out = fopen(argv[2], "wb");
    if (!out) return 1;
    for (size_t i = 0; i < sizeof kinds / sizeof *kinds; i++) {
        if (strcmp(argv[1], kinds[i].name)) continue;
        kinds[i].write(strtoull(argv[3], NULL, 10));
        return fclose(out) ? 1 : 0;
    }
    return 1;
}
