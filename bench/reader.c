// A simple reader of perf.data: `reader file PATH`, or `reader pipe` for a pipe on standard input, both with little-endian numbers.
// It reads the header and the body of each record, and prints the record's line. The attributes are those of EVENT_DESC, or the one of
// the attribute section, or those of records in a pipe. The identifiers are in an array in ascending order.
#include "bytes.h"
#include "stream.h"
#include <fcntl.h>

enum { ATTR = 64, FEATURE = 80, SAMPLE = 9, FINISHED_ROUND = 68, FIRST_OF_TOOLS = 64, EVENT_DESC = 12, LINE = 160 };

static Input in;
static Output out;

typedef struct { uint64_t id, index; } Pair;

static Pair *pairs;
static size_t count_pairs, room_pairs;
static uint64_t count_attributes;
// the offsets of a record's u64 fields in bytes, or -1
static long time_in_sample, id_in_sample, time_from_end, id_from_end;

static int is_set(uint64_t bits, int bit) { return bits >> bit & 1; }

static void fail(void) {
    flush(&out);
    exit(2);
}

static void read_exactly(void *place, size_t count) {
    if (take(&in, place, count) != count) fail();
}

static void seek(uint64_t place) {
    if (go_to(&in, place)) fail();
}

static void take_places(uint64_t type, uint64_t flags) {
    int of_identifier = is_set(type, 16), of_id = is_set(type, 6), of_time = is_set(type, 2), is_all = is_set(flags, 18);
    int front = of_identifier + is_set(type, 0) + is_set(type, 1), back = is_set(type, 9) + is_set(type, 7) + of_identifier;
    time_in_sample = of_time ? 8 * front : -1;
    time_from_end = of_time && is_all ? 8 * (1 + of_id + back) : -1;
    id_in_sample = of_identifier ? 0 : of_id ? 8 * (front + of_time + is_set(type, 3)) : -1;
    id_from_end = !is_all ? -1 : of_identifier ? 8 : of_id ? 8 * (1 + back) : -1;
}

// Returns the number of pairs with a smaller identifier.
static size_t rank_of(uint64_t id) {
    size_t from = 0, to = count_pairs;
    while (from < to) {
        size_t middle = from + (to - from) / 2;
        if (pairs[middle].id < id) from = middle + 1;
        else to = middle;
    }
    return from;
}

static uint64_t index_of(uint64_t id) {
    size_t rank = rank_of(id);
    return rank < count_pairs && pairs[rank].id == id ? pairs[rank].index : 0;
}

static void put_id(uint64_t id, uint64_t index) {
    size_t rank = rank_of(id);
    if (rank == count_pairs || pairs[rank].id != id) {
        if (count_pairs == room_pairs) {
            room_pairs = room_pairs ? 2 * room_pairs : 64;
            pairs = realloc(pairs, room_pairs * sizeof *pairs);
            if (!pairs) fail();
        }
        memmove(pairs + rank + 1, pairs + rank, (count_pairs - rank) * sizeof *pairs);
        count_pairs++;
    }
    pairs[rank] = (Pair){id, index};
}

static void take_attribute(const unsigned char *attribute) {
    if (count_attributes++ == 0) take_places(get(attribute + 24, 8), get(attribute + 40, 8));
}

static uint64_t read_number(int count) {
    unsigned char bytes[8];
    read_exactly(bytes, (size_t)count);
    return get(bytes, count);
}

static void read_descriptions(void) {
    uint64_t events = read_number(4), size = read_number(4);
    for (uint64_t event = 0; event < events; event++) {
        unsigned char attribute[4096];
        if (size < 64 || size > sizeof attribute) fail();
        read_exactly(attribute, size);
        uint64_t ids = read_number(4), name = read_number(4);
        while (name-- > 0) read_number(1);
        take_attribute(attribute);
        for (uint64_t i = 0; i < ids; i++) put_id(read_number(8), event);
    }
}

// Reads the bytes before the records, and returns the size of the records in bytes.
static uint64_t open_file(void) {
    unsigned char header[104], attribute[64];
    read_exactly(header, sizeof header);
    if (memcmp(header, "PERFILE2", 8)) fail();
    uint64_t records = get(header + 40, 8), size = get(header + 48, 8), features = get(header + 72, 8);
    if (is_set(features, EVENT_DESC)) {
        uint64_t before = features & ((1 << EVENT_DESC) - 1), entry = 0;
        for (; before; before &= before - 1) entry++;
        seek(records + size + 16 * entry);
        seek(read_number(8));
        read_descriptions();
    } else {
        seek(get(header + 24, 8));
        read_exactly(attribute, sizeof attribute);
        take_attribute(attribute);
    }
    seek(records);
    return size;
}

// Reads an attribute from a record.
static void take_record(const unsigned char *body, size_t length) {
    if (length < 64) fail();
    uint64_t size = get(body + 4, 4);
    if (size < 64 || size > length) fail();
    uint64_t index = count_attributes;
    take_attribute(body);
    for (size_t at = size; at + 8 <= length; at += 8) put_id(get(body + at, 8), index);
}

// Reads the metadata records at the start of a pipe, and the header of the first other record into `head`.
static int open_pipe(unsigned char *head, unsigned char *body) {
    read_exactly(head, 8);
    if (memcmp(head, "PERFILE2", 8)) fail();
    read_exactly(head, 8);
    while (take(&in, head, 8) == 8) {
        uint64_t kind = get(head, 4), length = get(head + 6, 2);
        if (length < 8) fail();
        if (kind != ATTR && kind != FEATURE) return 1;
        read_exactly(body, length - 8);
        if (kind == ATTR) take_record(body, length - 8);
    }
    return 0;
}

static void print_line(uint64_t offset, uint64_t round, const unsigned char *head, const unsigned char *body) {
    uint64_t kind = get(head, 4), misc = get(head + 4, 2), length = get(head + 6, 2) - 8;
    long time = -1, id = -1;
    if (kind == SAMPLE) {
        time = time_in_sample;
        id = id_in_sample;
    } else if (kind < FIRST_OF_TOOLS) {
        if (time_from_end >= 0) time = (long)length - time_from_end;
        if (id_from_end >= 0) id = (long)length - id_from_end;
    }
    char *end = put_number(put_number(room_for(&out, LINE), offset, ' '), round, ' ');
    if (time >= 0 && time + 8 <= (long)length) end = put_number(end, get(body + time, 8), ' ');
    else *end++ = '-', *end++ = ' ';
    if (kind >= FIRST_OF_TOOLS) *end++ = '-', *end++ = ' ';
    else end = put_number(end, id >= 0 && id + 8 <= (long)length ? index_of(get(body + id, 8)) : 0, ' ');
    end = put_number(put_number(put_number(end, kind, ' '), misc, ' '), length, '\n');
    filled_up_to(&out, end);
}

int main(int argc, char **argv) {
    int is_pipe = argc == 2 && !strcmp(argv[1], "pipe");
    if (!is_pipe && (argc != 3 || strcmp(argv[1], "file"))) return 1;
    in.file = is_pipe ? 0 : open(argv[2], O_RDONLY);
    if (in.file < 0) return 2;
    static unsigned char head[8], body[65536];
    uint64_t size = UINT64_MAX, offset = 0, round = 0;
    int is_held = 0;
    if (!is_pipe) size = open_file();
    else if (!(is_held = open_pipe(head, body))) return 0;
    while (offset < size) {
        if (!is_held && take(&in, head, 8) != 8) {
            if (is_pipe) break;
            fail();
        }
        is_held = 0;
        uint64_t kind = get(head, 4), length = get(head + 6, 2);
        if (length < 8) fail();
        if (take(&in, body, length - 8) != length - 8) {
            if (is_pipe) break;
            fail();
        }
        if (kind == FINISHED_ROUND) {
            round++;
        } else {
            if (is_pipe && kind == ATTR) take_record(body, length - 8);
            print_line(offset, round, head, body);
        }
        offset += length;
    }
    flush(&out);
    return 0;
}
