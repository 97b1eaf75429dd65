// An input and an output with a buffer of 64 KiB each, over read(2) and write(2). Short copies are inlined.
#ifndef STREAM_H
#define STREAM_H
#include <errno.h>
#include <stdlib.h>
#include <string.h>
#include <unistd.h>

enum { BUFFER = 65536 };

typedef struct {
    int file;
    size_t from, to;
    unsigned char bytes[BUFFER];
} Input;

typedef struct {
    size_t used;
    char bytes[BUFFER];
} Output;

static size_t read_some(int file, void *place, size_t count) {
    ssize_t came;
    do came = read(file, place, count);
    while (came < 0 && errno == EINTR);
    if (came < 0) exit(2);
    return (size_t)came;
}

static size_t take_more(Input *in, unsigned char *place, size_t count) {
    size_t taken = in->to - in->from;
    memcpy(place, in->bytes + in->from, taken);
    in->from = in->to = 0;
    while (taken < count) {
        if (count - taken >= BUFFER) {
            size_t came = read_some(in->file, place + taken, count - taken);
            if (came == 0) break;
            taken += came;
            continue;
        }
        in->from = 0;
        in->to = read_some(in->file, in->bytes, BUFFER);
        if (in->to == 0) break;
        size_t part = in->to < count - taken ? in->to : count - taken;
        memcpy(place + taken, in->bytes, part);
        in->from = part;
        taken += part;
    }
    return taken;
}

// Reads `count` bytes, or fewer if the input ends, and returns their number.
static inline size_t take(Input *in, void *place, size_t count) {
    if (in->to - in->from < count) return take_more(in, place, count);
    memcpy(place, in->bytes + in->from, count);
    in->from += count;
    return count;
}

static void flush(Output *out) {
    for (size_t written = 0; written < out->used;) {
        ssize_t some = write(1, out->bytes + written, out->used - written);
        if (some < 0 && errno != EINTR) exit(2);
        if (some > 0) written += (size_t)some;
    }
    out->used = 0;
}

// Returns the unused part of the buffer, with capacity for `count` bytes.
static inline char *room_for(Output *out, size_t count) {
    if (BUFFER - out->used < count) flush(out);
    return out->bytes + out->used;
}

static inline void filled_up_to(Output *out, const char *end) { out->used = (size_t)(end - out->bytes); }

// Seeks to an offset from the input's first byte.
static int go_to(Input *in, uint64_t place) {
    in->from = in->to = 0;
    return lseek(in->file, (off_t)place, SEEK_SET) < 0;
}

#endif
