/* Decompresses the compressed records (types 81 and 83) of a perf.data file of this byte order by the C library of zstd, and prints the size of the content.
   The prototypes are those of zstd.h, so that the library is enough. */
#include <stdint.h>
#include <stdio.h>
#include <stdlib.h>
#include <string.h>

typedef struct { void *bytes; size_t size, position; } Out;
typedef struct { const void *bytes; size_t size, position; } In;
void *ZSTD_createDStream(void);
size_t ZSTD_decompressStream(void *, Out *, In *);
unsigned ZSTD_isError(size_t);

static uint64_t number(const unsigned char *bytes, size_t size) {
    uint64_t value = 0;
    memcpy(&value, bytes, size);
    return value;
}

int main(int count, char **words) {
    FILE *file = count == 2 ? fopen(words[1], "rb") : NULL;
    if (!file || fseek(file, 0, SEEK_END)) return 1;
    size_t size = (size_t)ftell(file);
    unsigned char *bytes = malloc(size);
    rewind(file);
    if (!bytes || fread(bytes, 1, size, file) != size || size < 104) return 1;
    static unsigned char content[1 << 17];
    void *stream = ZSTD_createDStream();
    uint64_t at = number(bytes + 40, 8), end = at + number(bytes + 48, 8), total = 0;
    if (end > size) return 1;
    while (end - at >= 8) {
        uint64_t type = number(bytes + at, 4), length = number(bytes + at + 6, 2);
        if (length < 8 || length > end - at) return 1;
        if (type == 81 || type == 83) {
            uint64_t start = type == 83 ? 16 : 8, data = type == 83 ? number(bytes + at + 8, 8) : length - 8;
            In in = {bytes + at + start, data, 0};
            Out out = {content, sizeof content, 0};
            do {
                out.position = 0;
                if (ZSTD_isError(ZSTD_decompressStream(stream, &out, &in))) return 1;
                total += out.position;
            } while (in.position < in.size || out.position == out.size);
        }
        at += length;
    }
    printf("%llu\n", (unsigned long long)total);
}
