// A simple reader of jitdump files with little-endian numbers. It reads the header and the body of each record, and prints the line
// `OFFSET TIME TYPE SIZE`, up to the first truncated record.
#include "bytes.h"
#include "stream.h"
#include <fcntl.h>

enum { HEADER = 40, HEAD = 16, LINE = 96 };

static Input in;
static Output out;

int main(int argc, char **argv) {
    if (argc != 2) return 1;
    in.file = open(argv[1], O_RDONLY);
    if (in.file < 0) return 2;
    unsigned char header[HEADER], head[HEAD], *body = NULL;
    size_t room = 0;
    if (take(&in, header, HEADER) != HEADER || memcmp(header, "DTiJ", 4)) return 2;
    uint64_t offset = get(header + 8, 4);
    if (go_to(&in, offset)) return 2;
    while (take(&in, head, HEAD) == HEAD) {
        uint64_t kind = get(head, 4), size = get(head + 4, 4), time = get(head + 8, 8);
        if (size < HEAD) return 2;
        if (size > room && !(body = realloc(body, room = size))) return 2;
        if (take(&in, body, size - HEAD) != size - HEAD) break;
        char *end = room_for(&out, LINE);
        end = put_number(end, offset, ' ');
        end = put_number(end, time, ' ');
        end = put_number(end, kind, ' ');
        end = put_number(end, size, '\n');
        filled_up_to(&out, end);
        offset += size;
    }
    flush(&out);
    return 0;
}
