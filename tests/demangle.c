// Writes the text of each mangled name on standard input, one a line, by dewikura_demangle: `demangle [--parameters]`. Other lines stay as
// they are. Each text is also written into an array of half its size, whose end stays as it is.
#include "dewikura.h"
#include <stdio.h>
#include <stdlib.h>
#include <string.h>

#define MAX_TEXT 65536

static char *input;
static size_t input_size;
static char text[MAX_TEXT], part[MAX_TEXT];

static void fail(const char *what)
{
    fprintf(stderr, "demangle.c: %s\n", what);
    exit(1);
}

static void read_input(void)
{
    size_t capacity = 1 << 16, count;
    input = (char *)malloc(capacity);
    while (input && (count = fread(input + input_size, 1, capacity - input_size, stdin)) > 0) {
        input_size += count;
        if (input_size == capacity) input = (char *)realloc(input, capacity *= 2);
    }
    if (!input) fail("out of memory");
}

// The name in an array of its size, so that the sanitizers see a read outside it.
static char *copy_of(const char *name, size_t size)
{
    char *copy = (char *)malloc(size ? size : 1);
    if (!copy) fail("out of memory");
    memcpy(copy, name, size);
    return copy;
}

static void check_half(const char *name, size_t size, uint32_t style, uint64_t text_size)
{
    uint64_t half_size = 0;
    size_t capacity = text_size / 2, i;
    memset(part, '#', text_size);
    if (dewikura_demangle(name, size, style, part, capacity, &half_size) != DEWIKURA_OK) fail("a status");
    if (half_size != text_size || memcmp(part, text, capacity) != 0) fail("a part of a text");
    for (i = capacity; i < text_size; i++)
        if (part[i] != '#') fail("a byte after an array");
}

static void write_line(const char *line, size_t size, uint32_t style)
{
    char *name = copy_of(line, size);
    uint64_t text_size = 1;
    if (dewikura_demangle(name, size, style, text, sizeof text, &text_size) != DEWIKURA_OK) fail("a status");
    if (text_size > MAX_TEXT) fail("the size of a text");
    check_half(name, size, style, text_size);
    fwrite(text_size ? text : name, 1, text_size ? text_size : size, stdout);
    putchar('\n');
    free(name);
}

int main(int count, char **arguments)
{
    uint32_t style = count > 1 && strcmp(arguments[1], "--parameters") == 0 ? DEWIKURA_STYLE_SIGNATURE : DEWIKURA_STYLE_NAME;
    size_t start = 0;
    read_input();
    while (start < input_size) {
        const char *end = (const char *)memchr(input + start, '\n', input_size - start);
        size_t size = end ? (size_t)(end - input) - start : input_size - start;
        write_line(input + start, size, style);
        start += size + 1;
    }
    free(input);
    return 0;
}
