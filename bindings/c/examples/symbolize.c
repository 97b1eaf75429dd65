// Prints how many samples of a perf.data file were taken in which function, as a table: `symbolize FILE`. The mapped files are read where they were
// while the file was recorded. For frames that were inlined, and for copies of stacks, see perffold.
#include "dewikura.h"
#include <stdio.h>
#include <stdlib.h>
#include <string.h>

struct bytes {
    char *data;
    size_t size;
};

// A mapped file with its symbols. Without any it has no symbols.
struct code {
    struct bytes file;
    struct dewikura_elf_symbol *symbols;
    uint64_t count;
};

// A function, and how many samples were taken in it.
struct line {
    char name[200];
    uint64_t samples;
};

static struct line *lines;
static size_t line_count;

static void *allocate(size_t count, size_t size)
{
    void *memory = calloc(count ? count : 1, size);
    if (!memory) {
        fprintf(stderr, "symbolize: out of memory\n");
        exit(1);
    }
    return memory;
}

// The bytes of a file, or none if it can't be read.
static struct bytes read_file(const char *path)
{
    struct bytes bytes = {NULL, 0};
    FILE *file = fopen(path, "rb");
    long size;
    if (!file) return bytes;
    if (fseek(file, 0, SEEK_END) == 0 && (size = ftell(file)) > 0) {
        rewind(file);
        bytes.data = (char *)allocate((size_t)size, 1);
        bytes.size = fread(bytes.data, 1, (size_t)size, file);
    }
    fclose(file);
    return bytes;
}

static struct code read_code(const char *path)
{
    struct code code = {read_file(path), NULL, 0};
    struct dewikura_elf_symbol none;
    uint64_t count;
    if (!code.file.data || dewikura_read_elf_symbols(code.file.data, code.file.size, &none, 0, &count) != DEWIKURA_OK) return code;
    code.symbols = (struct dewikura_elf_symbol *)allocate((size_t)count, sizeof *code.symbols);
    if (dewikura_read_elf_symbols(code.file.data, code.file.size, code.symbols, (size_t)count, &code.count) != DEWIKURA_OK) code.count = 0;
    return code;
}

// Writes the name of the function at an offset in a file: of the last symbol that contains it. Without one it is the path in brackets.
static void write_name(const struct code *code, const char *path, uint64_t offset, char *name, size_t capacity)
{
    uint64_t i, size;
    for (i = code->count; i-- > 0;) {
        const struct dewikura_elf_symbol *symbol = &code->symbols[i];
        const char *start = code->file.data + symbol->name_offset;
        if (offset < symbol->start || offset - symbol->start >= symbol->size) continue;
        if (dewikura_demangle(start, (size_t)symbol->name_size, DEWIKURA_STYLE_NAME, name, capacity - 1, &size) != DEWIKURA_OK || size == 0)
            size = (uint64_t)snprintf(name, capacity, "%.*s", (int)symbol->name_size, start);
        name[size < capacity ? size : capacity - 1] = 0;
        return;
    }
    snprintf(name, capacity, "[%s]", path);
}

static void count_sample(const char *name)
{
    size_t i = 0;
    while (i < line_count && strcmp(lines[i].name, name) != 0) i++;
    if (i == line_count) {
        lines = (struct line *)realloc(lines, (line_count + 1) * sizeof *lines);
        if (!lines) exit(1);
        snprintf(lines[i].name, sizeof lines[i].name, "%s", name);
        lines[i].samples = 0;
        line_count++;
    }
    lines[i].samples++;
}

static int by_samples(const void *left, const void *right)
{
    const struct line *a = (const struct line *)left, *b = (const struct line *)right;
    if (a->samples != b->samples) return a->samples < b->samples ? 1 : -1;
    return strcmp(a->name, b->name);
}

// The arrays of the stacks of a recording.
struct recording {
    struct dewikura_stack *stacks;
    struct dewikura_stack_frame *frames;
    struct dewikura_stack_mapping *mappings;
    char *text;
    struct dewikura_stack_totals totals;
};

static dewikura_status read_stacks(struct bytes input, struct recording *found)
{
    struct dewikura_stack_totals *totals = &found->totals;
    dewikura_status status;
    memset(totals, 0, sizeof *totals);
    for (;;) {
        struct dewikura_stack_totals room = *totals;
        found->stacks = (struct dewikura_stack *)allocate((size_t)room.stack_count, sizeof *found->stacks);
        found->frames = (struct dewikura_stack_frame *)allocate((size_t)room.frame_count, sizeof *found->frames);
        found->mappings = (struct dewikura_stack_mapping *)allocate((size_t)room.mapping_count, sizeof *found->mappings);
        found->text = (char *)allocate((size_t)room.text_size, 1);
        status = dewikura_read_file_stacks(input.data, input.size, found->stacks, (size_t)room.stack_count, found->frames,
            (size_t)room.frame_count, found->mappings, (size_t)room.mapping_count, found->text, (size_t)room.text_size, totals);
        if (memcmp(&room, totals, sizeof room) == 0) return status;
        free(found->stacks), free(found->frames), free(found->mappings), free(found->text);
    }
}

int main(int count, char **arguments)
{
    struct bytes input = count == 2 ? read_file(arguments[1]) : (struct bytes){NULL, 0};
    struct recording found;
    struct code *codes;
    char **paths, name[200];
    dewikura_status status;
    uint64_t i;
    if (!input.data) {
        fprintf(stderr, "usage: symbolize FILE\n");
        return 1;
    }
    status = read_stacks(input, &found);
    codes = (struct code *)allocate((size_t)found.totals.mapping_count, sizeof *codes);
    paths = (char **)allocate((size_t)found.totals.mapping_count, sizeof *paths);
    for (i = 0; i < found.totals.stack_count; i++) {
        const struct dewikura_stack *stack = &found.stacks[i];
        const struct dewikura_stack_frame *frame = &found.frames[stack->frames_start];
        if (stack->frames_count == 0 || frame->mapping == DEWIKURA_NO_MAPPING) {
            count_sample("[unknown]");
            continue;
        }
        if (!paths[frame->mapping]) {
            const struct dewikura_stack_mapping *mapping = &found.mappings[frame->mapping];
            char *path = paths[frame->mapping] = (char *)allocate((size_t)mapping->path_size + 1, 1);
            memcpy(path, found.text + mapping->path_offset, (size_t)mapping->path_size);
            codes[frame->mapping] = read_code(path);
        }
        write_name(&codes[frame->mapping], paths[frame->mapping], frame->file_offset, name, sizeof name);
        count_sample(name);
    }
    qsort(lines, line_count, sizeof *lines, by_samples);
    for (i = 0; i < line_count; i++) printf("%8llu %s\n", (unsigned long long)lines[i].samples, lines[i].name);
    if (status != DEWIKURA_OK) fprintf(stderr, "symbolize: the recording has an error (%u)\n", (unsigned)status);
    for (i = 0; i < found.totals.mapping_count; i++) free(codes[i].file.data), free(codes[i].symbols), free(paths[i]);
    free(codes), free(paths), free(lines), free(input.data);
    free(found.stacks), free(found.frames), free(found.mappings), free(found.text);
    return status != DEWIKURA_OK;
}
