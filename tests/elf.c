// Prints the build id of an ELF file, and a line `START SIZE NAME` for each of its symbols, by dewikura_elf_build_id and dewikura_read_elf_symbols:
// `elf FILE`. Before, it makes the calls fail at each of their allocations in turn, and at all later ones: they return DEWIKURA_OUT_OF_MEMORY, the
// number is 0, and the array is unchanged. For bytes that are no ELF file, and for each truncation of the file's headers, they return an error.
#include "dewikura.h"
#include <stdio.h>
#include <stdlib.h>
#include <string.h>

void *__libc_malloc(size_t);
void *__libc_realloc(void *, size_t);

// Allocations count while is_counting, and fail from failing_request on.
static unsigned requests, failing_request = ~0u;
static int is_counting;

static int fails(void)
{
    return is_counting && ++requests >= failing_request;
}

void *malloc(size_t size) { return fails() ? NULL : __libc_malloc(size); }
void *realloc(void *old, size_t size) { return fails() ? NULL : __libc_realloc(old, size); }

static uint8_t *file;
static size_t file_size, capacity;
static struct dewikura_elf_symbol *symbols, *unchanged;
static uint8_t id[64];

static void fail(const char *what)
{
    fprintf(stderr, "elf.c: %s\n", what);
    exit(1);
}

static void *allocate(size_t size)
{
    void *memory = malloc(size ? size : 1);
    if (!memory) fail("out of memory");
    return memory;
}

static void read_file(const char *path)
{
    FILE *input = fopen(path, "rb");
    if (!input || fseek(input, 0, SEEK_END) != 0) fail("the file can't be opened");
    file_size = (size_t)ftell(input);
    rewind(input);
    file = (uint8_t *)allocate(file_size);
    if (fread(file, 1, file_size, input) != file_size) fail("the file can't be read");
    fclose(input);
}

// One of the calls, over the first bytes of the file.
static dewikura_status call(int reads_symbols, size_t size, uint64_t *number)
{
    dewikura_status status;
    requests = 0;
    is_counting = 1;
    status = reads_symbols ? dewikura_read_elf_symbols(file, size, symbols, capacity, number)
                           : dewikura_elf_build_id(file, size, id, sizeof id, number);
    is_counting = 0;
    return status;
}

static void check_memory(int reads_symbols, uint64_t wanted)
{
    uint64_t number = 1;
    memcpy(symbols, unchanged, capacity * sizeof *symbols);
    failing_request = 1;
    while (call(reads_symbols, file_size, &number) == DEWIKURA_OUT_OF_MEMORY) {
        if (number != 0 || memcmp(symbols, unchanged, capacity * sizeof *symbols) != 0) fail("written without memory");
        if (requests < failing_request) fail("out of memory, and no allocation failed");
        failing_request++;
        number = 1;
    }
    if (requests >= failing_request) fail("no error where an allocation failed");
    if (number != wanted) fail("another number");
    failing_request = ~0u;
}

static void check_errors(void)
{
    uint64_t number = 1;
    uint8_t first = file[0];
    size_t size;
    for (size = 0; size < 64; size++)
        if (call(1, size, &number) == DEWIKURA_OK || number != 0) fail("no error for a truncated header");
    if (call(1, 64, &number) != DEWIKURA_BAD_ELF || number != 0) fail("no error for truncated tables");
    file[0] ^= 1;
    if (call(1, file_size, &number) != DEWIKURA_NOT_ELF || number != 0) fail("no error for another magic");
    if (call(0, file_size, &number) != DEWIKURA_NOT_ELF || number != 0) fail("no error for another magic");
    file[0] = first;
}

int main(int count, char **arguments)
{
    uint64_t total, id_size, i;
    if (count != 2) return 1;
    read_file(arguments[1]);
    if (call(0, file_size, &id_size) != DEWIKURA_OK || id_size > sizeof id) fail("the build id");
    symbols = (struct dewikura_elf_symbol *)allocate(sizeof *symbols);
    if (call(1, file_size, &total) != DEWIKURA_OK) fail("the number of symbols");
    capacity = (size_t)total;
    symbols = (struct dewikura_elf_symbol *)allocate(capacity * sizeof *symbols);
    unchanged = (struct dewikura_elf_symbol *)allocate(capacity * sizeof *symbols);
    memset(unchanged, '#', capacity * sizeof *symbols);
    check_errors();
    check_memory(0, id_size);
    check_memory(1, total);
    for (i = 0; i < id_size; i++) printf("%02x", id[i]);
    printf("\n");
    for (i = 0; i < total; i++) {
        const struct dewikura_elf_symbol *symbol = &symbols[i];
        if (symbol->name_offset > file_size || symbol->name_size > file_size - symbol->name_offset) fail("a name outside the file");
        printf("%llu %llu %.*s\n", (unsigned long long)symbol->start, (unsigned long long)symbol->size, (int)symbol->name_size,
            (const char *)file + symbol->name_offset);
    }
    return 0;
}
