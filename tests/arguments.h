// Arguments for what a test doesn't need. No pointer may be NULL.
#ifndef ARGUMENTS_H
#define ARGUMENTS_H
#include "dewikura.h"

static uint64_t unneeded[3][4];

// An array of capacity 0, one of two results that nothing reads, and the cursor before the first record.
#define NONE ((void *)unneeded[2])
#define IGNORED(index) ((void *)unneeded[index])
#define FIRST (&(struct dewikura_cursor){0, 0})

#endif
