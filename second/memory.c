#include "memory.h"

#include <stdbool.h>
#include <stdio.h>
#include <stdlib.h>

uint64_t looks_left = FIRST_LOOKS;

_Noreturn void finish(int status)
{
    bool failed = fflush(stdout) != 0 || ferror(stdout);
    exit(failed ? WRITE_FAILED : status);
}

void *with_room(void *items, size_t *capacity, size_t needed, size_t size)
{
    if (needed <= *capacity)
        return items;
    if (needed > SIZE_MAX / 4 / size)
        finish(OUT_OF_MEMORY);
    *capacity = needed < 32 ? 64 : needed * 2;
    items = realloc(items, *capacity * size);
    if (!items)
        finish(OUT_OF_MEMORY);
    return items;
}
