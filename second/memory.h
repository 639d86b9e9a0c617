/* How the program ends, memory that grows, and how much work a log may cause. */
#ifndef MEMORY_H
#define MEMORY_H

#include <stddef.h>
#include <stdint.h>

/* The statuses that the program ends with. */
enum { GOOD = 0, BAD = 1, FAULT = 3, READ_FAILED = 4, WRITE_FAILED = 5, OUT_OF_MEMORY = 6 };

/* Hands on what was written and ends the program: with this status, or with WRITE_FAILED. */
_Noreturn void finish(int status);

/*
 * Makes room for as many items as are needed, each of that size, and answers where they are now.
 * The capacity at least doubles, so that growing costs linear time. Where there is no memory the
 * program ends.
 */
void *with_room(void *items, size_t *capacity, size_t needed, size_t size);

/* A vector of numbers, which stand for objects or for what is to be done with them. */
typedef struct {
    uint64_t *items;
    size_t count, capacity;
} Vector;

static inline void push(Vector *vector, uint64_t item)
{
    if (vector->count == vector->capacity)
        vector->items =
            with_room(vector->items, &vector->capacity, vector->count + 1, sizeof *vector->items);
    vector->items[vector->count++] = item;
}

static inline uint64_t pop(Vector *vector) { return vector->items[--vector->count]; }

/*
 * Work is counted in looks: each time that a walk looks at an object is one, and each new object
 * is 32. A run may take FIRST_LOOKS, and LOOKS_PER_BYTE more for each byte that was read; past them
 * it ends as out of memory. So time and memory stay in proportion to the log, however its labels
 * share.
 */
enum { FIRST_LOOKS = 1 << 26, LOOKS_PER_BYTE = 256, LOOKS_PER_CELL = 32 };

extern uint64_t looks_left;

static inline void take_looks(uint64_t count)
{
    if (looks_left < count)
        finish(OUT_OF_MEMORY);
    looks_left -= count;
}

#endif
