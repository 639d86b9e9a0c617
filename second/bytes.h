/* The bytes that are read: those of standard input, or of a text of this program. */
#ifndef BYTES_H
#define BYTES_H

#include <stdbool.h>
#include <stddef.h>
#include <stdint.h>
#include <stdio.h>

typedef struct {
    const char *bytes; /* those at hand */
    size_t length, place;
    uint64_t offset; /* of the byte that comes next, counted from 0 */
    bool is_input;
} Source;

extern Source source;

void read_from_text(const char *text);
void read_from_input(void);

/* Fetches the bytes after those at hand, and answers the first of them, or EOF. */
int fetch(void);

/* Writes the last line of a report on a text with a fault, and ends the program. */
_Noreturn void fault(const char *kind, uint64_t offset);

/* The byte that comes next, or EOF. */
static inline int peek(void)
{
    return source.place < source.length ? (unsigned char)source.bytes[source.place] : fetch();
}

static inline void skip(void)
{
    source.place++;
    source.offset++;
}

#endif
