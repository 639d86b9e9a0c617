#include "bytes.h"

#include "memory.h"

#include <string.h>

Source source;

/*
 * A text may have this many bytes. It is looked at when bytes are fetched, at offsets that divide
 * it.
 */
static const uint64_t most_bytes = (uint64_t)1 << 40;

static void begin(const char *bytes, size_t length, bool is_input)
{
    source = (Source){ .bytes = bytes, .length = length, .is_input = is_input };
    looks_left += LOOKS_PER_BYTE * (uint64_t)length;
}

void read_from_text(const char *text) { begin(text, strlen(text), false); }

void read_from_input(void) { begin("", 0, true); }

int fetch(void)
{
    static char buffer[1 << 16];
    if (!source.is_input)
        return EOF;
    source.length = fread(buffer, 1, sizeof buffer, stdin);
    source.place = 0;
    source.bytes = buffer;
    if (source.length == 0 && ferror(stdin))
        finish(READ_FAILED);
    if (source.length == 0)
        return EOF;
    if (source.offset >= most_bytes)
        fault("LENGTH", most_bytes);
    looks_left += LOOKS_PER_BYTE * (uint64_t)source.length;
    return (unsigned char)source.bytes[0];
}

_Noreturn void fault(const char *kind, uint64_t offset)
{
    printf("syntax %s at %llu\n", kind, (unsigned long long)offset);
    finish(FAULT);
}
