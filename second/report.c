#include "report.h"

#include "tokens.h"

#include <stdio.h>
#include <string.h>

/* The most bytes that are written of a symbol. */
enum { MOST_SHOWN = 65536 };

/* Is a symbol of this name read from the name alone, without bars? */
static bool is_bare(const char *name, size_t length)
{
    for (size_t i = 0; i < length; i++)
        if (!is_token_byte((unsigned char)name[i]) || is_small_letter(name[i]))
            return false;
    return kind_of_token(name, length) == A_NAME;
}

/* Writes a symbol as a log spells it, and a dash for what is none or would be too long. */
static void write_symbol(Object x)
{
    const char *name = texts + cells[x].left;
    size_t length = cells[x].right;
    if (!is_symbol(x) || length > MOST_SHOWN) {
        printf("-");
        return;
    }
    const char *bars = is_bare(name, length) ? "" : "|";
    if (length + 2 * strlen(bars) > MOST_SHOWN)
        printf("-");
    else
        printf("%s%.*s%s", bars, (int)length, name, bars);
}

void write_line(uint64_t number, Object event, const char *answer)
{
    Object word = is_pair(event) ? car(event) : (Object)NO_OBJECT;
    bool is_named = word == VERIFY || word == DEFINE || word == SKOLEM || word == SWITCH;
    printf("%llu ", (unsigned long long)number);
    write_symbol(word);
    printf(" ");
    write_symbol(is_named && is_pair(cdr(event)) ? member(event, 1) : (Object)NO_OBJECT);
    printf(" %s\n", answer);
    if (ferror(stdout))
        finish(WRITE_FAILED);
}

void write_summary(uint64_t events, uint64_t accepted, uint64_t steps_left)
{
    printf("events %llu yes %llu no %llu left %llu\n", (unsigned long long)events,
           (unsigned long long)accepted, (unsigned long long)(events - accepted),
           (unsigned long long)steps_left);
}
