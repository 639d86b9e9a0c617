#include "objects.h"

#include "map.h"

#include <stdlib.h>
#include <string.h>

Cell *cells;
char *texts;
Object too_large;

static size_t cell_count, cell_capacity, text_count, text_capacity, bucket_count;
static uint32_t *buckets;

static uint64_t hash_of_text(int kind, const char *text, size_t length)
{
    uint64_t hash = hash_seed + (uint64_t)kind;
    for (size_t i = 0; i < length; i++)
        hash = (hash ^ (unsigned char)text[i]) * 0x100000001b3;
    return mixed(hash);
}

static uint64_t hash_of_pair(Object left, Object right)
{
    return mixed((uint64_t)left << 32 | right);
}

static uint64_t hash_of_cell(const Cell *cell)
{
    return cell->kind == PAIR ? hash_of_pair(cell->left, cell->right)
                              : hash_of_text(cell->kind, texts + cell->left, cell->right);
}

/* Makes as many buckets as the table has room for, and puts all cells into them. */
static void make_buckets(size_t count)
{
    free(buckets);
    buckets = calloc(count, sizeof *buckets);
    if (!buckets)
        finish(OUT_OF_MEMORY);
    bucket_count = count;
    for (size_t i = 1; i < cell_count; i++) {
        uint32_t *bucket = &buckets[hash_of_cell(&cells[i]) & (count - 1)];
        cells[i].next = *bucket;
        *bucket = (uint32_t)i;
    }
}

static Object new_cell(Cell cell, uint64_t hash)
{
    take_looks(LOOKS_PER_CELL);
    if (cell_count >= UINT32_MAX)
        finish(OUT_OF_MEMORY);
    cells = with_room(cells, &cell_capacity, cell_count + 1, sizeof *cells);
    if (cell_count >= bucket_count)
        make_buckets(bucket_count ? bucket_count * 2 : 1024);
    uint32_t *bucket = &buckets[hash & (bucket_count - 1)];
    cell.next = *bucket;
    cells[cell_count] = cell;
    return *bucket = (uint32_t)cell_count++;
}

static Object atom(int kind, const char *text, size_t length)
{
    uint64_t hash = hash_of_text(kind, text, length);
    for (Object i = buckets[hash & (bucket_count - 1)]; i != NO_OBJECT; i = cells[i].next)
        if (cells[i].kind == kind && cells[i].right == length &&
            memcmp(texts + cells[i].left, text, length) == 0)
            return i;
    if (length > UINT32_MAX - text_count)
        finish(OUT_OF_MEMORY);
    texts = with_room(texts, &text_capacity, text_count + length, 1);
    memcpy(texts + text_count, text, length);
    Cell cell = { .left = (uint32_t)text_count, .right = (uint32_t)length, .kind = (uint8_t)kind };
    text_count += length;
    return new_cell(cell, hash);
}

Object symbol(const char *name, size_t length) { return atom(SYMBOL, name, length); }

static const char limit[] = "340282366920938463463374607431768211456";
enum { LIMIT_DIGITS = sizeof limit - 1 };

Object natural(const char *digits, size_t length)
{
    for (; length > 1 && *digits == '0'; length--)
        digits++;
    bool is_large =
        length > LIMIT_DIGITS || (length == LIMIT_DIGITS && memcmp(digits, limit, length) >= 0);
    return is_large ? too_large : atom(NATURAL, digits, length);
}

void begin_objects(void)
{
#define AS_NAME(constant, name) name,
    static const char *const names[] = { NAMED_SYMBOLS(AS_NAME) };
    cells = with_room(cells, &cell_capacity, 1, sizeof *cells);
    cells[cell_count++] = (Cell){ .kind = NATURAL }; /* NO_OBJECT, which stands in no bucket */
    make_buckets(1024);
    for (size_t i = 0; i < sizeof names / sizeof *names; i++)
        symbol(names[i], strlen(names[i]));
    too_large = atom(NATURAL, limit, LIMIT_DIGITS);
}

Object cons(Object left, Object right)
{
    uint64_t hash = hash_of_pair(left, right);
    for (Object i = buckets[hash & (bucket_count - 1)]; i != NO_OBJECT; i = cells[i].next)
        if (cells[i].left == left && cells[i].right == right && cells[i].kind == PAIR)
            return i;
    uint32_t size = is_list(right) ? count_members(right) + 1 : NO_LIST;
    return new_cell((Cell){ .left = left, .right = right, .size = size, .kind = PAIR }, hash);
}

Object member(Object list, int place)
{
    for (; place > 0; place--)
        list = cdr(list);
    return car(list);
}

Object list_of_two(Object a, Object b) { return cons(a, cons(b, NIL)); }
Object list_of_three(Object a, Object b, Object c) { return cons(a, list_of_two(b, c)); }
Object equation(Object a, Object b) { return list_of_three(PEQUAL, a, b); }
Object denial(Object a) { return list_of_two(PNOT, a); }
Object disjunction(Object a, Object b) { return list_of_three(POR, a, b); }
Object quoted(Object a) { return list_of_two(QUOTE, a); }

Object list_of(const Vector *vector)
{
    Object list = NIL;
    for (size_t i = vector->count; i > 0; i--)
        list = cons((Object)vector->items[i - 1], list);
    return list;
}

size_t small_number(Object x)
{
    if (!is_natural(x) || cells[x].right > 18)
        return SIZE_MAX;
    uint64_t number = 0;
    for (size_t i = 0; i < cells[x].right; i++)
        number = number * 10 + (uint64_t)(texts[cells[x].left + i] - '0');
    return number < SIZE_MAX ? (size_t)number : SIZE_MAX;
}
