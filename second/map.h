/* Maps from numbers to objects, and the hashing of numbers. */
#ifndef MAP_H
#define MAP_H

#include <stdbool.h>
#include <stddef.h>
#include <stdint.h>

/* Chosen anew in each run, so that no log can be made whose objects all fall into one bucket. */
extern uint64_t hash_seed;

void choose_hash_seed(void);

/* A number of which each bit depends on each bit of the one given. */
static inline uint64_t mixed(uint64_t number)
{
    number ^= hash_seed;
    number = (number ^ number >> 33) * 0xff51afd7ed558ccd;
    number = (number ^ number >> 33) * 0xc4ceb9fe1a85ec53;
    return number ^ number >> 33;
}

typedef struct {
    uint64_t key;
    uint32_t value, age;
} Entry;

/* An entry of another age than the map's counts as absent, so that a map is emptied at no cost. */
typedef struct {
    Entry *entries;
    size_t capacity, count; /* the capacity is a power of 2, or 0 */
    uint32_t age;
} Map;

void empty(Map *map);

/* Is the key there? If so the value is what was put for it. */
bool find(const Map *map, uint64_t key, uint32_t *value);

/* Puts this value for a key that has none, and says whether it had none. */
bool put(Map *map, uint64_t key, uint32_t value);

/* Puts another value for a key that has one. */
void replace(Map *map, uint64_t key, uint32_t value);

#endif
