#include "map.h"

#include "memory.h"

#include <stdlib.h>
#include <time.h>

uint64_t hash_seed;

void choose_hash_seed(void)
{
    struct timespec now = { 0, 0 };
    timespec_get(&now, TIME_UTC);
    hash_seed =
        mixed((uint64_t)now.tv_sec << 30 ^ (uint64_t)now.tv_nsec ^ (uint64_t)(uintptr_t)&now);
}

void empty(Map *map)
{
    map->count = 0;
    if (++map->age != 0)
        return;
    /* After 2^32 rounds the ages begin again, and an old entry would count as there. */
    map->age = 1;
    for (size_t i = 0; i < map->capacity; i++)
        map->entries[i].age = 0;
}

/* The entry of this key, or the free one where it would be put. */
static Entry *entry_of(const Map *map, uint64_t key)
{
    size_t place = mixed(key) & (map->capacity - 1);
    while (map->entries[place].age == map->age && map->entries[place].key != key)
        place = (place + 1) & (map->capacity - 1);
    return &map->entries[place];
}

bool find(const Map *map, uint64_t key, uint32_t *value)
{
    if (map->count == 0)
        return false;
    const Entry *entry = entry_of(map, key);
    if (entry->age != map->age)
        return false;
    *value = entry->value;
    return true;
}

/* Moves the entries of the map's age to a table twice as large. */
static void enlarge(Map *map)
{
    Map larger = { .capacity = map->capacity ? map->capacity * 2 : 64,
                   .count = map->count,
                   .age = 1 };
    larger.entries = calloc(larger.capacity, sizeof *larger.entries);
    if (!larger.entries)
        finish(OUT_OF_MEMORY);
    for (size_t i = 0; i < map->capacity && map->count > 0; i++)
        if (map->entries[i].age == map->age)
            *entry_of(&larger, map->entries[i].key) =
                (Entry){ map->entries[i].key, map->entries[i].value, 1 };
    free(map->entries);
    *map = larger;
}

bool put(Map *map, uint64_t key, uint32_t value)
{
    if (map->count >= map->capacity / 2)
        enlarge(map);
    Entry *entry = entry_of(map, key);
    if (entry->age == map->age)
        return false;
    *entry = (Entry){ key, value, map->age };
    map->count++;
    return true;
}

void replace(Map *map, uint64_t key, uint32_t value) { entry_of(map, key)->value = value; }
