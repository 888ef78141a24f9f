/*
 * plain_index.c: the index by hand: one pass over the table, with a bit for each of the 65,536 numbers, and one decode of the run.
 * Nothing is proved of it; bench.c compares its answers with the library's.
 */
#include <string.h>

#include "plain.h"

#define MOST_ENTRIES 512

/* What a pass over a sound table finds: how many entries are used, and the number's entry, or the number of entries where it has none. */
struct look {
    size_t used, at;
};

/* Answers 0 if the table is broken. */
static int look_through(const siamrung_entry *table, size_t entries, uint32_t number, struct look *look)
{
    uint64_t held[65536 / 64];
    size_t i;

    if (entries > MOST_ENTRIES)
        return 0;
    memset(held, 0, sizeof held);
    look->at = entries;
    for (i = 0; i < entries && table[i].number != 0; i++) {
        unsigned n = table[i].number;
        uint64_t bit = (uint64_t)1 << n % 64;
        if (held[n / 64] & bit)
            return 0;
        held[n / 64] |= bit;
        if (n == number)
            look->at = i;
    }
    look->used = i;
    for (; i < entries; i++)
        if (table[i].number != 0)
            return 0;
    return 1;
}

static uint32_t answer(uint32_t done, size_t entry)
{
    return done + 256 * (uint32_t)entry;
}

uint32_t plain_index_enter(siamrung_entry *table, size_t entries, const uint8_t *bytes, size_t length, size_t place, uint32_t form,
                           uint32_t link, uint32_t scan)
{
    struct plain_outcome o;
    struct look look;
    uint32_t number, done;

    plain_read(bytes, length, place, form, link, &o);
    number = plain_items_of(o.kind) >> SIAMRUNG_ITEM_FILE & 1 ? (uint32_t)o.item[SIAMRUNG_ITEM_FILE] : 0;
    if (!look_through(table, entries, number, &look))
        return SIAMRUNG_INDEX_REFUSAL_TABLE_BROKEN;
    if (number == 0)
        return SIAMRUNG_INDEX_LEFT;
    done = SIAMRUNG_INDEX_REPLACED;
    if (look.at == entries) {
        if (look.used == entries)
            return SIAMRUNG_INDEX_REFUSAL_TABLE_FULL;
        look.at = look.used;
        done = SIAMRUNG_INDEX_ENTERED;
    }
    table[look.at] = (siamrung_entry){(uint16_t)number, (uint16_t)o.kind, scan, o.first};
    return answer(done, look.at);
}

uint32_t plain_index_find(const siamrung_entry *table, size_t entries, uint32_t number)
{
    struct look look;

    if (!look_through(table, entries, number, &look))
        return SIAMRUNG_INDEX_REFUSAL_TABLE_BROKEN;
    return look.at == entries ? SIAMRUNG_INDEX_MISSING : answer(SIAMRUNG_INDEX_FOUND, look.at);
}
