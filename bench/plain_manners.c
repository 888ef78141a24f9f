/*
 * plain_manners.c: the manners of a line by hand, over the reader of plain_line.c: one decode of each run in a pass, and a switch on its kind.
 * It is there twice. One writes at once if the list has room for as many breaches as the line can have; else it counts in a pass and writes in a
 * second. So does the library. The other lists in one pass, on the stack, and copies the list: in C that is as easy, and faster if the list is small.
 * Nothing is proved of it; bench.c compares its answers with the library's.
 */
#include <string.h>

#include "plain.h"

#define NO_RULE 0

static uint32_t rule_broken(const struct plain_outcome *o)
{
    const int32_t *v = o->item;

    switch (o->kind) {
    case SIAMRUNG_KIND_ATCRBS_CD:
    case SIAMRUNG_KIND_ATCRBS_MTD:
    case SIAMRUNG_KIND_ATCRBS_RDAS:
        return v[SIAMRUNG_ITEM_MODE3A] ? SIAMRUNG_BREACH_SUBSTITUTION_MODE3A : NO_RULE;
    case SIAMRUNG_KIND_DABS:
        return v[SIAMRUNG_ITEM_RELAY] && v[SIAMRUNG_ITEM_CARRIED] >= 0 ? SIAMRUNG_BREACH_RELAY_WITHOUT_MODE_C : NO_RULE;
    case SIAMRUNG_KIND_DABS_CD:
    case SIAMRUNG_KIND_DABS_MTD:
    case SIAMRUNG_KIND_DABS_RDAS:
        return v[SIAMRUNG_ITEM_RELAY] && !v[SIAMRUNG_ITEM_MODE_C] ? SIAMRUNG_BREACH_RELAY_WITHOUT_MODE_C : NO_RULE;
    case SIAMRUNG_KIND_ATCRBS:
        return v[SIAMRUNG_ITEM_CARRIED] < 0 && v[SIAMRUNG_ITEM_ALTITUDE] == 0 ? SIAMRUNG_BREACH_MODE_C_ALL_ZEROS : NO_RULE;
    case SIAMRUNG_KIND_MAP:
        return v[SIAMRUNG_ITEM_STOP] < v[SIAMRUNG_ITEM_START] ? SIAMRUNG_BREACH_MAP_STOP_BELOW_START : NO_RULE;
    default:
        return NO_RULE;
    }
}

/* Goes from run to run until so many breaches have come, or the line ends; answers how many have come. Without a list it only counts. A breach has no
 * link: the line is read with link 0. */
static size_t go_through(const uint8_t *bytes, size_t length, uint32_t form, uint8_t *list, size_t most)
{
    struct plain_outcome o;
    size_t at, n = 0;
    uint32_t rule;

    for (at = 0; at < length / 2 && n < most; at = o.after) {
        plain_read(bytes, length, at, form, 0, &o);
        rule = rule_broken(&o);
        if (rule == NO_RULE)
            continue;
        if (list) {
            list[4 * n] = (uint8_t)(o.first >> 8);
            list[4 * n + 1] = (uint8_t)o.first;
            list[4 * n + 2] = 0;
            list[4 * n + 3] = (uint8_t)rule;
        }
        n++;
    }
    return n;
}

static uint32_t line_refusal(size_t length)
{
    if (length > 65536)
        return SIAMRUNG_REFUSAL_LINE_TOO_LONG;
    return length % 2 ? SIAMRUNG_REFUSAL_ODD_BYTE_COUNT : SIAMRUNG_REFUSAL_NONE;
}

static uint32_t answer(uint32_t done, size_t breaches)
{
    return done + 256 * (uint32_t)breaches;
}

/* A breach takes five words. The second pass ends at the last breach. */
uint32_t plain_manners(const uint8_t *bytes, size_t length, uint32_t form, uint8_t *list, size_t list_length)
{
    uint32_t refusal = line_refusal(length);
    size_t n;

    if (refusal != SIAMRUNG_REFUSAL_NONE)
        return refusal;
    if (list_length / 4 >= (length / 2 + 1) / 5)
        return answer(SIAMRUNG_MANNERS_LISTED, go_through(bytes, length, form, list, SIAMRUNG_MOST_BREACHES));
    n = go_through(bytes, length, form, NULL, SIAMRUNG_MOST_BREACHES);
    if (list_length / 4 < n)
        return answer(SIAMRUNG_MANNERS_REFUSAL_LIST_TOO_SMALL, n);
    go_through(bytes, length, form, list, n);
    return answer(SIAMRUNG_MANNERS_LISTED, n);
}

/* The 26,212 bytes on the stack are enough for every line. */
uint32_t plain_once_manners(const uint8_t *bytes, size_t length, uint32_t form, uint8_t *list, size_t list_length)
{
    uint8_t found[4 * SIAMRUNG_MOST_BREACHES];
    uint32_t refusal = line_refusal(length);
    size_t n;

    if (refusal != SIAMRUNG_REFUSAL_NONE)
        return refusal;
    n = go_through(bytes, length, form, found, SIAMRUNG_MOST_BREACHES);
    if (list_length / 4 < n)
        return answer(SIAMRUNG_MANNERS_REFUSAL_LIST_TOO_SMALL, n);
    if (n)
        memcpy(list, found, 4 * n);
    return answer(SIAMRUNG_MANNERS_LISTED, n);
}
