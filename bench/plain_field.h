/*
 * plain_field.h: what plain_field.c and plain_field_write.c share: the known types by their code, and a field decoded.
 */
#ifndef PLAIN_FIELD_H
#define PLAIN_FIELD_H

#include "plain.h"

/* items are kept at their number less 200 */
#define FIELD_ITEMS 38
#define I(item) (SIAMRUNG_FIELD_ITEM_##item - 200)
#define FB(item) ((uint64_t)1 << I(item))

struct plain_type {
    uint8_t known;  /* a row of the table: 1 to the sensor, 2 from it */
    uint8_t step;   /* bits of a list entry, or 80 for an ELM's text */
    uint16_t base;  /* bits without them */
    uint64_t items; /* which items it has, a bit each */
};

extern const struct plain_type plain_types[256];

/* How many steps a field has by its items: entries, or ten bytes of text. */
static inline unsigned plain_steps(unsigned type, const uint64_t *v)
{
    switch (type) {
    case SIAMRUNG_TYPE_ELM_UPLINK:
    case SIAMRUNG_TYPE_ELM_DOWNLINK:
        return (unsigned)v[I(LENGTH)] + 1;
    case SIAMRUNG_TYPE_ALTIMETER_CORRECTION:
        return (unsigned)v[I(N)] + 1;
    case SIAMRUNG_TYPE_DABS_CONTROL_STATE:
        return (unsigned)(v[I(IP)] + v[I(IS)] + v[I(IU)]);
    case SIAMRUNG_TYPE_ATCRBS_CONTROL_STATE:
        return (unsigned)(v[I(ICA)] + v[I(IUA)]);
    default:
        return 0;
    }
}

/* A value that is not in use, of those items that the type has. */
int plain_unused(unsigned type, const uint64_t *v);

#endif
