/*
 * plain_write.c: the writer of a report by hand: the items into an array, one look at a table of widths, the words by shift and or.
 */
#include "plain.h"

#define V(item) ((unsigned)v[SIAMRUNG_ITEM_##item])
#define B(item) ((uint64_t)1 << SIAMRUNG_ITEM_##item)

static uint64_t be64(const uint8_t *b)
{
    uint64_t x = 0;
    int i;

    for (i = 0; i < 8; i++)
        x = x << 8 | b[i];
    return x;
}

uint64_t plain_take_items(const uint8_t *items, size_t length, uint64_t from, uint64_t below, int64_t *values)
{
    uint64_t given = 0;
    size_t i;

    if (length % 16)
        return 0;
    for (i = 0; i < length; i += 16) {
        uint64_t item = be64(items + i) - from;
        if (item >= below || given >> item & 1)
            return 0;
        given |= (uint64_t)1 << item;
        values[item] = (int64_t)be64(items + i + 8);
    }
    return given;
}

/* ---- how many bits an item has: by its number, and where the kind decides, by that */

static const uint8_t width_of[PLAIN_ITEMS] = {
    0, 1, 1, 1, 0, 0, 0, 0, 1, 2, 2, 11, 11, 12, 12, 12, 1, 1, 1, 1, 1, 1, 1, 1, 1, 24, 0, 1, 1, 12, 12, 0, 12, 0, 6, 6, 1,
};

unsigned plain_width(uint32_t kind, unsigned item)
{
    switch (item) {
    case SIAMRUNG_ITEM_RANGE:
        return kind < SIAMRUNG_KIND_DABS ? 11 : 15;
    case SIAMRUNG_ITEM_AZIMUTH:
        return kind < SIAMRUNG_KIND_DABS ? 12 : 13;
    case SIAMRUNG_ITEM_TIME:
        return kind == SIAMRUNG_KIND_SEARCH || kind >= SIAMRUNG_KIND_MTD ? 6 : kind < SIAMRUNG_KIND_DABS ? 5 : 4;
    case SIAMRUNG_ITEM_RUN:
        return kind == SIAMRUNG_KIND_STROBE || kind == SIAMRUNG_KIND_RTQC ? 7 : 3;
    case SIAMRUNG_ITEM_CONFIDENCE:
        return kind == SIAMRUNG_KIND_MTD ? 4 : 1;
    case SIAMRUNG_ITEM_QUALITY:
        return kind == SIAMRUNG_KIND_MTD || kind == SIAMRUNG_KIND_DABS_MTD || kind == SIAMRUNG_KIND_ATCRBS_MTD ? 2 : 4;
    default:
        return width_of[item];
    }
}

/* Only two's complement has -2048. */
static int altitude_fits(int64_t z, uint32_t form)
{
    return z >= (form == SIAMRUNG_FORM_SIGN_MAGNITUDE ? -2047 : -2048) && z <= 2047;
}

/* The items of a record that is one of the kind, else 0. */
static uint64_t take(uint32_t form, uint32_t kind, const uint8_t *items, size_t items_length, int64_t *v)
{
    uint64_t given = plain_take_items(items, items_length, 0, PLAIN_ITEMS, v);
    uint64_t all = plain_items_of(kind);
    uint64_t left;

    if (kind == SIAMRUNG_KIND_DABS || kind == SIAMRUNG_KIND_ATCRBS)
        all |= given & B(ALTITUDE) ? B(ALTITUDE) : B(CARRIED);
    if (all == 0 || given != all)
        return 0;
    for (left = given & ~B(ALTITUDE); left; left &= left - 1) {
        unsigned item = (unsigned)__builtin_ctzll(left);
        if ((uint64_t)v[item] >> plain_width(kind, item))
            return 0;
    }
    if (given & B(ALTITUDE) && !altitude_fits(v[SIAMRUNG_ITEM_ALTITUDE], form))
        return 0;
    return given;
}

/* ---- the words: twelve bits each, the parity bit comes last */

static unsigned four(uint32_t kind, const int64_t *v, unsigned *w)
{
    static const unsigned pattern[] = {0x6C, 0x60, 0, 0x30, 0x48};
    unsigned test = kind == SIAMRUNG_KIND_RTQC ? 1 : V(TEST);

    w[0] = test << 11 | pattern[kind - SIAMRUNG_KIND_SEARCH] << 2 | V(FAA) << 1 | V(AF);
    if (kind == SIAMRUNG_KIND_STATUS) {
        w[1] = V(SECOND);
        w[2] = V(THIRD);
        w[3] = V(FOURTH);
        return 4;
    }
    w[2] = V(AZIMUTH);
    if (kind == SIAMRUNG_KIND_MAP) {
        w[0] |= V(VARIATION) << 2;
        w[1] = V(START) << 1;
        w[3] = V(STOP) << 1;
        return 4;
    }
    w[1] = V(RANGE) << 1;
    if (kind == SIAMRUNG_KIND_SEARCH)
        w[3] = V(AIMS) << 11 | V(AIMS_CODE) << 9 | V(RUN) << 6 | V(TIME);
    else
        w[3] = V(RUN) << 5 | V(TIME);
    return 4;
}

static void radar(uint32_t kind, const int64_t *v, unsigned *w)
{
    w[0] |= 1;
    w[3] |= V(AIMS) << 7 | V(TIME);
    w[5] = V(FILE);
    if (kind == SIAMRUNG_KIND_MTD) {
        w[4] = V(DOPPLER1) << 6 | V(DOPPLER2);
        w[6] = V(QUALITY) << 10 | V(CONFIDENCE) << 6 | V(FALSE_TARGET) << 5 | V(GROUND) << 4 | 2;
    } else {
        w[4] = 0;
        w[6] = V(QUALITY) << 8 | V(FALSE_TARGET) << 5 | 1;
    }
}

/* An altitude that fits, as bits 79-90. */
static unsigned altitude_bits(int64_t z, uint32_t form)
{
    if (form == SIAMRUNG_FORM_SIGN_MAGNITUDE)
        return z < 0 ? 2048 | (unsigned)-z : (unsigned)z;
    return (unsigned)z & 4095;
}

static unsigned seven(uint32_t form, uint32_t kind, const int64_t *v, uint64_t given, unsigned *w)
{
    int dabs = kind < SIAMRUNG_KIND_ATCRBS;

    w[0] = V(TEST) << 11 | 3u << 9 | V(FAA) << 1;
    w[1] = V(RANGE) >> 3;
    w[2] = (V(RANGE) & 7) << 9 | V(AZIMUTH) >> 4;
    w[3] = (V(AZIMUTH) & 15) << 8;
    if (kind >= SIAMRUNG_KIND_MTD) {
        radar(kind, v, w);
        return 7;
    }
    w[0] |= V(SPI) << 5 | V(REINFORCED) << 4 | V(CODE7700) << 3 | V(CODE7600) << 2;
    w[3] |= V(RELAY) << 4 | V(TIME);
    if (dabs) {
        w[0] |= 1u << 8 | V(PRIMARY) << 7;
        w[3] |= V(ALERT) << 7;
        w[4] = V(ADDRESS) >> 12;
        w[5] = V(ADDRESS) & 4095;
    } else {
        w[0] |= V(MODE3A) << 7;
        w[3] |= V(CONFIDENCE) << 7 | V(TRANSITION) << 6 | V(FALSE_TARGET) << 5;
        w[4] = V(CODE);
        w[5] = V(FILE);
    }
    switch (kind - (dabs ? SIAMRUNG_KIND_DABS : SIAMRUNG_KIND_ATCRBS)) {
    case 0:
        if (given & B(ALTITUDE)) {
            w[0] |= 1u << 6;
            w[6] = altitude_bits(v[SIAMRUNG_ITEM_ALTITUDE], form);
        } else {
            w[6] = V(CARRIED);
        }
        return 7;
    case 1:
        w[6] = V(RUN) << 9 | 4;
        break;
    case 2:
        w[6] = V(QUALITY) << 10 | 6;
        break;
    default:
        w[6] = V(QUALITY) << 8 | 5;
        break;
    }
    w[0] |= V(MODE_C) << 6 | 1;
    return 7;
}

/* ---- the calls */

static uint32_t refusal(size_t length, size_t place, uint32_t form, uint32_t kind, const uint8_t *items, size_t items_length, int64_t *v,
                        uint64_t *given)
{
    if (length > 65536)
        return SIAMRUNG_REFUSAL_LINE_TOO_LONG;
    if (length % 2)
        return SIAMRUNG_REFUSAL_ODD_BYTE_COUNT;
    if (place > length / 2)
        return SIAMRUNG_REFUSAL_PLACE_BEYOND_LINE;
    *given = take(form, kind, items, items_length, v);
    if (*given == 0)
        return SIAMRUNG_REFUSAL_VALUE_TOO_LARGE;
    if (length / 2 - place < (kind < SIAMRUNG_KIND_DABS ? 5u : 8u))
        return SIAMRUNG_REFUSAL_NO_ROOM;
    return SIAMRUNG_REFUSAL_NONE;
}

size_t plain_write(uint8_t *bytes, size_t length, size_t place, uint32_t form, uint32_t kind, const uint8_t *items, size_t items_length)
{
    int64_t v[PLAIN_ITEMS];
    uint64_t given = 0;
    unsigned w[7], i, n;
    uint8_t *at;

    if (refusal(length, place, form, kind, items, items_length, v, &given) != SIAMRUNG_REFUSAL_NONE)
        return place;
    at = bytes + 2 * place;
    n = kind < SIAMRUNG_KIND_DABS ? four(kind, v, w) : seven(form, kind, v, given, w);
    for (i = 0; i < n; i++) {
        unsigned x = w[i] << 1 | (~(unsigned)__builtin_popcount(w[i]) & 1);
        at[2 * i] = (uint8_t)(x >> 8);
        at[2 * i + 1] = (uint8_t)x;
    }
    at[2 * n] = 1023 >> 8;
    at[2 * n + 1] = 1023 & 255;
    return place + n + 1;
}

uint32_t plain_write_refusal(const uint8_t *bytes, size_t length, size_t place, uint32_t form, uint32_t kind, const uint8_t *items,
                             size_t items_length)
{
    int64_t v[PLAIN_ITEMS];
    uint64_t given;

    (void)bytes;
    return refusal(length, place, form, kind, items, items_length, v, &given);
}
