/*
 * plain_field_write.c: the writer of a link data field by hand: the items into an array, one look at a table of widths, then each type's
 * bytes by shift and or.
 */
#include <string.h>

#include "plain_field.h"

#define V(item) v[I(item)]

static const uint8_t width_of[FIELD_ITEMS] = {
    0, 24, 4, 1, 3, 56, 4, 4, 4, 8, 48, 4, 2, 4, 2, 3, 3, 2, 4, 4, 3, 1, 6, 3, 6, 52, 12, 24, 24, 2, 11, 3, 2, 11, 3, 1, 1, 8,
};

static void put(uint8_t *b, uint64_t x, int n)
{
    while (n--) {
        b[n] = (uint8_t)x;
        x >>= 8;
    }
}

/* The thirty numbers: entries that the type can hold, then zeros. */
static int take_list(const uint8_t *list, size_t length, unsigned type, unsigned entries, int32_t *to)
{
    unsigned i, k;

    if (length != 240 || entries > 30)
        return 0;
    for (i = 0; i < 30; i++) {
        uint64_t x = 0;
        int64_t z;
        for (k = 0; k < 8; k++)
            x = x << 8 | list[8 * i + k];
        z = (int64_t)x;
        if (i >= entries ? z != 0 : type == SIAMRUNG_TYPE_ALTIMETER_CORRECTION ? z < -79 || z > 79 : z < 0 || z > 0xFFFFFF)
            return 0;
        to[i] = (int32_t)z;
    }
    return 1;
}

/* The bytes of a field but for its list and text. */
static void parts(uint8_t *b, unsigned type, const uint64_t *v)
{
    b[0] = (uint8_t)type;
    if (plain_types[type].items & FB(ADDRESS))
        put(b + 1, V(ADDRESS), 3);
    switch (type) {
    case 0x21:
    case 0x22:
    case 0x23:
        b[4] = (uint8_t)(V(NUMBER) << 4 | V(PRIORITY) << 3 | V(EXP));
        if (type == 0x21)
            put(b + 5, V(TEXT), 7);
        else
            b[5] = (uint8_t)(type == 0x22 ? V(LENGTH) : V(MSRC) << 4);
        break;
    case 0x24:
    case 0x02:
        b[4] = (uint8_t)(V(NUMBER) << 4);
        break;
    case 0x25:
        b[4] = (uint8_t)(V(NUMBER) << 4 | V(REFERENCED));
        b[5] = (uint8_t)V(REFERENCED_TYPE);
        break;
    case 0x61:
    case 0x62:
        put(b + 1, V(PATTERN), 6);
        break;
    case 0x9B:
        b[1] = (uint8_t)V(N);
        break;
    case 0x99:
        b[1] = (uint8_t)(V(STATE) << 6);
        break;
    case 0x65:
        b[1] = (uint8_t)(V(SID) << 4 | V(SSTAT));
        b[2] = 0;
        break;
    case 0x9A:
        b[1] = (uint8_t)(V(IP) << 5 | V(IS) << 2 | V(IU));
        break;
    case 0x96:
        b[1] = (uint8_t)(V(ICA) << 4 | V(IUA));
        break;
    case 0x31:
        b[4] = (uint8_t)(V(REFERENCED) << 4 | V(QUAL) << 1);
        break;
    case 0x32:
        b[4] = (uint8_t)(V(REFERENCED) << 4 | V(DI) << 3);
        break;
    case 0x41:
        put(b + 4, V(TEXT), 7);
        break;
    case 0x42:
        b[4] = (uint8_t)V(LENGTH);
        break;
    case 0x43:
        b[4] = (uint8_t)V(UM);
        break;
    case 0x44:
        put(b + 4, V(CA) << 61 | V(ACA) << 55 | V(ECA) << 3, 8);
        break;
    case 0x45:
        put(b + 4, V(CODE), 2);
        break;
    default:
        put(b + 1, V(ACID1), 3);
        put(b + 4, V(ACID2), 3);
        put(b + 7,
            V(CS1) << 38 | V(ADVISORY1) << 27 | V(DEL1) << 24 | V(CS2) << 22 | V(ADVISORY2) << 11 | V(DEL2) << 8 | V(V1) << 7 | V(V2) << 6, 5);
        break;
    }
}

static uint32_t judge(size_t length, unsigned type, const uint8_t *items, size_t items_length, const uint8_t *list, size_t list_length,
                      size_t text_length, uint64_t *v, int32_t *to, size_t *bits)
{
    uint64_t given = plain_take_items(items, items_length, 200, FIELD_ITEMS, (int64_t *)v), left;
    int relay = given >> I(SENSOR) & 1;
    const struct plain_type *t;
    unsigned steps;

    if (type > 255 || plain_types[type].items == 0)
        return SIAMRUNG_FIELD_REFUSAL_NOT_WRITABLE;
    t = &plain_types[type];
    if ((given & ~FB(SENSOR)) != t->items || (relay && (t->known != 2 || type == SIAMRUNG_TYPE_TEST_RESPONSE)))
        return SIAMRUNG_FIELD_REFUSAL_NOT_WRITABLE;
    for (left = given; left; left &= left - 1) {
        int item = __builtin_ctzll(left);
        if (v[item] >> width_of[item])
            return SIAMRUNG_FIELD_REFUSAL_NOT_WRITABLE;
    }
    steps = plain_steps(type, v);
    if (plain_unused(type, v) || text_length != (t->step == 80 ? 10 * steps : 0)
        || !take_list(list, list_length, type, t->step == 80 ? 0 : steps, to))
        return SIAMRUNG_FIELD_REFUSAL_NOT_WRITABLE;
    *bits = (relay ? 16u : 0u) + t->base + t->step * steps;
    return length < (*bits + 7) / 8 ? SIAMRUNG_FIELD_REFUSAL_NO_ROOM : 0;
}

/* ---- the calls */

size_t plain_field_write(uint8_t *bytes, size_t length, uint32_t type, const uint8_t *items, size_t items_length, const uint8_t *list,
                         size_t list_length, const uint8_t *text, size_t text_length)
{
    uint64_t v[FIELD_ITEMS];
    int32_t to[30];
    uint8_t *b = bytes;
    size_t bits;
    unsigned i, n;

    V(SENSOR) = 256;
    if (judge(length, type, items, items_length, list, list_length, text_length, v, to, &bits))
        return 0;
    if (V(SENSOR) < 256) {
        b[0] = SIAMRUNG_TYPE_RELAY;
        b[1] = (uint8_t)V(SENSOR);
        b += 2;
    }
    parts(b, type, v);
    b += plain_types[type].base / 8;
    if (text_length) {
        memcpy(b, text, text_length);
        return bits;
    }
    n = plain_steps(type, v);
    for (i = 0; i < n; i++) {
        if (type == SIAMRUNG_TYPE_ALTIMETER_CORRECTION) {
            unsigned m = (unsigned)(to[i] < 0 ? -to[i] : to[i]);
            b[i] = (uint8_t)((to[i] < 0 ? 128u : 0u) | m / 10 << 4 | m % 10);
        } else {
            put(b + 3 * i, (uint64_t)to[i], 3);
        }
    }
    return bits;
}

uint32_t plain_field_write_refusal(const uint8_t *bytes, size_t length, uint32_t type, const uint8_t *items, size_t items_length,
                                   const uint8_t *list, size_t list_length, const uint8_t *text, size_t text_length)
{
    uint64_t v[FIELD_ITEMS];
    int32_t to[30];
    size_t bits;

    (void)bytes;
    (void)text;
    return judge(length, type, items, items_length, list, list_length, text_length, v, to, &bits);
}
