/*
 * plain_field.c: the reader of a link data field by hand: a table by the type's code, then each type's bytes by shift and mask.
 */
#include "plain_field.h"

#define ADDRESSED(x) (FB(ADDRESS) | (x))
#define MESSAGE(x) (FB(ADDRESS) | FB(NUMBER) | FB(PRIORITY) | FB(EXP) | (x))
#define ALERT                                                                                                                               \
    (FB(ACID1) | FB(ACID2) | FB(CS1) | FB(ADVISORY1) | FB(DEL1) | FB(CS2) | FB(ADVISORY2) | FB(DEL2) | FB(V1) | FB(V2))

const struct plain_type plain_types[256] = {
    [0x21] = {1, 0, 96, MESSAGE(FB(TEXT))},
    [0x22] = {1, 80, 48, MESSAGE(FB(LENGTH))},
    [0x23] = {1, 0, 48, MESSAGE(FB(MSRC))},
    [0x24] = {1, 0, 40, ADDRESSED(FB(NUMBER))},
    [0x02] = {1, 0, 40, ADDRESSED(FB(NUMBER))},
    [0x25] = {1, 0, 48, ADDRESSED(FB(NUMBER) | FB(REFERENCED) | FB(REFERENCED_TYPE))},
    [0x61] = {1, 0, 56, FB(PATTERN)},
    [0x9B] = {1, 8, 16, FB(N)},
    [0x99] = {1, 0, 16, FB(STATE)},
    [0x65] = {1, 0, 24, FB(SID) | FB(SSTAT)},
    [0x9A] = {1, 24, 16, FB(IP) | FB(IS) | FB(IU)},
    [0x96] = {1, 24, 16, FB(ICA) | FB(IUA)},
    [0x31] = {2, 0, 40, ADDRESSED(FB(REFERENCED) | FB(QUAL))},
    [0x32] = {2, 0, 40, ADDRESSED(FB(REFERENCED) | FB(DI))},
    [0x41] = {2, 0, 88, ADDRESSED(FB(TEXT))},
    [0x42] = {2, 80, 40, ADDRESSED(FB(LENGTH))},
    [0x43] = {2, 0, 40, ADDRESSED(FB(UM))},
    [0x44] = {2, 0, 96, ADDRESSED(FB(CA) | FB(ACA) | FB(ECA))},
    [0x45] = {2, 0, 48, ADDRESSED(FB(CODE))},
    [0x62] = {2, 0, 56, FB(PATTERN)},
    [0x83] = {2, 0, 90, ALERT},
    [0x03] = {2, 0, 0, 0},
};

struct field {
    unsigned type, relay;
    unsigned entries;
    size_t text_place;
    uint64_t v[FIELD_ITEMS];
    int32_t list[30];
};

static uint64_t be(const uint8_t *b, int n)
{
    uint64_t x = 0;

    while (n--)
        x = x << 8 | *b++;
    return x;
}

static uint32_t unknown(unsigned type)
{
    if (type >> 4 == 8 || type == 0x64 || type == 0x9C || type == 0xC1 || type == 0xC2)
        return SIAMRUNG_FIELD_REFUSAL_TYPE_NOT_CARRIED;
    return SIAMRUNG_FIELD_REFUSAL_UNKNOWN_TYPE;
}

int plain_unused(unsigned type, const uint64_t *v)
{
    uint64_t has = plain_types[type].items;

    if (has & FB(NUMBER) && v[I(NUMBER)] == 0)
        return 1;
    if (has & FB(REFERENCED) && v[I(REFERENCED)] == 0)
        return 1;
    switch (type) {
    case 0x21:
        return v[I(EXP)] == 0;
    case 0x22:
        return v[I(EXP)] == 0 || v[I(LENGTH)] == 0;
    case 0x23:
        return v[I(EXP)] == 0 || v[I(MSRC)] != 1;
    case 0x99:
        return v[I(STATE)] == 0;
    case 0x65:
        return v[I(SSTAT)] == 0;
    case 0x31:
        return v[I(QUAL)] > 4;
    case 0x83:
        return v[I(ADVISORY1)] % 8 == 7 || v[I(DEL1)] > 5 || v[I(ADVISORY2)] % 8 == 7 || v[I(DEL2)] > 5;
    default:
        return 0;
    }
}

/* The parts of a field of at least the type's base bits; answers the sum of its spare bits. */
static unsigned parts(const uint8_t *b, uint64_t *v)
{
    if (plain_types[b[0]].items & FB(ADDRESS))
        v[I(ADDRESS)] = be(b + 1, 3);
    switch (b[0]) {
    case 0x21:
    case 0x22:
    case 0x23:
        v[I(NUMBER)] = b[4] >> 4;
        v[I(PRIORITY)] = b[4] >> 3 & 1;
        v[I(EXP)] = b[4] & 7;
        if (b[0] == 0x21) {
            v[I(TEXT)] = be(b + 5, 7);
            return 0;
        }
        if (b[0] == 0x22) {
            v[I(LENGTH)] = b[5] & 15;
            return b[5] >> 4;
        }
        v[I(MSRC)] = b[5] >> 4;
        return b[5] & 15;
    case 0x24:
    case 0x02:
        v[I(NUMBER)] = b[4] >> 4;
        return b[4] & 15;
    case 0x25:
        v[I(NUMBER)] = b[4] >> 4;
        v[I(REFERENCED)] = b[4] & 15;
        v[I(REFERENCED_TYPE)] = b[5];
        return 0;
    case 0x61:
    case 0x62:
        v[I(PATTERN)] = be(b + 1, 6);
        return 0;
    case 0x9B:
        v[I(N)] = b[1] & 15;
        return b[1] >> 4;
    case 0x99:
        v[I(STATE)] = b[1] >> 6;
        return b[1] & 63;
    case 0x65:
        v[I(SID)] = b[1] >> 4;
        v[I(SSTAT)] = b[1] & 3;
        return (b[1] >> 2 & 3) | b[2];
    case 0x9A:
        v[I(IP)] = b[1] >> 5;
        v[I(IS)] = b[1] >> 2 & 7;
        v[I(IU)] = b[1] & 3;
        return 0;
    case 0x96:
        v[I(ICA)] = b[1] >> 4;
        v[I(IUA)] = b[1] & 15;
        return 0;
    case 0x31:
        v[I(REFERENCED)] = b[4] >> 4;
        v[I(QUAL)] = b[4] >> 1 & 7;
        return b[4] & 1;
    case 0x32:
        v[I(REFERENCED)] = b[4] >> 4;
        v[I(DI)] = b[4] >> 3 & 1;
        return b[4] & 7;
    case 0x41:
        v[I(TEXT)] = be(b + 4, 7);
        return 0;
    case 0x42:
        v[I(LENGTH)] = b[4] & 15;
        return b[4] >> 4;
    case 0x43:
        v[I(UM)] = b[4] & 63;
        return b[4] >> 6;
    case 0x44: {
        uint64_t rest = be(b + 4, 8);
        v[I(CA)] = rest >> 61;
        v[I(ACA)] = rest >> 55 & 63;
        v[I(ECA)] = rest >> 3 & (((uint64_t)1 << 52) - 1);
        return rest & 7;
    }
    case 0x45:
        v[I(CODE)] = be(b + 4, 2) & 4095;
        return b[4] >> 4;
    case 0x83: {
        uint64_t rest = be(b + 7, 5);
        v[I(ACID1)] = be(b + 1, 3);
        v[I(ACID2)] = be(b + 4, 3);
        v[I(CS1)] = rest >> 38;
        v[I(ADVISORY1)] = rest >> 27 & 2047;
        v[I(DEL1)] = rest >> 24 & 7;
        v[I(CS2)] = rest >> 22 & 3;
        v[I(ADVISORY2)] = rest >> 11 & 2047;
        v[I(DEL2)] = rest >> 8 & 7;
        v[I(V1)] = rest >> 7 & 1;
        v[I(V2)] = rest >> 6 & 1;
        return 0;
    }
    default:
        return 0;
    }
}

/* The altimeter blocks or addresses behind the base; 1 where a block is not in use. */
static int entries(const uint8_t *b, struct field *f)
{
    unsigned i;

    for (i = 0; i < f->entries; i++) {
        if (f->type != SIAMRUNG_TYPE_ALTIMETER_CORRECTION) {
            f->list[i] = (int32_t)be(b + 2 + 3 * i, 3);
        } else {
            unsigned x = b[2 + i];
            int32_t n = (int32_t)((x >> 4 & 7) * 10 + (x & 15));
            if ((x & 15) > 9 || x == 128)
                return 1;
            f->list[i] = x >> 7 ? -n : n;
        }
    }
    return 0;
}

static uint32_t read_field(const uint8_t *b, size_t length, size_t count, uint32_t from_sensor, struct field *f)
{
    const struct plain_type *t;

    f->relay = f->entries = 0;
    f->text_place = length;
    if (count < 8 || count > 2008)
        return SIAMRUNG_FIELD_REFUSAL_COUNT_OUT_OF_RANGE;
    if (length != (count + 7) / 8)
        return SIAMRUNG_FIELD_REFUSAL_WRONG_BYTE_COUNT;
    if (count % 8 && (uint8_t)(b[length - 1] << count % 8))
        return SIAMRUNG_FIELD_REFUSAL_BIT_AFTER_COUNT;
    if (b[0] == SIAMRUNG_TYPE_RELAY && from_sensor && count >= 24) {
        f->relay = 1;
        f->v[I(SENSOR)] = b[1];
        b += 2;
        count -= 16;
    }
    f->type = b[0];
    t = &plain_types[b[0]];
    if (!t->known)
        return unknown(b[0]);
    if ((t->known == 2) != (from_sensor != 0))
        return SIAMRUNG_FIELD_REFUSAL_WRONG_DIRECTION;
    if (f->relay && (b[0] == SIAMRUNG_TYPE_RELAY || b[0] == SIAMRUNG_TYPE_TEST_RESPONSE))
        return SIAMRUNG_FIELD_REFUSAL_NOT_RELAYED;
    if (b[0] == SIAMRUNG_TYPE_RELAY || count < t->base)
        return SIAMRUNG_FIELD_REFUSAL_WRONG_BIT_COUNT;
    {
        unsigned spare = parts(b, f->v), steps = plain_steps(b[0], f->v);
        if (count != t->base + t->step * steps)
            return SIAMRUNG_FIELD_REFUSAL_WRONG_BIT_COUNT;
        if (spare)
            return SIAMRUNG_FIELD_REFUSAL_SPARE_BIT_SET;
        if (plain_unused(b[0], f->v))
            return SIAMRUNG_FIELD_REFUSAL_VALUE_NOT_IN_USE;
        if (t->step == 80)
            f->text_place = t->base / 8 + (f->relay ? 2 : 0);
        else
            f->entries = steps;
    }
    return entries(b, f) ? SIAMRUNG_FIELD_REFUSAL_VALUE_NOT_IN_USE : 0;
}

/* ---- the calls */

uint32_t plain_field_refusal(const uint8_t *bytes, size_t length, size_t count, uint32_t from_sensor)
{
    struct field f;
    return read_field(bytes, length, count, from_sensor, &f);
}

uint32_t plain_field_type(const uint8_t *bytes, size_t length, size_t count, uint32_t from_sensor)
{
    struct field f;
    return read_field(bytes, length, count, from_sensor, &f) ? 0 : f.relay ? SIAMRUNG_TYPE_RELAY : f.type;
}

uint32_t plain_field_inner_type(const uint8_t *bytes, size_t length, size_t count, uint32_t from_sensor)
{
    struct field f;
    return read_field(bytes, length, count, from_sensor, &f) ? 0 : f.type;
}

static int has(const struct field *f, uint32_t item)
{
    if (item == SIAMRUNG_FIELD_ITEM_SENSOR)
        return (int)f->relay;
    return item > 200 && item < 200 + FIELD_ITEMS && (plain_types[f->type].items >> (item - 200) & 1);
}

uint32_t plain_field_has(const uint8_t *bytes, size_t length, size_t count, uint32_t from_sensor, uint32_t item)
{
    struct field f;
    return !read_field(bytes, length, count, from_sensor, &f) && has(&f, item);
}

uint64_t plain_field_item(const uint8_t *bytes, size_t length, size_t count, uint32_t from_sensor, uint32_t item)
{
    struct field f;
    return !read_field(bytes, length, count, from_sensor, &f) && has(&f, item) ? f.v[item - 200] : 0;
}

size_t plain_field_entries(const uint8_t *bytes, size_t length, size_t count, uint32_t from_sensor)
{
    struct field f;
    return read_field(bytes, length, count, from_sensor, &f) ? 0 : f.entries;
}

int64_t plain_field_entry(const uint8_t *bytes, size_t length, size_t count, uint32_t from_sensor, size_t index)
{
    struct field f;
    return !read_field(bytes, length, count, from_sensor, &f) && index < f.entries ? f.list[index] : 0;
}

size_t plain_field_text_place(const uint8_t *bytes, size_t length, size_t count, uint32_t from_sensor)
{
    struct field f;
    return read_field(bytes, length, count, from_sensor, &f) ? length : f.text_place;
}

size_t plain_field_text_length(const uint8_t *bytes, size_t length, size_t count, uint32_t from_sensor)
{
    struct field f;
    return read_field(bytes, length, count, from_sensor, &f) ? 0 : length - f.text_place;
}
