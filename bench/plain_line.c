/*
 * plain_line.c: the reader of a line by hand: one pass over the run, one decode of its words by shift and mask, popcount for parity.
 * Nothing is proved of it; bench.c compares its answers with the library's.
 */
#include "plain.h"

#define IDLE 1023u
#define NONE ((size_t)-1)

static unsigned word_at(const uint8_t *b, size_t i)
{
    return (unsigned)b[2 * i] << 8 | b[2 * i + 1];
}

/* ---- the fields of a report: bits FROM to TO of a 13-bit word, 1 the heaviest, as numbered in the word */

#define BITS(w, from, to) ((int32_t)((w) >> (13 - (to)) & ((1u << ((to) - (from) + 1)) - 1)))

/* Four words: the kind, or a refusal's number with *kind left alone. */
static uint32_t decode_four(const unsigned *w, struct plain_outcome *o)
{
    int32_t *v = o->item;
    int32_t spare = BITS(w[1], 12, 12);

    v[SIAMRUNG_ITEM_TEST] = BITS(w[0], 1, 1);
    v[SIAMRUNG_ITEM_FAA] = BITS(w[0], 11, 11);
    v[SIAMRUNG_ITEM_AF] = BITS(w[0], 12, 12);
    v[SIAMRUNG_ITEM_RANGE] = BITS(w[1], 1, 11);
    v[SIAMRUNG_ITEM_AZIMUTH] = BITS(w[2], 1, 12);
    switch (BITS(w[0], 4, 10)) {
    case 0x6C:
        o->kind = SIAMRUNG_KIND_SEARCH;
        v[SIAMRUNG_ITEM_AIMS] = BITS(w[3], 1, 1);
        v[SIAMRUNG_ITEM_AIMS_CODE] = BITS(w[3], 2, 3);
        v[SIAMRUNG_ITEM_RUN] = BITS(w[3], 4, 6);
        v[SIAMRUNG_ITEM_TIME] = BITS(w[3], 7, 12);
        break;
    case 0x60:
    case 0x48:
        o->kind = BITS(w[0], 4, 10) == 0x60 ? SIAMRUNG_KIND_STROBE : SIAMRUNG_KIND_RTQC;
        v[SIAMRUNG_ITEM_RUN] = BITS(w[3], 1, 7);
        v[SIAMRUNG_ITEM_TIME] = BITS(w[3], 8, 12);
        break;
    case 0x30:
        o->kind = SIAMRUNG_KIND_STATUS;
        v[SIAMRUNG_ITEM_SECOND] = BITS(w[1], 1, 12);
        v[SIAMRUNG_ITEM_THIRD] = BITS(w[2], 1, 12);
        v[SIAMRUNG_ITEM_FOURTH] = BITS(w[3], 1, 12);
        spare = 0;
        break;
    default:
        o->kind = SIAMRUNG_KIND_MAP;
        v[SIAMRUNG_ITEM_VARIATION] = BITS(w[0], 9, 10);
        v[SIAMRUNG_ITEM_START] = v[SIAMRUNG_ITEM_RANGE];
        v[SIAMRUNG_ITEM_STOP] = BITS(w[3], 1, 11);
        spare |= BITS(w[3], 12, 12);
        break;
    }
    return spare ? SIAMRUNG_REFUSAL_SPARE_BIT_SET : SIAMRUNG_REFUSAL_NONE;
}

/* MTD and RDAS search. */
static uint32_t decode_radar(const unsigned *w, struct plain_outcome *o, int mtd)
{
    int32_t *v = o->item;
    int32_t spare = BITS(w[0], 5, 10) | BITS(w[3], 6, 6);

    v[SIAMRUNG_ITEM_AIMS] = BITS(w[3], 5, 5);
    v[SIAMRUNG_ITEM_TIME] = BITS(w[3], 7, 12);
    v[SIAMRUNG_ITEM_FILE] = BITS(w[5], 1, 12);
    v[SIAMRUNG_ITEM_FALSE_TARGET] = BITS(w[6], 7, 7);
    if (mtd) {
        o->kind = SIAMRUNG_KIND_MTD;
        v[SIAMRUNG_ITEM_DOPPLER1] = BITS(w[4], 1, 6);
        v[SIAMRUNG_ITEM_DOPPLER2] = BITS(w[4], 7, 12);
        v[SIAMRUNG_ITEM_QUALITY] = BITS(w[6], 1, 2);
        v[SIAMRUNG_ITEM_CONFIDENCE] = BITS(w[6], 3, 6);
        v[SIAMRUNG_ITEM_GROUND] = BITS(w[6], 8, 8);
        spare |= BITS(w[6], 9, 9);
    } else {
        o->kind = SIAMRUNG_KIND_RDAS;
        v[SIAMRUNG_ITEM_QUALITY] = BITS(w[6], 1, 4);
        spare |= BITS(w[4], 1, 12) | BITS(w[6], 5, 6) | BITS(w[6], 8, 9);
    }
    return spare ? SIAMRUNG_REFUSAL_SPARE_BIT_SET : SIAMRUNG_REFUSAL_NONE;
}

/* DABS and ATCRBS but for the last word. */
static int32_t decode_target(const unsigned *w, struct plain_outcome *o, int dabs)
{
    int32_t *v = o->item;

    v[SIAMRUNG_ITEM_SPI] = BITS(w[0], 7, 7);
    v[SIAMRUNG_ITEM_REINFORCED] = BITS(w[0], 8, 8);
    v[SIAMRUNG_ITEM_CODE7700] = BITS(w[0], 9, 9);
    v[SIAMRUNG_ITEM_CODE7600] = BITS(w[0], 10, 10);
    v[SIAMRUNG_ITEM_RELAY] = BITS(w[3], 8, 8);
    v[SIAMRUNG_ITEM_TIME] = BITS(w[3], 9, 12);
    if (dabs) {
        v[SIAMRUNG_ITEM_PRIMARY] = BITS(w[0], 5, 5);
        v[SIAMRUNG_ITEM_ALERT] = BITS(w[3], 5, 5);
        v[SIAMRUNG_ITEM_ADDRESS] = BITS(w[4], 1, 12) << 12 | BITS(w[5], 1, 12);
        return BITS(w[3], 6, 7);
    }
    v[SIAMRUNG_ITEM_MODE3A] = BITS(w[0], 5, 5);
    v[SIAMRUNG_ITEM_CONFIDENCE] = BITS(w[3], 5, 5);
    v[SIAMRUNG_ITEM_TRANSITION] = BITS(w[3], 6, 6);
    v[SIAMRUNG_ITEM_FALSE_TARGET] = BITS(w[3], 7, 7);
    v[SIAMRUNG_ITEM_CODE] = BITS(w[4], 1, 12);
    v[SIAMRUNG_ITEM_FILE] = BITS(w[5], 1, 12);
    return 0;
}

/* The sign without a magnitude. */
#define MINUS_ZERO 2048

/* Bits 79-90 as an altitude: the first of them is a sign, or in two's complement it weighs -2048. */
static int32_t altitude(unsigned w, uint32_t form)
{
    int32_t low = BITS(w, 2, 12);

    if (!BITS(w, 1, 1))
        return low;
    return form == SIAMRUNG_FORM_SIGN_MAGNITUDE ? -low : low - 2048;
}

/* Seven words: a refusal's number, or 0 and the kind set. */
static uint32_t decode_seven(const unsigned *w, uint32_t form, struct plain_outcome *o)
{
    int32_t *v = o->item;
    int dabs = BITS(w[0], 4, 4);
    int radar = BITS(w[0], 12, 12);
    int told = BITS(w[6], 10, 12);
    int32_t spare;

    v[SIAMRUNG_ITEM_TEST] = BITS(w[0], 1, 1);
    v[SIAMRUNG_ITEM_FAA] = BITS(w[0], 11, 11);
    v[SIAMRUNG_ITEM_RANGE] = BITS(w[1], 1, 12) << 3 | BITS(w[2], 1, 3);
    v[SIAMRUNG_ITEM_AZIMUTH] = BITS(w[2], 4, 12) << 4 | BITS(w[3], 1, 4);
    if (radar && !dabs && (told == 2 || told == 1))
        return decode_radar(w, o, told == 2);
    if (radar && told != 4 && told != 5 && told != 6)
        return SIAMRUNG_REFUSAL_UNASSIGNED_RADAR;
    spare = decode_target(w, o, dabs);
    o->kind = dabs ? SIAMRUNG_KIND_DABS : SIAMRUNG_KIND_ATCRBS;
    if (radar) {
        v[SIAMRUNG_ITEM_MODE_C] = BITS(w[0], 6, 6);
        if (told == 4) {
            o->kind += 1;
            v[SIAMRUNG_ITEM_RUN] = BITS(w[6], 1, 3);
            spare |= BITS(w[6], 4, 9);
        } else if (told == 6) {
            o->kind += 2;
            v[SIAMRUNG_ITEM_QUALITY] = BITS(w[6], 1, 2);
            spare |= BITS(w[6], 3, 9);
        } else {
            o->kind += 3;
            v[SIAMRUNG_ITEM_QUALITY] = BITS(w[6], 1, 4);
            spare |= BITS(w[6], 5, 9);
        }
        v[SIAMRUNG_ITEM_CARRIED] = -1;
    } else if (BITS(w[0], 6, 6)) {
        if (!spare && form == SIAMRUNG_FORM_SIGN_MAGNITUDE && BITS(w[6], 1, 12) == MINUS_ZERO)
            return SIAMRUNG_REFUSAL_MINUS_ZERO;
        v[SIAMRUNG_ITEM_ALTITUDE] = altitude(w[6], form);
        v[SIAMRUNG_ITEM_CARRIED] = -1;
    } else {
        v[SIAMRUNG_ITEM_CARRIED] = BITS(w[6], 1, 12);
    }
    return spare ? SIAMRUNG_REFUSAL_SPARE_BIT_SET : SIAMRUNG_REFUSAL_NONE;
}

/* ---- the line */

static int known_first(unsigned w)
{
    switch (BITS(w, 4, 10)) {
    case 0x6C:
    case 0x60:
    case 0x30:
    case 0:
    case 1:
    case 2:
    case 3:
        return 1;
    case 0x48:
        return BITS(w, 1, 1);
    default:
        return 0;
    }
}

static uint32_t judge(const uint8_t *b, uint32_t form, struct plain_outcome *o)
{
    unsigned w[7];
    unsigned size = BITS(word_at(b, o->first), 2, 3);
    size_t i, n = size == 3 ? 7 : 4;

    if (size != 3 && (size != 0 || !known_first(word_at(b, o->first))))
        return SIAMRUNG_REFUSAL_UNKNOWN_FORM;
    if (o->after - o->first != n)
        return SIAMRUNG_REFUSAL_WRONG_LENGTH;
    for (i = 0; i < n; i++)
        w[i] = word_at(b, o->first + i);
    return n == 7 ? decode_seven(w, form, o) : decode_four(w, o);
}

static void all_at(struct plain_outcome *o, uint32_t kind, uint32_t refusal, size_t place)
{
    o->kind = kind;
    o->refusal = refusal;
    o->first = o->after = o->named = place;
}

/* Why nothing is read where the link number, the line's length or the place is wrong: the first of them that is. */
static uint32_t unread(size_t length, uint32_t link)
{
    if (link > SIAMRUNG_LAST_LINK)
        return SIAMRUNG_REFUSAL_NO_SUCH_LINK;
    if (length > 65536)
        return SIAMRUNG_REFUSAL_LINE_TOO_LONG;
    return length % 2 ? SIAMRUNG_REFUSAL_ODD_BYTE_COUNT : SIAMRUNG_REFUSAL_PLACE_BEYOND_LINE;
}

void plain_read(const uint8_t *b, size_t length, size_t place, uint32_t form, uint32_t link, struct plain_outcome *o)
{
    size_t i = place, n = length / 2, wide = NONE, even = NONE;
    unsigned w;

    o->link = link > SIAMRUNG_LAST_LINK ? 0 : link;
    if (link > SIAMRUNG_LAST_LINK || length > 65536 || length % 2 || place > n) {
        all_at(o, SIAMRUNG_KIND_REFUSED, unread(length, link), place);
        return;
    }
    while (i < n && word_at(b, i) == IDLE)
        i++;
    if (i == n) {
        all_at(o, SIAMRUNG_KIND_END, SIAMRUNG_REFUSAL_NONE, n);
        return;
    }
    o->first = o->named = i;
    for (; i < n && (w = word_at(b, i)) != IDLE; i++) {
        if (w > 8191 && wide == NONE)
            wide = i;
        if (!(__builtin_popcount(w) & 1) && even == NONE)
            even = i;
    }
    o->after = i;
    if (wide != NONE || even != NONE) {
        o->refusal = wide != NONE ? SIAMRUNG_REFUSAL_WORD_TOO_WIDE : SIAMRUNG_REFUSAL_EVEN_WORD;
        o->named = wide != NONE ? wide : even;
    } else {
        o->refusal = judge(b, form, o);
    }
    if (o->refusal != SIAMRUNG_REFUSAL_NONE)
        o->kind = SIAMRUNG_KIND_REFUSED;
}
