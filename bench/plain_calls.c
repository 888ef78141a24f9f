/*
 * plain_calls.c: the calls that read a line, over plain_line.c: which items a kind has, as a mask, and one number out of the decoded run.
 */
#include "plain.h"

#define B(item) ((uint64_t)1 << SIAMRUNG_ITEM_##item)

#define FOUR (B(TEST) | B(FAA) | B(AF) | B(RANGE) | B(AZIMUTH) | B(RUN) | B(TIME))
#define SEVEN (B(TEST) | B(FAA) | B(RANGE) | B(AZIMUTH) | B(TIME))
#define TARGET (SEVEN | B(SPI) | B(REINFORCED) | B(CODE7700) | B(CODE7600) | B(RELAY))
#define DABS (TARGET | B(PRIMARY) | B(ALERT) | B(ADDRESS))
#define ATCRBS (TARGET | B(MODE3A) | B(CONFIDENCE) | B(TRANSITION) | B(FALSE_TARGET) | B(CODE) | B(FILE))
#define QUALITY (B(MODE_C) | B(QUALITY))
#define RADAR (SEVEN | B(AIMS) | B(FILE) | B(QUALITY) | B(FALSE_TARGET))

static const uint64_t items_of[] = {
    FOUR | B(AIMS) | B(AIMS_CODE),
    FOUR,
    B(TEST) | B(VARIATION) | B(FAA) | B(AF) | B(START) | B(AZIMUTH) | B(STOP),
    B(TEST) | B(FAA) | B(AF) | B(SECOND) | B(THIRD) | B(FOURTH),
    FOUR & ~B(TEST),
    DABS,
    DABS | B(MODE_C) | B(RUN),
    DABS | QUALITY,
    DABS | QUALITY,
    ATCRBS,
    ATCRBS | B(MODE_C) | B(RUN),
    ATCRBS | QUALITY,
    ATCRBS | QUALITY,
    RADAR | B(DOPPLER1) | B(DOPPLER2) | B(CONFIDENCE) | B(GROUND),
    RADAR,
};

uint64_t plain_items_of(uint32_t kind)
{
    return kind < SIAMRUNG_KIND_SEARCH || kind > SIAMRUNG_KIND_RDAS ? 0 : items_of[kind - SIAMRUNG_KIND_SEARCH];
}

static int has(const struct plain_outcome *o, uint32_t item)
{
    uint64_t mask = plain_items_of(o->kind);

    if (o->kind == SIAMRUNG_KIND_DABS || o->kind == SIAMRUNG_KIND_ATCRBS)
        mask |= o->item[SIAMRUNG_ITEM_CARRIED] < 0 ? B(ALTITUDE) : B(CARRIED);
    return item < PLAIN_ITEMS && (mask >> item & 1);
}

uint32_t plain_kind(const uint8_t *bytes, size_t length, size_t place, uint32_t form, uint32_t link)
{
    struct plain_outcome o;
    plain_read(bytes, length, place, form, link, &o);
    return o.kind;
}

uint32_t plain_refusal(const uint8_t *bytes, size_t length, size_t place, uint32_t form, uint32_t link)
{
    struct plain_outcome o;
    plain_read(bytes, length, place, form, link, &o);
    return o.refusal;
}

size_t plain_first(const uint8_t *bytes, size_t length, size_t place, uint32_t form, uint32_t link)
{
    struct plain_outcome o;
    plain_read(bytes, length, place, form, link, &o);
    return o.first;
}

size_t plain_after(const uint8_t *bytes, size_t length, size_t place, uint32_t form, uint32_t link)
{
    struct plain_outcome o;
    plain_read(bytes, length, place, form, link, &o);
    return o.after;
}

size_t plain_named(const uint8_t *bytes, size_t length, size_t place, uint32_t form, uint32_t link)
{
    struct plain_outcome o;
    plain_read(bytes, length, place, form, link, &o);
    return o.named;
}

uint32_t plain_link(const uint8_t *bytes, size_t length, size_t place, uint32_t form, uint32_t link)
{
    struct plain_outcome o;
    plain_read(bytes, length, place, form, link, &o);
    return o.link;
}

uint32_t plain_has(const uint8_t *bytes, size_t length, size_t place, uint32_t form, uint32_t link, uint32_t item)
{
    struct plain_outcome o;
    plain_read(bytes, length, place, form, link, &o);
    return has(&o, item);
}

int64_t plain_item(const uint8_t *bytes, size_t length, size_t place, uint32_t form, uint32_t link, uint32_t item)
{
    struct plain_outcome o;
    plain_read(bytes, length, place, form, link, &o);
    return has(&o, item) ? o.item[item] : 0;
}

/* ---- range, azimuth and time as floats */

static int valued(const struct plain_outcome *o)
{
    return o->kind <= SIAMRUNG_KIND_RDAS && o->kind != SIAMRUNG_KIND_STATUS;
}

uint32_t plain_has_values(const uint8_t *bytes, size_t length, size_t place, uint32_t form, uint32_t link)
{
    struct plain_outcome o;
    plain_read(bytes, length, place, form, link, &o);
    return valued(&o);
}

double plain_nmi(const uint8_t *bytes, size_t length, size_t place, uint32_t form, uint32_t link)
{
    struct plain_outcome o;
    plain_read(bytes, length, place, form, link, &o);
    return valued(&o) ? o.item[SIAMRUNG_ITEM_RANGE] / (o.kind < SIAMRUNG_KIND_DABS ? 8.0 : 128.0) : 0.0;
}

double plain_degrees(const uint8_t *bytes, size_t length, size_t place, uint32_t form, uint32_t link)
{
    struct plain_outcome o;
    plain_read(bytes, length, place, form, link, &o);
    return valued(&o) ? o.item[SIAMRUNG_ITEM_AZIMUTH] * 45 / (o.kind < SIAMRUNG_KIND_DABS ? 512.0 : 1024.0) : 0.0;
}

double plain_seconds(const uint8_t *bytes, size_t length, size_t place, uint32_t form, uint32_t link)
{
    struct plain_outcome o;
    plain_read(bytes, length, place, form, link, &o);
    return valued(&o) && o.kind != SIAMRUNG_KIND_MAP ? o.item[SIAMRUNG_ITEM_TIME] / 8.0 : 0.0;
}
