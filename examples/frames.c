/*
 * A small reader of frames. It reads a stream of the communications channel from standard input: whole bytes, the first bit on top. It prints
 * each frame with its field's items, each refused frame with its reason and the place to go on from, and each stretch of bits that it passed
 * to find another flag. The last line counts every bit of the stream once: so one sees that none was passed over in silence.
 */
#include <inttypes.h>
#include <stdio.h>
#include <stdlib.h>

#include "siamrung.h"

#include "version.h"

/* A field has at most 2008 bits. */
#define MOST 251

struct stream {
    uint8_t *bytes;
    size_t length, count;
};

struct totals {
    size_t frames, refused;
    /* bits */
    size_t in_frames, in_refused, passed, at_end;
};

static const char *reason(uint32_t refusal)
{
    switch (refusal) {
    case SIAMRUNG_FRAME_REFUSAL_COUNT_OR_FLAG: return "no flag begins at the place";
    case SIAMRUNG_FRAME_REFUSAL_ZERO_MISSING: return "five ones have no inserted zero after them";
    case SIAMRUNG_FRAME_REFUSAL_NO_CLOSING_FLAG: return "there is no closing flag";
    case SIAMRUNG_FRAME_REFUSAL_WRONG_LENGTH: return "the frame has fewer than 32 bits or more than 2040";
    case SIAMRUNG_FRAME_REFUSAL_WRONG_CHECK: return "the frame check sequence is wrong";
    case SIAMRUNG_FRAME_REFUSAL_UNKNOWN_ADDRESS: return "the address is neither of the two";
    default: return "refused";
    }
}

static const char *field_reason(uint32_t refusal)
{
    switch (refusal) {
    case SIAMRUNG_FIELD_REFUSAL_COUNT_OUT_OF_RANGE: return "the field has fewer than 8 bits";
    case SIAMRUNG_FIELD_REFUSAL_UNKNOWN_TYPE: return "the type is not known";
    case SIAMRUNG_FIELD_REFUSAL_TYPE_NOT_CARRIED: return "the type is not carried";
    case SIAMRUNG_FIELD_REFUSAL_WRONG_DIRECTION: return "the type travels the other way";
    case SIAMRUNG_FIELD_REFUSAL_NOT_RELAYED: return "the type inside is not relayed";
    case SIAMRUNG_FIELD_REFUSAL_WRONG_BIT_COUNT: return "the field has not as many bits as its type";
    case SIAMRUNG_FIELD_REFUSAL_SPARE_BIT_SET: return "a spare bit is one";
    case SIAMRUNG_FIELD_REFUSAL_VALUE_NOT_IN_USE: return "a value is not in use";
    default: return "refused";
    }
}

/* ---- a field */

/* Items that are printed with their names, if the field has them: decimal, or hexadecimal or octal with that many digits. */
static const struct {
    uint32_t item;
    const char *name;
    char form;
    int digits;
} shown[] = {
    {SIAMRUNG_FIELD_ITEM_SENSOR, "sensor", 'x', 2},
    {SIAMRUNG_FIELD_ITEM_ADDRESS, "address", 'x', 6},
    {SIAMRUNG_FIELD_ITEM_NUMBER, "number", 'd', 0},
    {SIAMRUNG_FIELD_ITEM_PRIORITY, "priority", 'd', 0},
    {SIAMRUNG_FIELD_ITEM_EXP, "exp", 'd', 0},
    {SIAMRUNG_FIELD_ITEM_TEXT, "text", 'x', 14},
    {SIAMRUNG_FIELD_ITEM_LENGTH, "length", 'd', 0},
    {SIAMRUNG_FIELD_ITEM_MSRC, "msrc", 'd', 0},
    {SIAMRUNG_FIELD_ITEM_REFERENCED, "referenced", 'd', 0},
    {SIAMRUNG_FIELD_ITEM_REFERENCED_TYPE, "referenced type", 'x', 2},
    {SIAMRUNG_FIELD_ITEM_PATTERN, "pattern", 'x', 12},
    {SIAMRUNG_FIELD_ITEM_N, "n", 'd', 0},
    {SIAMRUNG_FIELD_ITEM_STATE, "state", 'd', 0},
    {SIAMRUNG_FIELD_ITEM_SID, "sid", 'd', 0},
    {SIAMRUNG_FIELD_ITEM_SSTAT, "sstat", 'd', 0},
    {SIAMRUNG_FIELD_ITEM_IP, "ip", 'd', 0},
    {SIAMRUNG_FIELD_ITEM_IS, "is", 'd', 0},
    {SIAMRUNG_FIELD_ITEM_IU, "iu", 'd', 0},
    {SIAMRUNG_FIELD_ITEM_ICA, "ica", 'd', 0},
    {SIAMRUNG_FIELD_ITEM_IUA, "iua", 'd', 0},
    {SIAMRUNG_FIELD_ITEM_QUAL, "qual", 'd', 0},
    {SIAMRUNG_FIELD_ITEM_DI, "di", 'd', 0},
    {SIAMRUNG_FIELD_ITEM_UM, "um", 'd', 0},
    {SIAMRUNG_FIELD_ITEM_CA, "ca", 'd', 0},
    {SIAMRUNG_FIELD_ITEM_ACA, "aca", 'd', 0},
    {SIAMRUNG_FIELD_ITEM_ECA, "eca", 'x', 13},
    {SIAMRUNG_FIELD_ITEM_CODE, "code", 'o', 4},
    {SIAMRUNG_FIELD_ITEM_ACID1, "acid1", 'x', 6},
    {SIAMRUNG_FIELD_ITEM_ACID2, "acid2", 'x', 6},
    {SIAMRUNG_FIELD_ITEM_CS1, "cs1", 'd', 0},
    {SIAMRUNG_FIELD_ITEM_ADVISORY1, "advisory1", 'd', 0},
    {SIAMRUNG_FIELD_ITEM_DEL1, "del1", 'd', 0},
    {SIAMRUNG_FIELD_ITEM_CS2, "cs2", 'd', 0},
    {SIAMRUNG_FIELD_ITEM_ADVISORY2, "advisory2", 'd', 0},
    {SIAMRUNG_FIELD_ITEM_DEL2, "del2", 'd', 0},
    {SIAMRUNG_FIELD_ITEM_V1, "v1", 'd', 0},
    {SIAMRUNG_FIELD_ITEM_V2, "v2", 'd', 0},
};

static void print_items(const uint8_t *field, size_t length, size_t count, uint32_t from)
{
    size_t i;
    for (i = 0; i < sizeof shown / sizeof shown[0]; i++) {
        uint64_t value = siamrung_field_item(field, length, count, from, shown[i].item);
        if (!siamrung_field_has(field, length, count, from, shown[i].item))
            continue;
        if (shown[i].form == 'x')
            printf(" %s %0*" PRIX64, shown[i].name, shown[i].digits, value);
        else if (shown[i].form == 'o')
            printf(" %s %0*" PRIo64, shown[i].name, shown[i].digits, value);
        else
            printf(" %s %" PRIu64, shown[i].name, value);
    }
}

/* The list: corrections in hundreds of feet, or addresses and identifiers. */
static void print_entries(const uint8_t *field, size_t length, size_t count, uint32_t from)
{
    size_t i, entries = siamrung_field_entries(field, length, count, from);
    int feet = siamrung_field_inner_type(field, length, count, from) == SIAMRUNG_TYPE_ALTIMETER_CORRECTION;
    if (entries > 0)
        printf(" entries");
    for (i = 0; i < entries; i++) {
        int64_t entry = siamrung_field_entry(field, length, count, from, i);
        if (feet)
            printf(" %" PRId64, entry);
        else
            printf(" %06" PRIX64, (uint64_t)entry);
    }
}

static void print_field(const uint8_t *field, size_t length, size_t count, uint32_t from)
{
    uint32_t why = siamrung_field_refusal(field, length, count, from), type = siamrung_field_type(field, length, count, from);
    size_t text = siamrung_field_text_length(field, length, count, from);
    if (why != 0) {
        printf(" field REFUSED %" PRIu32 ": %s", why, field_reason(why));
        return;
    }
    printf(" type %02" PRIX32, type);
    if (type == SIAMRUNG_TYPE_RELAY)
        printf(" inner type %02" PRIX32, siamrung_field_inner_type(field, length, count, from));
    print_items(field, length, count, from);
    print_entries(field, length, count, from);
    if (text > 0)
        printf(" text of %zu bytes", text);
}

/* ---- a stream */

static void print_frame(const struct stream *s, size_t place)
{
    uint8_t field[MOST];
    uint32_t from = siamrung_frame_from_sensor(s->bytes, s->length, s->count, place);
    size_t count = siamrung_frame_field_count(s->bytes, s->length, s->count, place);
    size_t length = siamrung_frame_field(s->bytes, s->length, s->count, place, field, sizeof field);
    printf("%zu %s control %02" PRIX32 " %zu bits:", place, from ? "FROM" : "TO",
           siamrung_frame_control(s->bytes, s->length, s->count, place), count);
    if (count == 0)
        printf(" no field");
    else
        print_field(field, length, count, from);
    printf("\n");
}

/* Whether the eight bits from the place on are 01111110. */
static int flag_at(const struct stream *s, size_t place)
{
    unsigned bits;
    if (place + 8 > s->count)
        return 0;
    bits = (unsigned)s->bytes[place / 8] << 8;
    if (place % 8 != 0)
        bits |= s->bytes[place / 8 + 1];
    return (bits >> (8 - place % 8) & 255) == 0x7E;
}

/* The place of the next flag, or the count. Flags that follow directly are passed: what was refused stands behind the last of them. */
static size_t next_flag(const struct stream *s, size_t place)
{
    while (flag_at(s, place) && flag_at(s, place + 8))
        place += 8;
    for (place++; place < s->count; place++)
        if (flag_at(s, place))
            return place;
    return s->count;
}

/* next is the place that the library answered. */
static size_t print_refused(const struct stream *s, size_t place, size_t next, struct totals *t)
{
    uint32_t why = siamrung_frame_refusal(s->bytes, s->length, s->count, place);
    printf("%zu REFUSED %" PRIu32 " next %zu: %s\n", place, why, next, reason(why));
    t->refused++;
    if (next != place) {
        t->in_refused += next - place;
        return next;
    }
    /* 44, 41 or 45: the library gave the place back, so this program looks for another flag itself */
    next = next_flag(s, place);
    printf("PASSED %zu %zu\n", place, next);
    t->passed += next - place;
    return next;
}

/* Prints what stands at the place, and answers the place to go on from: the count when all is read. */
static size_t print_next(const struct stream *s, size_t place, struct totals *t)
{
    uint32_t kind = siamrung_frame_kind(s->bytes, s->length, s->count, place);
    size_t next = siamrung_frame_place(s->bytes, s->length, s->count, place);
    if (kind == SIAMRUNG_KIND_REFUSED)
        return print_refused(s, place, next, t);
    if (kind == SIAMRUNG_KIND_END) {
        printf("END %zu\n", next);
        t->at_end += next - place;
    } else {
        print_frame(s, place);
        t->frames++;
        t->in_frames += next - place;
    }
    return next;
}

/* ---- the whole */

/* Makes room for more bytes, as long as their bits can be counted; answers 0 if there is no memory. */
static int grow(struct stream *s, size_t *room)
{
    uint8_t *more = *room > SIZE_MAX / 32 ? NULL : realloc(s->bytes, 2 * *room + 65536);
    if (more == NULL)
        return 0;
    s->bytes = more;
    *room = 2 * *room + 65536;
    return 1;
}

/* Answers 0 if memory or the read fails; standard error says which. */
static int read_all(struct stream *s)
{
    size_t room = 0, got;
    do {
        if (s->length == room && !grow(s, &room)) {
            fprintf(stderr, "frames: no memory for standard input\n");
            return 0;
        }
        got = fread(s->bytes + s->length, 1, room - s->length, stdin);
        s->length += got;
    } while (got > 0);
    s->count = 8 * s->length;
    if (ferror(stdin)) {
        perror("frames: standard input");
        return 0;
    }
    return 1;
}

int main(void)
{
    struct stream s = {NULL, 0, 0};
    struct totals t = {0, 0, 0, 0, 0, 0};
    size_t place = 0;
    if (!right_version("frames"))
        return 1;
    if (!read_all(&s)) {
        free(s.bytes);
        return 1;
    }
    do
        place = print_next(&s, place, &t);
    while (place < s.count);
    printf("%zu frames, %zu refused; %zu bits: %zu in frames, %zu in refused frames, %zu passed, %zu in flags at the end\n", t.frames,
           t.refused, s.count, t.in_frames, t.in_refused, t.passed, t.at_end);
    free(s.bytes);
    if (fflush(stdout) != 0 || ferror(stdout)) {
        perror("frames: standard output");
        return 1;
    }
    return 0;
}
