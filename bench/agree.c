/*
 * agree.c: both libraries answer the same, on every input that is measured and on many more: broken lines, every place, both forms of the altitude,
 * link numbers up to the last and beyond, cut and turned fields, damaged frames, broken tables, lists of every room. A difference is printed and ends
 * the program.
 */
#include <stdio.h>
#include <stdlib.h>
#include <string.h>

#include "bench.h"
#include "plain_field.h"

static unsigned long compared;

static void same(const char *what, long long a, long long b, const uint8_t *bytes, size_t length, size_t at)
{
    size_t i;

    compared++;
    if (a == b)
        return;
    printf("bench: DIFFERENT: %s: the library %lld, plain C %lld; length %lu, at %lu, bytes", what, a, b, (unsigned long)length,
           (unsigned long)at);
    for (i = 0; i < length && i < 64; i++)
        printf(" %02X", bytes[i]);
    printf("\n");
    exit(1);
}

#define SAME(call, ...) same(#call, (long long)ours.call(__VA_ARGS__), (long long)plain.call(__VA_ARGS__), b, length, at)

/* ---- lines, in each form of the altitude: sign and magnitude, and two's complement by three of its numbers */

static const uint32_t forms[] = {SIAMRUNG_FORM_SIGN_MAGNITUDE, SIAMRUNG_FORM_TWOS_COMPLEMENT, 2, 0xFFFFFFFFu};

#define FORMS 4

/* One of the numbers of two's complement. */
static uint32_t other_form(void)
{
    return forms[1 + rnd() % (FORMS - 1)];
}

/* A difference between lines is printed behind the form. */
static void same_in(uint32_t form, const char *what, long long x, long long y, const uint8_t *b, size_t length, size_t at)
{
    if (x != y)
        printf("bench: the form of the altitude is %lu\n", (unsigned long)form);
    same(what, x, y, b, length, at);
}

#define SAME_IN(form, call, ...) same_in(form, #call, (long long)ours.call(__VA_ARGS__), (long long)plain.call(__VA_ARGS__), b, length, at)

/* ---- reading a line: a number that is a link's, and one that is none's */

#define LINKS (SIAMRUNG_LAST_LINK + 1)

static uint32_t link_number(void)
{
    return (uint32_t)rnd() % LINKS;
}

/* Just above the last link's, at the ends of bytes and words, and some whose low byte or low half is a link's. */
static const uint32_t greater[] = {
    16, 17, 31, 32, 127, 128, 255, 256, 257, 271, 65535, 65536, 65551, 0x01000000u, 0x7FFFFFFFu, 0x80000000u, 0x8000000Fu, 0xFFFFFFF0u, 0xFFFFFFFFu,
};

#define GREATER (sizeof greater / sizeof greater[0])

/* One of these, or a random one of any size. */
static uint32_t greater_number(void)
{
    uint32_t any = (uint32_t)rnd();

    if (rnd() % 2)
        return greater[any % GREATER];
    any >>= rnd() % 28;
    return any < LINKS ? any + LINKS : any;
}

/* A difference in reading is printed behind the link number too. */
static void same_on(uint32_t form, uint32_t link, const char *what, long long x, long long y, const uint8_t *b, size_t length, size_t at)
{
    if (x != y)
        printf("bench: the link number is %lu\n", (unsigned long)link);
    same_in(form, what, x, y, b, length, at);
}

#define SAME_ON(call, ...) same_on(form, link, #call, (long long)ours.call(__VA_ARGS__), (long long)plain.call(__VA_ARGS__), b, length, at)

static long long bits_of(double x)
{
    long long bits;

    memcpy(&bits, &x, 8);
    return bits;
}

#define SAME_VALUE(call)                                                                                                                    \
    same_on(form, link, #call, bits_of(ours.call(b, length, at, form, link)), bits_of(plain.call(b, length, at, form, link)), b, length, at)

static void at_link(const uint8_t *b, size_t length, size_t at, uint32_t form, uint32_t link)
{
    uint32_t item;

    SAME_ON(kind, b, length, at, form, link);
    SAME_ON(refusal, b, length, at, form, link);
    SAME_ON(first, b, length, at, form, link);
    SAME_ON(after, b, length, at, form, link);
    SAME_ON(named, b, length, at, form, link);
    SAME_ON(link, b, length, at, form, link);
    SAME_ON(has_values, b, length, at, form, link);
    SAME_VALUE(nmi);
    SAME_VALUE(degrees);
    SAME_VALUE(seconds);
    for (item = 0; item < 40; item++) {
        SAME_ON(has, b, length, at, form, link, item);
        SAME_ON(item, b, length, at, form, link, item);
    }
    SAME_ON(has, b, length, at, form, link, 0xFFFFFFFFu);
}

/* By some link, and now and then by a greater number, which hides the line. */
static void at_place(const uint8_t *b, size_t length, size_t at, uint32_t form)
{
    at_link(b, length, at, form, link_number());
    if (rnd() % 8 == 0)
        at_link(b, length, at, form, greater_number());
}

/* In each form by each link, and by the chosen greater numbers. */
static void at_every_link(const uint8_t *b, size_t length, size_t at)
{
    uint32_t link;
    size_t i, k;

    for (k = 0; k < FORMS; k++) {
        for (link = 0; link < LINKS; link++)
            at_link(b, length, at, forms[k], link);
        for (i = 0; i < GREATER; i++)
            at_link(b, length, at, forms[k], greater[i]);
    }
}

/* Every run of a line, and places inside some. */
static void whole_line(const uint8_t *b, size_t length, uint32_t form)
{
    size_t at = 0, next;

    while (plain.kind(b, length, at, form, 0) != SIAMRUNG_KIND_END) {
        at_place(b, length, at, form);
        at_place(b, length, at + rnd() % 8, form);
        next = plain.after(b, length, at, form, 0);
        if (next == at)
            return;
        at = next;
    }
    at_place(b, length, at, form);
    at_place(b, length, at + 1, form);
    at_place(b, length, (size_t)-1, form);
}

static void read_both(const uint8_t *b, size_t length)
{
    whole_line(b, length, SIAMRUNG_FORM_SIGN_MAGNITUDE);
    whole_line(b, length, other_form());
}

/* A report with each pattern in bits 79-90, read in each form: with Mode C an altitude, or minus zero; without it carried bits. */
static void every_pattern(uint32_t kind, int mode_c)
{
    uint8_t b[16], items[MOST_ITEMS];
    size_t length = sizeof b, at = 0;
    uint32_t form, link;
    unsigned pattern, k;

    plain.write(b, length, at, SIAMRUNG_FORM_SIGN_MAGNITUDE, kind, items, altitude_items(kind, 0, items));
    /* bit 6, and the parity bit with it */
    if (!mode_c)
        b[1] ^= 1u << 7 | 1;
    for (pattern = 0; pattern < 4096; pattern++) {
        put_word(b, 6, pattern << 1 | (~(unsigned)__builtin_popcount(pattern) & 1));
        for (k = 0; k < FORMS; k++) {
            form = forms[k];
            link = link_number();
            SAME_ON(kind, b, length, at, form, link);
            SAME_ON(refusal, b, length, at, form, link);
            SAME_ON(item, b, length, at, form, link, SIAMRUNG_ITEM_ALTITUDE);
            SAME_ON(item, b, length, at, form, link, SIAMRUNG_ITEM_CARRIED);
        }
    }
}

/* Some bits turned over. */
static void turn(uint8_t *b, size_t length, unsigned often)
{
    for (; often && length; often--)
        b[rnd() % length] ^= (uint8_t)(1u << rnd() % 8);
}

unsigned long agree_lines(unsigned rounds)
{
    static uint8_t b[MOST_BYTES + 2];
    fill_line *fills[] = {full_line, idle_line, long_run, bad_words, bad_run, altitude_tracks};
    unsigned i, k;
    unsigned long before = compared;

    for (i = 0; i < rounds; i++)
        for (k = 0; k < 6; k++) {
            size_t n = 1 + rnd() % 400;
            fills[k](b, n);
            read_both(b, 2 * n);
            turn(b, 2 * n, (unsigned)(rnd() % 8) * (unsigned)(n / 32 + 1));
            read_both(b, 2 * n);
            read_both(b, 2 * n - 1);
        }
    full_line(b, 32768);
    at_every_link(b, MOST_BYTES, 32760);
    at_every_link(b, MOST_BYTES, 32769);
    at_every_link(b, MOST_BYTES - 1, 3);
    at_every_link(b, MOST_BYTES + 1, 0);
    at_every_link(b, MOST_BYTES + 2, 7);
    at_every_link(b, 0, 0);
    for (k = 0; k < 2; k++) {
        every_pattern(SIAMRUNG_KIND_DABS, (int)k);
        every_pattern(SIAMRUNG_KIND_ATCRBS, (int)k);
    }
    return compared - before;
}

/* ---- writing a report */

/* As many bytes as are looked at behind a write: more than the line that is written into. */
#define ROOM 512

static void same_write(uint8_t *b, size_t length, size_t at, uint32_t form, uint32_t kind, const uint8_t *items, size_t n)
{
    static uint8_t left[ROOM];

    SAME_IN(form, write_refusal, b, length, at, form, kind, items, n);
    memcpy(left, b, sizeof left);
    same_in(form, "write", (long long)ours.write(b, length, at, form, kind, items, n),
            (long long)plain.write(left, length, at, form, kind, items, n), b, length, at);
    same_in(form, "bytes written", memcmp(left, b, sizeof left), 0, b, length, at);
}

/* In both forms, each over the same bytes. */
static void write_both(uint8_t *b, size_t length, size_t at, uint32_t kind, const uint8_t *items, size_t n)
{
    uint8_t before[ROOM];

    memcpy(before, b, sizeof before);
    same_write(b, length, at, SIAMRUNG_FORM_SIGN_MAGNITUDE, kind, items, n);
    memcpy(b, before, sizeof before);
    same_write(b, length, at, other_form(), kind, items, n);
}

/* Altitudes at the ends of both ranges and around zero; and beyond, some of which would be altitudes if only their low bits were looked at. */
static void chosen_altitudes(uint8_t *b, uint32_t kind)
{
    static const int64_t altitudes[] = {
        -2049, -2048, -2047, -2046, -1, 0, 1, 2046, 2047, 2048, 2049, -4096, -4095, 4095, 4096, 65535, -4294967296, 4294967295, INT64_MIN, INT64_MAX,
    };
    uint8_t items[MOST_ITEMS];
    size_t i, k, n;

    for (i = 0; i < sizeof altitudes / sizeof altitudes[0]; i++) {
        n = altitude_items(kind, altitudes[i], items);
        for (k = 0; k < FORMS; k++)
            same_write(b, 64, rnd() % 28, forms[k], kind, items, n);
    }
}

unsigned long agree_writing(unsigned rounds)
{
    static uint8_t b[ROOM], items[MOST_ITEMS + 16];
    unsigned long before = compared;
    unsigned i, kind;

    for (i = 0; i < rounds; i++) {
        chosen_altitudes(b, SIAMRUNG_KIND_DABS);
        chosen_altitudes(b, SIAMRUNG_KIND_ATCRBS);
        for (kind = 100; kind < 122; kind++) {
            size_t n = report_items(kind, items), at = rnd() % 40;
            memset(b, (int)rnd(), sizeof b);
            write_both(b, 64, at, kind, items, n);
            write_both(b, 64 + rnd() % 2, at, kind, items, n);
            put_be64(items + n, rnd() % 40);
            put_be64(items + n + 8, rnd() % 4);
            write_both(b, 64, at, kind, items, n + 16);
            if (n) {
                write_both(b, 64, at, kind, items, n - 16 + rnd() % 16);
                turn(items, n, 1);
                write_both(b, 64, at, kind, items, n);
                put_be64(items + 16 * (rnd() % (n / 16)) + 8, rnd() % 2 ? rnd() % 8192 : (uint64_t)0 - rnd() % 2100);
                write_both(b, 64, at, kind, items, n);
            }
        }
    }
    return compared - before;
}

/* ---- fields */

static void same_field(const uint8_t *b, size_t length, size_t at, uint32_t from)
{
    uint32_t item;
    size_t k;

    SAME(field_refusal, b, length, at, from);
    SAME(field_type, b, length, at, from);
    SAME(field_inner_type, b, length, at, from);
    SAME(field_entries, b, length, at, from);
    SAME(field_text_place, b, length, at, from);
    SAME(field_text_length, b, length, at, from);
    for (item = 199; item < 240; item++) {
        SAME(field_has, b, length, at, from, item);
        SAME(field_item, b, length, at, from, item);
    }
    for (k = 0; k < 32; k += 1 + rnd() % 3)
        SAME(field_entry, b, length, at, from, k);
}

/* The field that the bytes are, as items, written by both. */
static void same_written(const uint8_t *from, size_t length, size_t bits, uint32_t way)
{
    static uint8_t items[MOST_ITEMS], list[240], b[256], left[256];
    size_t n = 0, at = 0, k, text = plain.field_text_place(from, length, bits, way), size = plain.field_text_length(from, length, bits, way);
    uint32_t item, type = plain.field_inner_type(from, length, bits, way);
    unsigned i;

    for (item = 201; item < 238; item++)
        if (plain.field_has(from, length, bits, way, item)) {
            put_be64(items + n, item);
            put_be64(items + n + 8, plain.field_item(from, length, bits, way, item));
            n += 16;
        }
    for (k = 0; k < 30; k++)
        put_be64(list + 8 * k, (uint64_t)plain.field_entry(from, length, bits, way, k));
    for (i = 0; i < 8; i++) {
        size_t room = i == 1 ? rnd() % 32 : 256;
        if (i > 2)
            turn(items, n, i % 2);
        if (i > 5)
            turn(list, 240, 1);
        memset(b, (int)rnd(), 256);
        memcpy(left, b, 256);
        length = room;
        SAME(field_write_refusal, b, room, type, items, n, list, 240, from + text, i == 2 ? size / 2 : size);
        same("field_write", (long long)ours.field_write(b, room, type, items, n, list, 240, from + text, i == 2 ? size / 2 : size),
             (long long)plain.field_write(left, room, type, items, n, list, 240, from + text, i == 2 ? size / 2 : size), b, room, i);
        same("field bytes written", memcmp(left, b, 256), 0, b, room, i);
    }
}

unsigned long agree_fields(unsigned rounds)
{
    static uint8_t b[256];
    unsigned long before = compared;
    unsigned i, k;

    for (i = 0; i < rounds; i++)
        for (k = 0; k < 21; k++) {
            int relayed = plain_types[types[k]].known == 2 && types[k] != 0x62 && i % 2;
            uint32_t way = plain_types[types[k]].known == 2;
            size_t bits = random_field(types[k], relayed, i % 4 < 2, b), length = (bits + 7) / 8;
            if (plain.field_refusal(b, length, bits, way)) {
                printf("bench: the input of type %02X is refused: %u\n", types[k], plain.field_refusal(b, length, bits, way));
                exit(1);
            }
            same_field(b, length, bits, way);
            same_written(b, length, bits, way);
            same_field(b, length, bits, !way);
            same_field(b, length, bits + 1, way);
            same_field(b, length > 8 ? length - 8 : 0, bits > 64 ? bits - 64 : 0, way);
            turn(b, length, 1 + (unsigned)(rnd() % 2));
            same_field(b, length, bits, way);
            b[relayed ? 2 : 0] = (uint8_t)rnd();
            same_field(b, length, bits, way);
        }
    return compared - before;
}

/* ---- frames: plain C bit by bit, and by bytes */

#define SAME_TWICE(call, ...)                                                                                                               \
    do {                                                                                                                                    \
        long long answer = (long long)ours.call(__VA_ARGS__);                                                                               \
        same(#call, answer, (long long)plain.call(__VA_ARGS__), b, length, at);                                                             \
        same(#call " by bytes", answer, (long long)plain_bytes.call(__VA_ARGS__), b, length, at);                                           \
    } while (0)

/* The field copied into that much room, by all three. */
static void same_copied(const uint8_t *b, size_t length, size_t count, size_t at, size_t room)
{
    static uint8_t x[256], y[256], z[256];
    int before = (int)(rnd() & 255);
    long long n;

    memset(x, before, 256);
    memset(y, before, 256);
    memset(z, before, 256);
    n = (long long)ours.frame_field(b, length, count, at, x, room);
    same("frame_field", n, (long long)plain.frame_field(b, length, count, at, y, room), b, length, at);
    same("frame_field by bytes", n, (long long)plain_bytes.frame_field(b, length, count, at, z, room), b, length, at);
    same("bytes copied", memcmp(x, y, 256) | memcmp(x, z, 256), 0, b, length, at);
}

static void same_frame(const uint8_t *b, size_t length, size_t count, size_t at)
{
    SAME_TWICE(frame_kind, b, length, count, at);
    SAME_TWICE(frame_refusal, b, length, count, at);
    SAME_TWICE(frame_place, b, length, count, at);
    SAME_TWICE(frame_from_sensor, b, length, count, at);
    SAME_TWICE(frame_control, b, length, count, at);
    SAME_TWICE(frame_field_count, b, length, count, at);
    same_copied(b, length, count, at, 251);
    same_copied(b, length, count, at, rnd() % 32);
}

/* Every frame of a stream, and the places around each. Where the place is given back, the next flag is looked for. */
static void whole_stream(const uint8_t *b, size_t length, size_t count)
{
    size_t at = 0, next;

    while (at < count) {
        same_frame(b, length, count, at);
        same_frame(b, length, count, at + rnd() % 16);
        next = plain.frame_place(b, length, count, at);
        if (next == at)
            for (next++; next < count && plain.frame_refusal(b, length, count, next) == SIAMRUNG_FRAME_REFUSAL_COUNT_OR_FLAG; next++)
                ;
        at = next;
    }
    same_frame(b, length, count, count);
    same_frame(b, length, count, count + 1);
    same_frame(b, length, count, (size_t)-1);
    same_frame(b, length, 8 * length + 1, 0);
    same_frame(b, length, (size_t)-1, 0);
}

/* A field of that many bits in as many bytes or one fewer or more, written by all three between a place and a count. */
static void same_frame_written(size_t count, size_t at, size_t bits)
{
    static uint8_t field[512], b[512], y[512], z[512];
    size_t length = (count + 7) / 8, size = (bits + 7) / 8 + rnd() % 16 / 14 - (rnd() % 16 == 0 && bits > 0), i;
    uint32_t from = (uint32_t)rnd() % 3;
    uint8_t control = (uint8_t)rnd();
    long long n;

    for (i = 0; i < 512; i++) {
        field[i] = rnd() % 8 ? (uint8_t)rnd() : 255;
        b[i] = y[i] = z[i] = (uint8_t)rnd();
    }
    length -= rnd() % 32 == 0 && length > 0;
    SAME_TWICE(frame_write_refusal, b, length, count, at, from, control, field, size, bits);
    n = (long long)ours.frame_write(b, length, count, at, from, control, field, size, bits);
    same("frame_write", n, (long long)plain.frame_write(y, length, count, at, from, control, field, size, bits), b, length, at);
    same("frame_write by bytes", n, (long long)plain_bytes.frame_write(z, length, count, at, from, control, field, size, bits), b, length, at);
    same("frame written", memcmp(b, y, 512) | memcmp(b, z, 512), 0, b, length, at);
    SAME_TWICE(frame_write_refusal, b, length, count, at, from, control, field, size, bits);
    if (n != (long long)at)
        same_frame(b, length, count, at);
}

/* Streams that chance seldom makes, each cut at every bit. Spaces stand between the parts; the known frames have no field. */
static void chosen_streams(void)
{
    static const char *const streams[] = {
        "01111110 11000000 111110100 11011010 00110111 01111110 10000000 11001110 11000001 11101010 01111110 01111110",
        "01111110 11000000 111110100 11011010 00110111 0 01111110",
        "01111110 11000000 11111100 11011010 00110111 01111110",
        "01111110 01111110 00000000 11111 01111110",
        "01111110 11111 0 11111 01111110 01111110",
        "01111110 1111110 10000000 11001110 11000001 11101010 01111110",
        "01111110 1111110 1111110 1111110 01111110",
        "01111110 0 1111111 0 01111110",
        "0 01111110 01111110 01111110 000",
    };
    uint8_t b[32];
    size_t i, count;
    const char *bit;

    for (i = 0; i < sizeof streams / sizeof streams[0]; i++) {
        memset(b, 0, sizeof b);
        count = 0;
        for (bit = streams[i]; *bit; bit++) {
            if (*bit == ' ')
                continue;
            b[count / 8] |= (uint8_t)((*bit == '1') << (7 - count % 8));
            count++;
            whole_stream(b, (count + 7) / 8, count);
        }
    }
}

unsigned long agree_frames(unsigned rounds)
{
    static uint8_t b[STREAM_BYTES];
    unsigned long before = compared;
    unsigned i, k;

    chosen_streams();
    same_frame(NULL, 0, 0, 0);
    for (i = 0; i < 8 * rounds; i++) {
        size_t count = odd_stream(b), length = (count + 7) / 8, bits = rnd() % 4 ? rnd() % 200 : rnd() % 2100;
        whole_stream(b, length, count);
        whole_stream(b, (count / 2 + 7) / 8, count / 2);
        turn(b, length, 1 + (unsigned)(rnd() % 4));
        whole_stream(b, length, count);
        same_frame_written(4096, rnd() % 1024, bits);
        same_frame_written(4096, rnd() % 8, 2000 + rnd() % 16);
        for (k = 40; k < 72; k++)
            same_frame_written(bits + bits / 64 + k, rnd() % 4, bits);
        same_frame_written(rnd() % 4096, rnd() % 64, bits);
        same_frame_written(rnd() % 64, rnd() % 2 ? rnd() % 70 : (size_t)-1, bits);
    }
    return compared - before;
}

/* ---- the index */

/* As many entries as a table may have, and some more. */
#define TABLE 520

/* A table, twice: the library enters into the one, plain C into the other. */
struct twice {
    siamrung_entry ours[TABLE], plain[TABLE];
    size_t entries;
};

static void entered_on(struct twice *t, const uint8_t *b, size_t length, size_t at, uint32_t form, uint32_t link)
{
    uint32_t scan = (uint32_t)rnd();

    same_on(form, link, "index_enter", ours.index_enter(t->ours, t->entries, b, length, at, form, link, scan),
            plain.index_enter(t->plain, t->entries, b, length, at, form, link, scan), b, length, at);
    same_on(form, link, "table", memcmp(t->ours, t->plain, sizeof t->ours), 0, b, length, at);
}

/* By some link, and now and then first by a greater number, which enters nothing. */
static void same_entered(struct twice *t, const uint8_t *b, size_t length, size_t at, uint32_t form)
{
    if (rnd() % 8 == 0)
        entered_on(t, b, length, at, form, greater_number());
    entered_on(t, b, length, at, form, link_number());
}

static void same_found(const struct twice *t, uint32_t number)
{
    same("index_find", ours.index_find(t->ours, t->entries, number), plain.index_find(t->plain, t->entries, number), NULL, 0, number);
}

/* Every run of a line entered, and places inside some; then numbers looked for. */
static void whole_index(struct twice *t, const uint8_t *b, size_t length, uint32_t form)
{
    size_t at = 0, next;
    uint32_t track;

    for (;; at = next) {
        same_entered(t, b, length, at, form);
        if (rnd() % 8 == 0)
            same_entered(t, b, length, at + rnd() % 8, form);
        next = plain.after(b, length, at, form, 0);
        if (next == at)
            break;
    }
    same_entered(t, b, length, at + 1, form);
    same_entered(t, b, length, (size_t)-1, form);
    for (track = 0; track < 40; track += 1 + (uint32_t)rnd() % 4)
        same_found(t, track_number(track));
    same_found(t, 0);
    same_found(t, 65536 + track_number(0));
    same_found(t, (uint32_t)rnd());
    same_found(t, t->entries == 0 ? 65535 : t->ours[rnd() % t->entries].number);
}

/* A table of that many entries: mostly sound, else with a gap, with a number once more, or with any number somewhere. What else stands in an
 * unused entry is random. */
static void random_table(struct twice *t, size_t entries)
{
    size_t i, used = rnd() % 4 ? rnd() % (entries + 1) : entries, from = rnd() % 32, at = rnd() % TABLE;

    for (i = 0; i < TABLE; i++)
        t->ours[i] = (siamrung_entry){i < used ? track_number(from + i) : 0, (uint16_t)rnd(), (uint32_t)rnd(), rnd()};
    switch (rnd() % 8) {
    case 0:
        t->ours[at % (used + 1)].number = 0;
        break;
    case 1:
        t->ours[at % (used + 1)].number = t->ours[rnd() % (used + 1)].number;
        break;
    case 2:
        t->ours[at].number = (uint16_t)rnd();
        break;
    default:
        break;
    }
    memcpy(t->plain, t->ours, sizeof t->ours);
    t->entries = entries;
}

/* The lines that are measured, into an empty table of that many entries, and again into what that made. */
static void measured_tables(struct twice *t, size_t entries)
{
    static uint8_t b[2 * 8192];

    memset(t, 0, sizeof *t);
    t->entries = entries;
    tracks_16(b, sizeof b / 2);
    whole_index(t, b, sizeof b, SIAMRUNG_FORM_SIGN_MAGNITUDE);
    tracks_512(b, sizeof b / 2);
    whole_index(t, b, sizeof b, SIAMRUNG_FORM_SIGN_MAGNITUDE);
    whole_index(t, b, sizeof b, SIAMRUNG_FORM_SIGN_MAGNITUDE);
}

static void without_table(const uint8_t *b, uint32_t form, uint32_t link)
{
    same_on(form, link, "index_enter without a table", ours.index_enter(NULL, 0, b, 64, 0, form, link, 1),
            plain.index_enter(NULL, 0, b, 64, 0, form, link, 1), b, 64, 0);
}

unsigned long agree_index(unsigned rounds)
{
    static struct twice t;
    static uint8_t b[MOST_BYTES + 2];
    unsigned long before = compared;
    fill_line *make;
    unsigned i;

    measured_tables(&t, 512);
    measured_tables(&t, 16);
    for (i = 0; i < 32 * rounds; i++) {
        size_t n = 1 + rnd() % 200;
        random_table(&t, rnd() % 2 ? rnd() % 40 : rnd() % 8 ? 500 + rnd() % 13 : 513 + rnd() % 7);
        make = rnd() % 2 ? mixed_tracks : altitude_tracks;
        make(b, n);
        turn(b, 2 * n, rnd() % 2 ? 0 : (unsigned)(rnd() % 8));
        whole_index(&t, b, 2 * n - (rnd() % 16 == 0), forms[rnd() % FORMS]);
    }
    mixed_tracks(b, MOST_BYTES / 2 + 1);
    for (i = 0; i < FORMS; i++) {
        whole_index(&t, b, MOST_BYTES + 1, forms[i]);
        whole_index(&t, b, MOST_BYTES + 2, forms[i]);
        without_table(b, forms[i], link_number());
        without_table(b, forms[i], greater_number());
    }
    same("index_find without a table", ours.index_find(NULL, 0, 1), plain.index_find(NULL, 0, 1), NULL, 0, 1);
    return compared - before;
}

/* ---- manners: plain C in two passes, and in one */

/* Room for the breaches of any line, and some more. */
#define LIST (4 * SIAMRUNG_MOST_BREACHES + 16)

/* The breaches listed by all three into so much of a list; the bytes behind them are as they were, and all of them after a refusal. */
static void same_list(const uint8_t *b, size_t length, uint32_t form, size_t room)
{
    static uint8_t before[LIST], x[LIST], y[LIST], z[LIST];
    uint32_t answer;
    size_t written = 0;

    memset(before, (int)(rnd() & 255), LIST);
    memcpy(x, before, LIST);
    memcpy(y, before, LIST);
    memcpy(z, before, LIST);
    answer = ours.manners(b, length, form, x, room);
    same_in(form, "manners", answer, plain.manners(b, length, form, y, room), b, length, room);
    same_in(form, "manners in one pass", answer, plain_once.manners(b, length, form, z, room), b, length, room);
    same_in(form, "breaches listed", memcmp(x, y, LIST) | memcmp(x, z, LIST), 0, b, length, room);
    if (siamrung_manners_done(answer) == SIAMRUNG_MANNERS_LISTED)
        written = 4 * siamrung_manners_breaches(answer);
    same_in(form, "bytes behind the breaches", memcmp(x + written, before + written, LIST - written), 0, b, length, room);
}

/* No list, lists around the least that is large enough, and larger and smaller ones. */
static void list_in(const uint8_t *b, size_t length, uint32_t form)
{
    size_t at = 0, enough = 4 * siamrung_manners_breaches(plain.manners(b, length, form, NULL, 0));

    SAME_IN(form, manners, b, length, form, NULL, 0);
    same_list(b, length, form, 0);
    same_list(b, length, form, enough);
    same_list(b, length, form, enough + 1);
    same_list(b, length, form, 4 * SIAMRUNG_MOST_BREACHES);
    same_list(b, length, form, LIST);
    if (enough == 0)
        return;
    same_list(b, length, form, enough - 1);
    same_list(b, length, form, enough - 4);
    same_list(b, length, form, rnd() % enough);
}

static void list_both(const uint8_t *b, size_t length)
{
    list_in(b, length, SIAMRUNG_FORM_SIGN_MAGNITUDE);
    list_in(b, length, other_form());
}

unsigned long agree_manners(unsigned rounds)
{
    static uint8_t b[MOST_BYTES + 2];
    fill_line *fills[] = {no_breach, few_breaches, all_breaches, idle_breaches, most_breaches, sevens, fours, full_line, idle_line, long_run,
                          bad_words, bad_run, mixed_tracks, altitude_tracks};
    unsigned long before = compared;
    unsigned i, k;

    for (k = 0; k < sizeof fills / sizeof fills[0]; k++) {
        for (i = 0; i < 2 * rounds; i++) {
            size_t n = 1 + rnd() % 400;
            fills[k](b, n);
            list_both(b, 2 * n);
            turn(b, 2 * n, (unsigned)(rnd() % 8) * (unsigned)(n / 32 + 1));
            list_both(b, 2 * n);
            list_both(b, 2 * n - 1);
        }
        for (i = 0; i < 1 + rounds / 8; i++) {
            fills[k](b, MOST_BYTES / 2);
            list_both(b, MOST_BYTES);
            turn(b, MOST_BYTES, 1 + (unsigned)(rnd() % 256));
            list_both(b, MOST_BYTES);
            list_both(b, MOST_BYTES - 2);
        }
        list_both(b, MOST_BYTES + 1);
        list_both(b, MOST_BYTES + 2);
    }
    list_both(NULL, 0);
    return compared - before;
}
