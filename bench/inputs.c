/*
 * inputs.c: what both libraries are run on. A small generator with a fixed seed, so that every machine measures the same bytes.
 */
#include <string.h>

#include "bench.h"
#include "plain_field.h"

#define IDLE 1023u

uint64_t rnd(void)
{
    static uint64_t x = 88172645463325252u;

    x ^= x << 13;
    x ^= x >> 7;
    x ^= x << 17;
    return x >> 16;
}

void put_word(uint8_t *b, size_t i, unsigned w)
{
    b[2 * i] = (uint8_t)(w >> 8);
    b[2 * i + 1] = (uint8_t)w;
}

void put_be64(uint8_t *b, uint64_t x)
{
    int i;

    for (i = 7; i >= 0; i--, x >>= 8)
        b[i] = (uint8_t)x;
}

/* ---- reports and lines */

size_t report_items(uint32_t kind, uint8_t *items)
{
    uint64_t all = plain_items_of(kind);
    uint8_t *at = items;

    if (kind == SIAMRUNG_KIND_DABS || kind == SIAMRUNG_KIND_ATCRBS)
        all |= (uint64_t)1 << (rnd() % 2 ? SIAMRUNG_ITEM_ALTITUDE : SIAMRUNG_ITEM_CARRIED);
    for (; all; all &= all - 1, at += 16) {
        unsigned item = (unsigned)__builtin_ctzll(all);
        put_be64(at, item);
        if (item == SIAMRUNG_ITEM_ALTITUDE)
            put_be64(at + 8, (uint64_t)((int64_t)(rnd() % 4095) - 2047));
        else
            put_be64(at + 8, rnd() & (((uint64_t)1 << plain_width(kind, item)) - 1));
    }
    return (size_t)(at - items);
}

/* The altitude stands in the place of the last item, which is ALTITUDE or CARRIED. */
size_t altitude_items(uint32_t kind, int64_t altitude, uint8_t *items)
{
    size_t length = report_items(kind, items);

    put_be64(items + length - 16, SIAMRUNG_ITEM_ALTITUDE);
    put_be64(items + length - 8, (uint64_t)altitude);
    return length;
}

static size_t put_report(uint8_t *b, size_t n, size_t place)
{
    uint8_t items[MOST_ITEMS];
    uint32_t kind = SIAMRUNG_KIND_SEARCH + (uint32_t)(rnd() % 15);

    return plain_write(b, 2 * n, place, SIAMRUNG_FORM_SIGN_MAGNITUDE, kind, items, report_items(kind, items));
}

static void idle(uint8_t *b, size_t n)
{
    size_t i;

    for (i = 0; i < n; i++)
        put_word(b, i, IDLE);
}

void full_line(uint8_t *b, size_t n)
{
    size_t place = 0;

    idle(b, n);
    while (place + 8 <= n)
        place = put_report(b, n, place);
}

void idle_line(uint8_t *b, size_t n)
{
    size_t place = 0;

    idle(b, n);
    while (place + 8 <= n)
        place = put_report(b, n, place) + 64 + rnd() % 128;
}

static unsigned good_word(void)
{
    unsigned w = (unsigned)rnd() & 8190;

    return w | (~(unsigned)__builtin_popcount(w) & 1);
}

static unsigned bad_word(size_t i)
{
    return i / 2 % 2 ? good_word() | 8192u << rnd() % 3 : (good_word() ^ 1) == IDLE ? 0 : good_word() & 8190 & ~1022u;
}

void long_run(uint8_t *b, size_t n)
{
    size_t i;

    for (i = 0; i < n; i++)
        put_word(b, i, good_word());
}

/* A bad word, an idle word, and so on: as many runs as a line can have. */
void bad_words(uint8_t *b, size_t n)
{
    size_t i;

    for (i = 0; i < n; i++)
        put_word(b, i, i % 2 ? IDLE : bad_word(i));
}

/* A good word, a bad word, and so on: one run. */
void bad_run(uint8_t *b, size_t n)
{
    size_t i;

    for (i = 0; i < n; i++)
        put_word(b, i, i % 2 ? bad_word(i) : good_word());
}

/* ---- tracks */

uint16_t track_number(size_t track)
{
    return (uint16_t)(1 + track * 1571 % 4095);
}

/* Gives the items that file number, if the kind has one. */
static void put_number(uint8_t *items, size_t length, uint16_t number)
{
    size_t i;

    for (i = 0; i < length; i += 16)
        if (items[i + 7] == SIAMRUNG_ITEM_FILE)
            put_be64(items + i + 8, number);
}

static size_t put_track(uint8_t *b, size_t n, size_t place, uint32_t kind, uint16_t number)
{
    uint8_t items[MOST_ITEMS];
    size_t length = report_items(kind, items);

    put_number(items, length, number);
    return plain_write(b, 2 * n, place, SIAMRUNG_FORM_SIGN_MAGNITUDE, kind, items, length);
}

static void tracks_of(uint8_t *b, size_t n, size_t most)
{
    size_t place = 0, come = 0, i, track;

    idle(b, n);
    for (i = 0; place + 8 <= n; i++) {
        track = come == most || i % 8 == 7 ? rnd() % come : come++;
        place = put_track(b, n, place, SIAMRUNG_KIND_ATCRBS, track_number(track));
    }
}

void tracks_512(uint8_t *b, size_t n)
{
    tracks_of(b, n, 512);
}

void tracks_16(uint8_t *b, size_t n)
{
    tracks_of(b, n, 16);
}

void mixed_tracks(uint8_t *b, size_t n)
{
    size_t place = 0;

    idle(b, n);
    while (place + 8 <= n) {
        uint32_t kind = SIAMRUNG_KIND_SEARCH + (uint32_t)(rnd() % 15);
        uint16_t number = rnd() % 8 ? track_number(rnd() % 24) : 0;
        place = put_track(b, n, place, kind, number) + rnd() % 2;
    }
}

void altitude_tracks(uint8_t *b, size_t n)
{
    uint8_t items[MOST_ITEMS];
    size_t place = 0, length;

    idle(b, n);
    while (place + 8 <= n) {
        uint32_t kind = rnd() % 2 ? SIAMRUNG_KIND_DABS : SIAMRUNG_KIND_ATCRBS;
        length = altitude_items(kind, rnd() % 4 ? (int64_t)(rnd() % 4096) - 2048 : -2048, items);
        put_number(items, length, track_number(rnd() % 24));
        place = plain_write(b, 2 * n, place, SIAMRUNG_FORM_TWOS_COMPLEMENT, kind, items, length);
    }
}

/* ---- manners */

/* Whether the report between the places breaks a rule. */
static int breaks(const uint8_t *b, size_t place, size_t after)
{
    uint32_t answer = plain_manners(b + 2 * place, 2 * (after - place), SIAMRUNG_FORM_SIGN_MAGNITUDE, NULL, 0);

    return siamrung_manners_breaches(answer) != 0;
}

/* A random report that breaks no rule. Each try begins with idle words, because the one before may have been longer. */
static size_t put_mannered(uint8_t *b, size_t n, size_t place)
{
    size_t after;

    do {
        idle(b + 2 * place, 8);
        after = put_report(b, n, place);
    } while (breaks(b, place, after));
    return after;
}

/* A random report of so many kinds from a first one on, that breaks a rule. An ATCRBS without substitution has an altitude of zero. */
static size_t put_breach(uint8_t *b, size_t n, size_t place, uint32_t first, uint32_t kinds)
{
    uint8_t items[MOST_ITEMS];
    uint32_t kind;
    size_t after, length;

    do {
        kind = first + (uint32_t)(rnd() % kinds);
        length = kind == SIAMRUNG_KIND_ATCRBS ? altitude_items(kind, 0, items) : report_items(kind, items);
        after = plain_write(b, 2 * n, place, SIAMRUNG_FORM_SIGN_MAGNITUDE, kind, items, length);
    } while (!breaks(b, place, after));
    return after;
}

/* A report that breaks one of the four rules. */
static size_t put_any_breach(uint8_t *b, size_t n, size_t place)
{
    switch (1 + rnd() % 4) {
    case SIAMRUNG_BREACH_SUBSTITUTION_MODE3A:
        return put_breach(b, n, place, SIAMRUNG_KIND_ATCRBS_CD, 3);
    case SIAMRUNG_BREACH_RELAY_WITHOUT_MODE_C:
        return put_breach(b, n, place, SIAMRUNG_KIND_DABS, 4);
    case SIAMRUNG_BREACH_MODE_C_ALL_ZEROS:
        return put_breach(b, n, place, SIAMRUNG_KIND_ATCRBS, 1);
    default:
        return put_breach(b, n, place, SIAMRUNG_KIND_MAP, 1);
    }
}

void no_breach(uint8_t *b, size_t n)
{
    size_t place = 0;

    idle(b, n);
    while (place + 8 <= n)
        place = put_mannered(b, n, place);
}

void few_breaches(uint8_t *b, size_t n)
{
    size_t place = 0;

    idle(b, n);
    while (place + 8 <= n)
        place = rnd() % 64 == 0 || place + 16 > n ? put_any_breach(b, n, place) : put_mannered(b, n, place);
}

void all_breaches(uint8_t *b, size_t n)
{
    size_t place = 0;

    idle(b, n);
    while (place + 8 <= n)
        place = put_any_breach(b, n, place);
}

void idle_breaches(uint8_t *b, size_t n)
{
    size_t place = 0;

    idle(b, n);
    while (place + 8 <= n)
        place = put_any_breach(b, n, place) + 64 + rnd() % 128;
}

void most_breaches(uint8_t *b, size_t n)
{
    size_t place = 0;

    idle(b, n);
    while (place + 5 <= n)
        place = put_breach(b, n, place, SIAMRUNG_KIND_MAP, 1);
}

/* Twelve bits and the parity bit. */
static void put_odd(uint8_t *b, size_t i, unsigned bits)
{
    put_word(b, i, bits << 1 | (~(unsigned)__builtin_popcount(bits) & 1));
}

/* The last word is zero or nearly so, minus zero, or names a radar. Bits 45 and 46, spare in DABS, are mostly zero. */
void sevens(uint8_t *b, size_t n)
{
    static const unsigned last[] = {0, 0, 1, 1024, 2048, 2049, 4, 4, 5, 5, 6, 6, 2, 3};
    size_t place = 0, i;
    unsigned first, spare;

    idle(b, n);
    for (first = (unsigned)rnd(); place + 8 <= n; first++, place += 8) {
        spare = rnd() % 4 ? 96 : 0;
        put_odd(b, place, first & 4095);
        for (i = 1; i < 6; i++)
            put_odd(b, place + i, (unsigned)rnd() & (i == 3 ? 4095 - spare : 4095));
        put_odd(b, place + 6, last[rnd() % (sizeof last / sizeof last[0])]);
    }
}

/* The last bits of the second word and of the fourth, spare in a Map, are mostly zero. The fourth is below the second by one, the same, or above by
 * one. */
void fours(uint8_t *b, size_t n)
{
    size_t place = 0;
    unsigned first, start, stop;

    idle(b, n);
    for (first = (unsigned)rnd(); place + 5 <= n; first++, place += 5) {
        start = 1 + (unsigned)(rnd() % 2046);
        stop = start - 1 + (unsigned)(rnd() % 3);
        put_odd(b, place, first & 4095);
        put_odd(b, place + 1, start << 1 | (rnd() % 16 == 0));
        put_odd(b, place + 2, (unsigned)rnd() & 4095);
        put_odd(b, place + 3, stop << 1 | (rnd() % 16 == 0));
    }
}

/* ---- fields: random bytes, then what is spare or not in use mended */

const unsigned types[21] = {
    0x21, 0x22, 0x23, 0x24, 0x02, 0x25, 0x61, 0x9B, 0x99, 0x65, 0x9A, 0x96, 0x31, 0x32, 0x41, 0x42, 0x43, 0x44, 0x45, 0x62, 0x83,
};

/* Of each type: the byte where its counts or small numbers stand, what may be random in it, what must be one. */
struct shape {
    unsigned at, any, set;
};

static struct shape shape_of(unsigned type)
{
    struct shape s[] = {{4, 0xFF, 0x11}, {4, 0xF0, 0x10}, {4, 0xFF, 0x11}, {1, 0x0F, 0}, {1, 0xC0, 0x40}, {1, 0xF3, 1}, {1, 0xFF, 0},
                        {4, 0xF6, 0x10}, {4, 0xF8, 0x10}, {4, 0x0F, 0},    {4, 0x3F, 0}};

    switch (type) {
    case 0x21: case 0x22: case 0x23: return s[0];
    case 0x24: case 0x02: return s[1];
    case 0x25: return s[2];
    case 0x9B: return s[3];
    case 0x99: return s[4];
    case 0x65: return s[5];
    case 0x9A: case 0x96: return s[6];
    case 0x31: return s[7];
    case 0x32: return s[8];
    case 0x42: case 0x45: return s[9];
    case 0x43: return s[10];
    default: return (struct shape){0, 0xFF, 0};
    }
}

static void mend(uint8_t *b, unsigned type, int largest)
{
    struct shape s = shape_of(type);
    unsigned i;

    b[s.at] = (uint8_t)((largest ? 0xFF & s.any : b[s.at] & s.any) | s.set);
    b[0] = (uint8_t)type;
    if (type == 0x22)
        b[5] = largest ? 15 : (uint8_t)((b[5] & 15) | 1);
    if (type == 0x23)
        b[5] = 0x10;
    if (type == 0x65)
        b[2] = 0;
    if (type == 0x31)
        b[4] &= 0xF8;
    if (type == 0x44)
        b[11] &= 0xF8;
    if (type == 0x83) {
        b[8] &= 0xF5;
        b[10] &= 0xF5;
        b[11] &= 0xC0;
    }
    for (i = 2; type == 0x9B && i < 18; i++)
        b[i] = (uint8_t)((b[i] & 0xF7) == 0x80 ? 0x11 : b[i] & 0xF7);
}

size_t random_field(unsigned type, int relayed, int largest, uint8_t *bytes)
{
    uint8_t *b = bytes + (relayed ? 2 : 0);
    size_t i, bits;
    uint64_t steps = 0;

    for (i = 0; i < 256; i++)
        bytes[i] = (uint8_t)rnd();
    if (relayed)
        bytes[0] = SIAMRUNG_TYPE_RELAY;
    mend(b, type, largest);
    switch (type) {
    case 0x22: steps = (b[5] & 15u) + 1; break;
    case 0x42: steps = (b[4] & 15u) + 1; break;
    case 0x9B: steps = (b[1] & 15u) + 1; break;
    case 0x9A: steps = (b[1] >> 5) + (b[1] >> 2 & 7u) + (b[1] & 3u); break;
    case 0x96: steps = (b[1] >> 4) + (b[1] & 15u); break;
    default: break;
    }
    bits = (relayed ? 16u : 0u) + plain_types[type].base + plain_types[type].step * steps;
    return bits;
}

/* ---- streams: a bit at a time, from a place on */

struct stream {
    uint8_t *b;
    size_t at;
    unsigned ones, check;
};

static void put_bits(struct stream *s, unsigned x, unsigned n)
{
    while (n--) {
        uint8_t mask = (uint8_t)(0x80u >> s->at % 8);
        s->b[s->at / 8] = (uint8_t)(x >> n & 1 ? s->b[s->at / 8] | mask : s->b[s->at / 8] & ~mask);
        s->at++;
    }
}

static void put_flags(struct stream *s, unsigned n)
{
    while (n--)
        put_bits(s, 0x7E, 8);
}

/* The n low bits of a number, with inserted zeros. */
static void put_between(struct stream *s, unsigned x, unsigned n)
{
    while (n--) {
        unsigned bit = x >> n & 1;
        put_bits(s, bit, 1);
        s->check = (s->check << 1 & 0xFFFF) ^ (s->check >> 15 == bit ? 0 : 0x1021u);
        s->ones = bit ? s->ones + 1 : 0;
        if (s->ones == 5) {
            put_bits(s, 0, 1);
            s->ones = 0;
        }
    }
}

/* What stands between two flags, with a random field. Some bytes are all ones, so that many zeros are inserted. */
static void put_frame(struct stream *s, unsigned address, size_t bits)
{
    s->ones = 0;
    s->check = 0xFFFF;
    put_between(s, address, 8);
    put_between(s, (unsigned)rnd() & 255, 8);
    for (; bits >= 8; bits -= 8)
        put_between(s, rnd() % 16 ? (unsigned)rnd() & 255 : 255, 8);
    put_between(s, (unsigned)rnd() & 255, (unsigned)bits);
    put_between(s, ~s->check & 0xFFFF, 16);
}

static unsigned way(void)
{
    return rnd() % 2 ? 0xC0 : 0x80;
}

/* A frame has at most 2448 bits between its flags. */
size_t full_stream(uint8_t *b, size_t n)
{
    struct stream s = {b, 0, 0, 0};

    while (8 * n - s.at > 2448 + 8 * 4) {
        unsigned address = way();
        size_t most = rnd() % 8 ? 256 : 2008;
        put_flags(&s, 1 + (unsigned)(rnd() % 8 / 6));
        put_frame(&s, address, rnd() % (most + 1));
    }
    put_flags(&s, 2);
    return s.at;
}

/* A piece of a stream: mostly a frame, else something that is none. */
static void put_piece(struct stream *s)
{
    unsigned address = way(), any = (unsigned)rnd();
    size_t n = rnd();

    switch (rnd() % 12) {
    case 0:
        put_frame(s, any & 255, n % 64);
        break;
    case 1:
        put_frame(s, address, 2007 + n % 4);
        break;
    case 2:
        put_frame(s, address, 2000 + n % 600);
        break;
    case 3:
        s->ones = 0;
        put_between(s, any, (unsigned)(n % 33));
        break;
    case 4:
        put_bits(s, 0x1FF, (unsigned)(n % 10));
        break;
    case 5:
        for (n %= 200; n; n--)
            put_bits(s, rnd() % 4 != 0, 1);
        break;
    case 6:
        /* the next flag begins with the zero of the last one */
        s->at -= s->at > 0;
        break;
    default:
        put_frame(s, address, any % 4 ? n % 200 : n % 9);
        break;
    }
}

size_t odd_stream(uint8_t *b)
{
    struct stream s = {b, 0, 0, 0};
    unsigned pieces = (unsigned)(rnd() % 8), before = rnd() % 2 ? 0 : (unsigned)(rnd() % 12);

    put_bits(&s, (unsigned)rnd(), before);
    while (pieces--) {
        put_flags(&s, 1 + (unsigned)(rnd() % 6 / 4));
        put_piece(&s);
    }
    put_flags(&s, (unsigned)(rnd() % 4));
    return s.at;
}
