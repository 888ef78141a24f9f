/*
 * plain_frame.c: the reader and the writer of a frame by hand, twice. The first goes bit by bit, as a receiver does: a shift register for the
 * flag, a count of ones, the register of the check sequence. The second goes by words of 48 bits: a shift and an and find five ones, the bits
 * between are moved at once, and a table of 256 entries gives the check sequence.
 */
#include <string.h>

#include "plain_frame.h"

#define FLAG 0x7Eu
#define TO_SENSOR 0xC0u
#define FROM_SENSOR 0x80u
#define MOST_BITS 2040
#define MOST_FIELD 2008
/* what the register of the check sequence holds behind a frame and its right check sequence */
#define RIGHT 0x1D0Fu

/* What is read at a place. held has room for a word behind the bits. */
struct frame {
    uint32_t kind, refusal;
    size_t place, bits;
    unsigned check;
    uint8_t held[MOST_BITS / 8 + 9];
};

/* Reads from the end of the opening flag on: a refusal, or 0 with the place of the closing flag, the bits and the check register. */
typedef uint32_t read_between(const uint8_t *b, size_t count, size_t at, struct frame *f);

static int over(size_t count, size_t length)
{
    return count / 8 + (count % 8 != 0) > length;
}

static int flag_at(const uint8_t *b, size_t count, size_t place)
{
    unsigned x;

    if (place > count || count - place < 8)
        return 0;
    x = (unsigned)b[place / 8] << 8;
    if (place % 8)
        x |= b[place / 8 + 1];
    return (x >> (8 - place % 8) & 255) == FLAG;
}

static uint32_t judge(const struct frame *f)
{
    if (f->bits < 32 || f->bits > MOST_BITS)
        return SIAMRUNG_FRAME_REFUSAL_WRONG_LENGTH;
    if (f->check != RIGHT)
        return SIAMRUNG_FRAME_REFUSAL_WRONG_CHECK;
    if (f->held[0] != TO_SENSOR && f->held[0] != FROM_SENSOR)
        return SIAMRUNG_FRAME_REFUSAL_UNKNOWN_ADDRESS;
    return 0;
}

static inline void read_frame(const uint8_t *b, size_t length, size_t count, size_t place, read_between *between, struct frame *f)
{
    size_t last = place;

    f->kind = SIAMRUNG_KIND_REFUSED;
    f->place = place;
    f->refusal = SIAMRUNG_FRAME_REFUSAL_COUNT_OR_FLAG;
    if (over(count, length) || !flag_at(b, count, place))
        return;
    while (flag_at(b, count, last + 8))
        last += 8;
    if (last + 8 == count) {
        f->kind = SIAMRUNG_KIND_END;
        f->place = count;
        f->refusal = 0;
        return;
    }
    f->refusal = between(b, count, last + 8, f);
    if (f->refusal)
        return;
    f->refusal = judge(f);
    if (!f->refusal)
        f->kind = SIAMRUNG_KIND_FRAME;
}

static size_t copy_field(const struct frame *f, uint8_t *field, size_t field_length)
{
    size_t bits, n;

    if (f->kind != SIAMRUNG_KIND_FRAME)
        return 0;
    bits = f->bits - 32;
    n = (bits + 7) / 8;
    if (n == 0 || n > field_length)
        return 0;
    memcpy(field, f->held + 2, n);
    if (bits % 8)
        field[n - 1] &= (uint8_t)(0xFF00u >> bits % 8);
    return n;
}

/* The refusals of the writer that need no frame. A frame has at least 48 bits. */
static uint32_t judge_writing(size_t length, size_t count, size_t place, size_t field_length, size_t field_count)
{
    if (over(count, length) || over(field_count, field_length))
        return SIAMRUNG_FRAME_REFUSAL_COUNT_OR_FLAG;
    if (field_count > MOST_FIELD)
        return SIAMRUNG_FRAME_REFUSAL_WRONG_LENGTH;
    if (place > count || count - place < 48)
        return SIAMRUNG_FRAME_REFUSAL_NO_ROOM;
    return 0;
}

/* ---- bit by bit */

static unsigned bit_at(const uint8_t *b, size_t i)
{
    return b[i / 8] >> (7 - i % 8) & 1u;
}

static unsigned check_bit(unsigned check, unsigned bit)
{
    return (check << 1 & 0xFFFF) ^ ((check >> 15 ^ bit) & 1 ? 0x1021u : 0);
}

/* The next eight bits are in a shift register, with zeros behind the count; the bits that are kept go into a byte. */
static uint32_t between_by_bits(const uint8_t *b, size_t count, size_t at, struct frame *f)
{
    unsigned next = 0, ones = 0, byte = 0, check = 0xFFFF, bit;
    size_t bits = 0, i;

    for (i = at; i < at + 8; i++)
        next = next << 1 | (i < count ? bit_at(b, i) : 0);
    for (; at < count; at++) {
        if (next == FLAG && count - at >= 8)
            break;
        bit = next >> 7;
        next = (next << 1 & 255) | (count - at > 8 ? bit_at(b, at + 8) : 0);
        if (ones < 5) {
            check = check_bit(check, bit);
            ones = bit ? ones + 1 : 0;
            byte = byte << 1 | bit;
            if (++bits % 8 == 0 && bits <= MOST_BITS)
                f->held[bits / 8 - 1] = (uint8_t)byte;
        } else if (bit) {
            return SIAMRUNG_FRAME_REFUSAL_ZERO_MISSING;
        } else {
            ones = 0;
        }
    }
    if (ones == 5)
        return SIAMRUNG_FRAME_REFUSAL_ZERO_MISSING;
    if (at == count)
        return SIAMRUNG_FRAME_REFUSAL_NO_CLOSING_FLAG;
    if (bits < MOST_BITS)
        f->held[bits / 8] = (uint8_t)(byte << (8 - bits % 8));
    f->place = at;
    f->bits = bits;
    f->check = check;
    return 0;
}

/* Where bits go, and what has gone. Without bytes they are only counted. */
struct out {
    uint8_t *b;
    size_t at;
    unsigned ones, check;
};

static inline void put_bit(struct out *o, unsigned bit)
{
    uint8_t mask = (uint8_t)(0x80u >> o->at % 8);

    if (o->b)
        o->b[o->at / 8] = (uint8_t)(bit ? o->b[o->at / 8] | mask : o->b[o->at / 8] & ~mask);
    o->at++;
}

static inline void send_bit(struct out *o, unsigned bit)
{
    put_bit(o, bit);
    o->check = check_bit(o->check, bit);
    o->ones = bit ? o->ones + 1 : 0;
    if (o->ones == 5) {
        put_bit(o, 0);
        o->ones = 0;
    }
}

static void send_number(struct out *o, unsigned x, int n)
{
    while (n--)
        send_bit(o, x >> n & 1);
}

static void put_flag(struct out *o)
{
    int i;

    for (i = 7; i >= 0; i--)
        put_bit(o, FLAG >> i & 1);
}

/* Answers the place of the closing flag. */
static size_t send_frame(uint8_t *b, size_t place, uint32_t from_sensor, uint8_t control, const uint8_t *field, size_t field_count)
{
    struct out o = {b, place, 0, 0xFFFF};
    size_t i;

    put_flag(&o);
    send_number(&o, from_sensor ? FROM_SENSOR : TO_SENSOR, 8);
    send_number(&o, control, 8);
    for (i = 0; i < field_count; i++)
        send_bit(&o, bit_at(field, i));
    send_number(&o, ~o.check & 0xFFFF, 16);
    put_flag(&o);
    return o.at - 8;
}

uint32_t plain_frame_write_refusal(const uint8_t *bytes, size_t length, size_t count, size_t place, uint32_t from_sensor, uint8_t control,
                                   const uint8_t *field, size_t field_length, size_t field_count)
{
    uint32_t refusal = judge_writing(length, count, place, field_length, field_count);

    (void)bytes;
    if (!refusal && send_frame(NULL, 0, from_sensor, control, field, field_count) + 8 > count - place)
        refusal = SIAMRUNG_FRAME_REFUSAL_NO_ROOM;
    return refusal;
}

size_t plain_frame_write(uint8_t *bytes, size_t length, size_t count, size_t place, uint32_t from_sensor, uint8_t control, const uint8_t *field,
                         size_t field_length, size_t field_count)
{
    if (plain_frame_write_refusal(bytes, length, count, place, from_sensor, control, field, field_length, field_count))
        return place;
    return send_frame(bytes, place, from_sensor, control, field, field_count);
}

/* ---- by bytes and words */

static const uint16_t check_table[256] = {
    0x0000, 0x1021, 0x2042, 0x3063, 0x4084, 0x50A5, 0x60C6, 0x70E7, 0x8108, 0x9129, 0xA14A, 0xB16B, 0xC18C, 0xD1AD, 0xE1CE, 0xF1EF,
    0x1231, 0x0210, 0x3273, 0x2252, 0x52B5, 0x4294, 0x72F7, 0x62D6, 0x9339, 0x8318, 0xB37B, 0xA35A, 0xD3BD, 0xC39C, 0xF3FF, 0xE3DE,
    0x2462, 0x3443, 0x0420, 0x1401, 0x64E6, 0x74C7, 0x44A4, 0x5485, 0xA56A, 0xB54B, 0x8528, 0x9509, 0xE5EE, 0xF5CF, 0xC5AC, 0xD58D,
    0x3653, 0x2672, 0x1611, 0x0630, 0x76D7, 0x66F6, 0x5695, 0x46B4, 0xB75B, 0xA77A, 0x9719, 0x8738, 0xF7DF, 0xE7FE, 0xD79D, 0xC7BC,
    0x48C4, 0x58E5, 0x6886, 0x78A7, 0x0840, 0x1861, 0x2802, 0x3823, 0xC9CC, 0xD9ED, 0xE98E, 0xF9AF, 0x8948, 0x9969, 0xA90A, 0xB92B,
    0x5AF5, 0x4AD4, 0x7AB7, 0x6A96, 0x1A71, 0x0A50, 0x3A33, 0x2A12, 0xDBFD, 0xCBDC, 0xFBBF, 0xEB9E, 0x9B79, 0x8B58, 0xBB3B, 0xAB1A,
    0x6CA6, 0x7C87, 0x4CE4, 0x5CC5, 0x2C22, 0x3C03, 0x0C60, 0x1C41, 0xEDAE, 0xFD8F, 0xCDEC, 0xDDCD, 0xAD2A, 0xBD0B, 0x8D68, 0x9D49,
    0x7E97, 0x6EB6, 0x5ED5, 0x4EF4, 0x3E13, 0x2E32, 0x1E51, 0x0E70, 0xFF9F, 0xEFBE, 0xDFDD, 0xCFFC, 0xBF1B, 0xAF3A, 0x9F59, 0x8F78,
    0x9188, 0x81A9, 0xB1CA, 0xA1EB, 0xD10C, 0xC12D, 0xF14E, 0xE16F, 0x1080, 0x00A1, 0x30C2, 0x20E3, 0x5004, 0x4025, 0x7046, 0x6067,
    0x83B9, 0x9398, 0xA3FB, 0xB3DA, 0xC33D, 0xD31C, 0xE37F, 0xF35E, 0x02B1, 0x1290, 0x22F3, 0x32D2, 0x4235, 0x5214, 0x6277, 0x7256,
    0xB5EA, 0xA5CB, 0x95A8, 0x8589, 0xF56E, 0xE54F, 0xD52C, 0xC50D, 0x34E2, 0x24C3, 0x14A0, 0x0481, 0x7466, 0x6447, 0x5424, 0x4405,
    0xA7DB, 0xB7FA, 0x8799, 0x97B8, 0xE75F, 0xF77E, 0xC71D, 0xD73C, 0x26D3, 0x36F2, 0x0691, 0x16B0, 0x6657, 0x7676, 0x4615, 0x5634,
    0xD94C, 0xC96D, 0xF90E, 0xE92F, 0x99C8, 0x89E9, 0xB98A, 0xA9AB, 0x5844, 0x4865, 0x7806, 0x6827, 0x18C0, 0x08E1, 0x3882, 0x28A3,
    0xCB7D, 0xDB5C, 0xEB3F, 0xFB1E, 0x8BF9, 0x9BD8, 0xABBB, 0xBB9A, 0x4A75, 0x5A54, 0x6A37, 0x7A16, 0x0AF1, 0x1AD0, 0x2AB3, 0x3A92,
    0xFD2E, 0xED0F, 0xDD6C, 0xCD4D, 0xBDAA, 0xAD8B, 0x9DE8, 0x8DC9, 0x7C26, 0x6C07, 0x5C64, 0x4C45, 0x3CA2, 0x2C83, 0x1CE0, 0x0CC1,
    0xEF1F, 0xFF3E, 0xCF5D, 0xDF7C, 0xAF9B, 0xBFBA, 0x8FD9, 0x9FF8, 0x6E17, 0x7E36, 0x4E55, 0x5E74, 0x2E93, 0x3EB2, 0x0ED1, 0x1EF0,
};

static unsigned check_of(const uint8_t *b, size_t bits)
{
    unsigned check = 0xFFFF;
    size_t i;

    for (i = 0; i < bits / 8; i++)
        check = (check << 8 & 0xFFFF) ^ check_table[check >> 8 ^ b[i]];
    for (i *= 8; i < bits; i++)
        check = check_bit(check, bit_at(b, i));
    return check;
}

#define STEP 48

static uint64_t top(uint64_t x, size_t n)
{
    return n < 64 ? x & ~(~(uint64_t)0 >> n) : x;
}

/* The bits from a place on, the first on top: at least 57 of them, with zeros behind the count. */
static uint64_t word_at(const uint8_t *b, size_t count, size_t at)
{
    size_t first = at / 8, n = (count + 7) / 8 - first, i;
    uint64_t x = 0;

    if (n >= 8) {
        memcpy(&x, b + first, 8);
        x = __builtin_bswap64(x);
    } else {
        for (i = 0; i < n; i++)
            x |= (uint64_t)b[first + i] << (56 - 8 * i);
    }
    return top(x << at % 8, count - at);
}

/* Appends the top n bits, at most 57. The bits of the started byte behind the place are zero. */
static void append(uint8_t *b, size_t *at, uint64_t x, size_t n)
{
    x = __builtin_bswap64((uint64_t)b[*at / 8] << 56 | top(x, n) >> *at % 8);
    memcpy(b + *at / 8, &x, 8);
    *at += n;
}

/* Where the first five ones of a word begin, or STEP if none begin before. */
static unsigned five_ones(uint64_t x)
{
    uint64_t two = x & x << 1, five = two & two << 2 & x << 4;

    return five >> (64 - STEP) ? (unsigned)__builtin_clzll(five) : STEP;
}

static void keep(struct frame *f, uint64_t x, size_t n)
{
    if (f->bits <= MOST_BITS)
        append(f->held, &f->bits, x, n);
    else
        f->bits += n;
}

/* kept: the bit before the place was kept. It is a zero where five ones begin at the place. */
static uint32_t between_by_bytes(const uint8_t *b, size_t count, size_t at, struct frame *f)
{
    int kept = 0;

    f->bits = 0;
    f->held[0] = 0;
    while (at < count) {
        uint64_t x = word_at(b, count, at);
        size_t n = five_ones(x), left = count - at;
        if (n == STEP) {
            n = left < STEP ? left : STEP;
            keep(f, x, n);
            at += n;
            kept = 1;
        } else if (left > n + 5 && !(x << (n + 5) >> 63)) {
            keep(f, x, n + 5);
            at += n + 6;
            kept = 0;
        } else if (left > n + 6 && !(x << (n + 6) >> 63) && (n || kept)) {
            if (n)
                keep(f, x, n - 1);
            else
                f->bits--;
            f->place = at + n - 1;
            f->check = f->bits <= MOST_BITS ? check_of(f->held, f->bits) : 0;
            return 0;
        } else {
            return SIAMRUNG_FRAME_REFUSAL_ZERO_MISSING;
        }
    }
    return SIAMRUNG_FRAME_REFUSAL_NO_CLOSING_FLAG;
}

/* The bits between the flags, without the inserted zeros; answers how many. */
static size_t gather(uint8_t *to, uint32_t from_sensor, uint8_t control, const uint8_t *field, size_t field_count)
{
    size_t at = 16 + field_count, n = field_count / 8;

    to[0] = from_sensor ? FROM_SENSOR : TO_SENSOR;
    to[1] = control;
    if (n)
        memcpy(to + 2, field, n);
    to[2 + n] = field_count % 8 ? (uint8_t)(field[n] & 0xFF00u >> field_count % 8) : 0;
    append(to, &at, (uint64_t)(~check_of(to, at) & 0xFFFF) << 48, 16);
    return at;
}

static void stuff(const uint8_t *from, size_t bits, uint8_t *to, size_t *at)
{
    size_t i = 0, n;

    while (i < bits) {
        uint64_t x = word_at(from, bits, i);
        n = five_ones(x);
        if (n == STEP) {
            n = bits - i < STEP ? bits - i : STEP;
            append(to, at, x, n);
            i += n;
        } else {
            append(to, at, top(x, n + 5), n + 6);
            i += n + 5;
        }
    }
}

/* The whole bytes that the frame touches, and a word behind. */
struct written {
    size_t end;
    uint8_t b[MOST_BITS / 5 * 6 / 8 + 2 + 1 + 9];
};

static uint32_t build(const uint8_t *bytes, size_t length, size_t count, size_t place, uint32_t from_sensor, uint8_t control,
                      const uint8_t *field, size_t field_length, size_t field_count, struct written *w)
{
    uint32_t refusal = judge_writing(length, count, place, field_length, field_count);
    uint8_t between[MOST_BITS / 8 + 9];

    if (refusal)
        return refusal;
    w->b[0] = (uint8_t)(bytes[place / 8] & 0xFF00u >> place % 8);
    w->end = place % 8;
    append(w->b, &w->end, (uint64_t)FLAG << 56, 8);
    stuff(between, gather(between, from_sensor, control, field, field_count), w->b, &w->end);
    append(w->b, &w->end, (uint64_t)FLAG << 56, 8);
    return w->end - place % 8 > count - place ? SIAMRUNG_FRAME_REFUSAL_NO_ROOM : 0;
}

uint32_t plain_bytes_frame_write_refusal(const uint8_t *bytes, size_t length, size_t count, size_t place, uint32_t from_sensor, uint8_t control,
                                         const uint8_t *field, size_t field_length, size_t field_count)
{
    struct written w;

    return build(bytes, length, count, place, from_sensor, control, field, field_length, field_count, &w);
}

size_t plain_bytes_frame_write(uint8_t *bytes, size_t length, size_t count, size_t place, uint32_t from_sensor, uint8_t control,
                               const uint8_t *field, size_t field_length, size_t field_count)
{
    struct written w;
    uint8_t *to = bytes + place / 8;
    size_t n;

    if (build(bytes, length, count, place, from_sensor, control, field, field_length, field_count, &w))
        return place;
    n = w.end / 8;
    memcpy(to, w.b, n);
    if (w.end % 8)
        to[n] = (uint8_t)(w.b[n] | (to[n] & 0xFFu >> w.end % 8));
    return place - place % 8 + w.end - 8;
}

/* ---- the calls that read, of either way */

#define READ(between)                                                                                                                       \
    struct frame f;                                                                                                                         \
    read_frame(bytes, length, count, place, between, &f)

#define CALLS(p, between)                                                                                                                   \
    uint32_t p##kind(const uint8_t *bytes, size_t length, size_t count, size_t place)                                                       \
    {                                                                                                                                       \
        READ(between);                                                                                                                      \
        return f.kind;                                                                                                                      \
    }                                                                                                                                       \
    uint32_t p##refusal(const uint8_t *bytes, size_t length, size_t count, size_t place)                                                    \
    {                                                                                                                                       \
        READ(between);                                                                                                                      \
        return f.refusal;                                                                                                                   \
    }                                                                                                                                       \
    size_t p##place(const uint8_t *bytes, size_t length, size_t count, size_t place)                                                        \
    {                                                                                                                                       \
        READ(between);                                                                                                                      \
        return f.place;                                                                                                                     \
    }                                                                                                                                       \
    uint32_t p##from_sensor(const uint8_t *bytes, size_t length, size_t count, size_t place)                                                \
    {                                                                                                                                       \
        READ(between);                                                                                                                      \
        return f.kind == SIAMRUNG_KIND_FRAME && f.held[0] == FROM_SENSOR;                                                                   \
    }                                                                                                                                       \
    uint32_t p##control(const uint8_t *bytes, size_t length, size_t count, size_t place)                                                    \
    {                                                                                                                                       \
        READ(between);                                                                                                                      \
        return f.kind == SIAMRUNG_KIND_FRAME ? f.held[1] : 0;                                                                               \
    }                                                                                                                                       \
    size_t p##field_count(const uint8_t *bytes, size_t length, size_t count, size_t place)                                                  \
    {                                                                                                                                       \
        READ(between);                                                                                                                      \
        return f.kind == SIAMRUNG_KIND_FRAME ? f.bits - 32 : 0;                                                                             \
    }                                                                                                                                       \
    size_t p##field(const uint8_t *bytes, size_t length, size_t count, size_t place, uint8_t *field, size_t field_length)                   \
    {                                                                                                                                       \
        READ(between);                                                                                                                      \
        return copy_field(&f, field, field_length);                                                                                         \
    }

CALLS(plain_frame_, between_by_bits)
CALLS(plain_bytes_frame_, between_by_bytes)
