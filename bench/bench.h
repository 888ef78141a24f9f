/*
 * bench.h: the libraries as tables of calls, the inputs, and the jobs that are measured on them.
 */
#ifndef BENCH_H
#define BENCH_H

#include "plain.h"

/* what reads or writes a line has the altitude's form behind the place; what reads has the link number behind the form */
typedef uint32_t run_number(const uint8_t *, size_t, size_t, uint32_t, uint32_t);
typedef size_t run_place(const uint8_t *, size_t, size_t, uint32_t, uint32_t);
typedef double run_value(const uint8_t *, size_t, size_t, uint32_t, uint32_t);
typedef uint32_t field_number(const uint8_t *, size_t, size_t, uint32_t);
typedef size_t field_size(const uint8_t *, size_t, size_t, uint32_t);
typedef uint32_t frame_number(const uint8_t *, size_t, size_t, size_t);
typedef size_t frame_size(const uint8_t *, size_t, size_t, size_t);

struct calls {
    run_number *kind, *refusal, *link, *has_values;
    run_place *first, *after, *named;
    run_value *nmi, *degrees, *seconds;
    uint32_t (*has)(const uint8_t *, size_t, size_t, uint32_t, uint32_t, uint32_t);
    int64_t (*item)(const uint8_t *, size_t, size_t, uint32_t, uint32_t, uint32_t);
    size_t (*write)(uint8_t *, size_t, size_t, uint32_t, uint32_t, const uint8_t *, size_t);
    uint32_t (*write_refusal)(const uint8_t *, size_t, size_t, uint32_t, uint32_t, const uint8_t *, size_t);
    field_number *field_refusal, *field_type, *field_inner_type;
    field_size *field_entries, *field_text_place, *field_text_length;
    uint32_t (*field_has)(const uint8_t *, size_t, size_t, uint32_t, uint32_t);
    uint64_t (*field_item)(const uint8_t *, size_t, size_t, uint32_t, uint32_t);
    int64_t (*field_entry)(const uint8_t *, size_t, size_t, uint32_t, size_t);
    size_t (*field_write)(uint8_t *, size_t, uint32_t, const uint8_t *, size_t, const uint8_t *, size_t, const uint8_t *, size_t);
    uint32_t (*field_write_refusal)(const uint8_t *, size_t, uint32_t, const uint8_t *, size_t, const uint8_t *, size_t, const uint8_t *,
                                    size_t);
    frame_number *frame_kind, *frame_refusal, *frame_from_sensor, *frame_control;
    frame_size *frame_place, *frame_field_count;
    size_t (*frame_field)(const uint8_t *, size_t, size_t, size_t, uint8_t *, size_t);
    size_t (*frame_write)(uint8_t *, size_t, size_t, size_t, uint32_t, uint8_t, const uint8_t *, size_t, size_t);
    uint32_t (*frame_write_refusal)(const uint8_t *, size_t, size_t, size_t, uint32_t, uint8_t, const uint8_t *, size_t, size_t);
    uint32_t (*index_enter)(siamrung_entry *, size_t, const uint8_t *, size_t, size_t, uint32_t, uint32_t, uint32_t);
    uint32_t (*index_find)(const siamrung_entry *, size_t, uint32_t);
    uint32_t (*manners)(const uint8_t *, size_t, uint32_t, uint8_t *, size_t);
};

/* plain goes through a frame bit by bit, and twice through a line for its manners if the list may be too small. plain_bytes goes through a frame by
 * bytes and words, plain_once once through the line; each is the same elsewhere. */
extern const struct calls ours, plain, plain_bytes, plain_once;

/* ---- inputs (inputs.c): the same on every machine */

#define MOST_BYTES 65536
#define MOST_ITEMS 640

uint64_t rnd(void);
void put_word(uint8_t *b, size_t i, unsigned w);
void put_be64(uint8_t *b, uint64_t x);

/* The items of a random report of that kind; answers their length. An altitude is one that both forms have. */
size_t report_items(uint32_t kind, uint8_t *items);

/* The items of a random DABS or ATCRBS with that altitude. */
size_t altitude_items(uint32_t kind, int64_t altitude, uint8_t *items);

/* A line of n words: full of reports, mostly idle, one long run of good words, bad words each a run of its own, and in one run. */
typedef void fill_line(uint8_t *b, size_t n);
fill_line full_line, idle_line, long_run, bad_words, bad_run;

/* A line of n words full of ATCRBS reports of 512 or 16 tracks. Each eighth report is of a track that has come before; once all tracks have come,
 * every report is. */
fill_line tracks_512, tracks_16;

/* A line of reports of every kind, of few tracks and of none. */
fill_line mixed_tracks;

/* A line of DABS and ATCRBS reports, of few tracks, each with an altitude in two's complement. About a fourth of the altitudes are -2048, whose bits
 * are minus zero in sign and magnitude. */
fill_line altitude_tracks;

/* Lines full of reports, by their manners: none breaks a rule; about one in 64 does, and the last one, so that a second pass goes to the line's end;
 * each does. And a line that is mostly idle, of which each report does. All four rules are broken. */
fill_line no_breach, few_breaches, all_breaches, idle_breaches;

/* A line of Maps that each break a rule: as many breaches as a line can have. */
fill_line most_breaches;

/* Runs of seven words, and of four, each with the next first word of odd parity: 4,096 runs have them all. What the rules look at behind the first
 * word is random, out of little. */
fill_line sevens, fours;

/* The file number of a track, counted from 0: no two of the first 4,095 tracks have the same. */
uint16_t track_number(size_t track);

/* A random field of a type, relayed or not, its counts largest or random; answers its bits. bytes has room for 256. */
size_t random_field(unsigned type, int relayed, int largest, uint8_t *bytes);

extern const unsigned types[21];

/* Makes n bytes a stream full of frames, with flags between and at the end; answers its bits. */
size_t full_stream(uint8_t *b, size_t n);

/* Makes a stream of sound and damaged frames; answers its bits. b has STREAM_BYTES. */
#define STREAM_BYTES 8192
size_t odd_stream(uint8_t *b);

/* ---- the comparison of answers (agree.c): answers how many were compared, and stops the program at the first that differ */

unsigned long agree_lines(unsigned rounds);
unsigned long agree_writing(unsigned rounds);
unsigned long agree_fields(unsigned rounds);
unsigned long agree_frames(unsigned rounds);
unsigned long agree_index(unsigned rounds);
unsigned long agree_manners(unsigned rounds);

#endif
