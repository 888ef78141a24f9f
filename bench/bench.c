/*
 * bench.c: what the proved library costs beside plain C. It first compares the answers of both on all inputs (agree.c), then runs both
 * alternately on the same inputs and prints, of each job, how many words, fields, frames or reports a second each does and the ratio: below 1
 * the library is the slower one. Plain C reads and writes frames in two ways, and lists manners in two, and each has its rows.
 *
 * bench [--small] [--emulated]   compare and measure; --small: once, on little; --emulated: each ratio is marked so, and decides nothing
 * bench --passes                 each job once by each library, through `pass`, for a tool that counts instructions
 * bench --recording              the full line itself, to standard output
 */
#define _POSIX_C_SOURCE 200809L
#include <stdio.h>
#include <stdlib.h>
#include <string.h>
#include <time.h>

#include "bench.h"
#include "plain_field.h"
#include "plain_frame.h"

#define SIDE(p, f, m)                                                                                                                       \
    {p##kind, p##refusal, p##link, p##has_values, p##first, p##after, p##named, p##nmi, p##degrees, p##seconds, p##has, p##item, p##write,  \
     p##write_refusal, p##field_refusal, p##field_type, p##field_inner_type, p##field_entries, p##field_text_place, p##field_text_length,   \
     p##field_has, p##field_item, p##field_entry, p##field_write, p##field_write_refusal, f##kind, f##refusal, f##from_sensor, f##control,  \
     f##place, f##field_count, f##field, f##write, f##write_refusal, p##index_enter, p##index_find, m##manners}

const struct calls ours = SIDE(siamrung_, siamrung_frame_, siamrung_), plain = SIDE(plain_, plain_frame_, plain_),
                   plain_bytes = SIDE(plain_, plain_bytes_frame_, plain_), plain_once = SIDE(plain_, plain_frame_, plain_once_);

/* ---- jobs: each takes one pass over its input, and answers a number that depends on all answers */

struct input {
    uint8_t *bytes;
    size_t length, bits;
    uint32_t form, link, way, type;
    uint8_t items[MOST_ITEMS];
    size_t items_length;
    uint8_t list[240];
    siamrung_entry *table;
    size_t entries;
    size_t room; /* of the list of breaches; 0: enough for every line */
};

typedef uint64_t job(const struct calls *c, struct input *in);

/* From run to run: what stands there, and where to go on. */
static uint64_t walk(const struct calls *c, struct input *in)
{
    size_t at = 0;
    uint64_t sum = 0;
    uint32_t kind;

    do {
        kind = c->kind(in->bytes, in->length, at, in->form, in->link);
        at = c->after(in->bytes, in->length, at, in->form, in->link);
        sum = sum * 31 + kind + at;
    } while (kind != SIAMRUNG_KIND_END);
    return sum;
}

/* The same, with every item and value of each report but ALTITUDE and CARRIED, and the number and place of each refusal. Each call reads the
 * altitude too. */
static uint64_t record_all(const struct calls *c, struct input *in)
{
    const uint8_t *b = in->bytes;
    size_t length = in->length, at = 0;
    uint64_t sum = 0, items;
    uint32_t form = in->form, link = in->link, kind;

    do {
        kind = c->kind(b, length, at, form, link);
        for (items = plain_items_of(kind); items; items &= items - 1)
            sum += (uint64_t)c->item(b, length, at, form, link, (uint32_t)__builtin_ctzll(items));
        if (kind == SIAMRUNG_KIND_REFUSED)
            sum += c->refusal(b, length, at, form, link) + c->named(b, length, at, form, link);
        else if (kind != SIAMRUNG_KIND_END)
            sum += (uint64_t)(c->nmi(b, length, at, form, link) + c->degrees(b, length, at, form, link) + c->seconds(b, length, at, form, link));
        at = c->after(b, length, at, form, link);
        sum = sum * 31 + kind + at;
    } while (kind != SIAMRUNG_KIND_END);
    return sum;
}

/* The line filled with the same four reports of seven and of four words. */
static uint64_t fill(const struct calls *c, struct input *in)
{
    static uint8_t items[4][MOST_ITEMS];
    static size_t length[4];
    static const uint32_t kinds[4] = {SIAMRUNG_KIND_SEARCH, SIAMRUNG_KIND_DABS, SIAMRUNG_KIND_ATCRBS, SIAMRUNG_KIND_MAP};
    size_t at = 0, i;

    for (i = 0; length[3] == 0 && i < 4; i++)
        length[i] = report_items(kinds[i], items[i]);
    for (i = 0; at + 8 <= in->length / 2; i++)
        at = c->write(in->bytes, in->length, at, in->form, kinds[i % 4], items[i % 4], length[i % 4]);
    return at + in->bytes[at];
}

/* A field: whether it is refused, its type, every item, every entry, its text. */
static uint64_t read_field(const struct calls *c, struct input *in)
{
    uint64_t sum = c->field_refusal(in->bytes, in->length, in->bits, in->way), items;
    size_t i, n;

    sum += c->field_type(in->bytes, in->length, in->bits, in->way);
    for (items = plain_types[in->type].items; items; items &= items - 1)
        sum = sum * 31 + c->field_item(in->bytes, in->length, in->bits, in->way, 200 + (uint32_t)__builtin_ctzll(items));
    n = c->field_entries(in->bytes, in->length, in->bits, in->way);
    for (i = 0; i < n; i++)
        sum += (uint64_t)c->field_entry(in->bytes, in->length, in->bits, in->way, i);
    return sum + c->field_text_place(in->bytes, in->length, in->bits, in->way) + c->field_text_length(in->bytes, in->length, in->bits, in->way);
}

static uint64_t write_field(const struct calls *c, struct input *in)
{
    static uint8_t to[256];
    size_t text = plain.field_text_place(in->bytes, in->length, in->bits, in->way);

    return c->field_write(to, 256, in->type, in->items, in->items_length, in->list, 240, in->bytes + text, in->length - text) + to[0] + to[4];
}

/* What stands at a place of a stream, where to go on, and the field. */
static uint64_t look_at(const struct calls *c, struct input *in, size_t at, size_t *next, uint32_t *kind)
{
    static uint8_t field[251];
    size_t n;

    *kind = c->frame_kind(in->bytes, in->length, in->bits, at);
    *next = c->frame_place(in->bytes, in->length, in->bits, at);
    n = c->frame_field(in->bytes, in->length, in->bits, at, field, sizeof field);
    return *kind + *next + n + (n ? field[n - 1] : 0);
}

/* A frame begins inside a byte, as most frames of a stream do. */
#define FRAME_PLACE 5

static uint64_t read_frame(const struct calls *c, struct input *in)
{
    size_t next;
    uint32_t kind;

    return look_at(c, in, FRAME_PLACE, &next, &kind);
}

/* From frame to frame. */
static uint64_t walk_frames(const struct calls *c, struct input *in)
{
    size_t at = 0;
    uint64_t sum = 0;
    uint32_t kind;

    do
        sum = sum * 31 + look_at(c, in, at, &at, &kind);
    while (kind == SIAMRUNG_KIND_FRAME);
    return sum + kind;
}

/* A frame with the input as its field. */
static uint64_t write_frame(const struct calls *c, struct input *in)
{
    static uint8_t to[320];
    size_t end = c->frame_write(to, sizeof to, 8 * sizeof to, FRAME_PLACE, in->way, 0x13, in->bytes, in->length, in->bits);

    return end + to[end / 8 - 1] + to[2];
}

#define SCAN 7

/* From run to run, each place handed to the index. */
static uint64_t index_on(const struct calls *c, struct input *in)
{
    size_t at = 0;
    uint64_t sum = 0;

    do {
        sum = sum * 31 + c->index_enter(in->table, in->entries, in->bytes, in->length, at, in->form, in->link, SCAN);
        at = c->after(in->bytes, in->length, at, in->form, in->link);
    } while (at < in->length / 2);
    return sum + in->table[in->entries / 2].place;
}

/* The same into an empty table. */
static uint64_t index_afresh(const struct calls *c, struct input *in)
{
    memset(in->table, 0, in->entries * sizeof *in->table);
    return index_on(c, in);
}

/* Each track of a full table looked for. */
static uint64_t find_each(const struct calls *c, struct input *in)
{
    uint64_t sum = 0;
    size_t track;

    for (track = 0; track < in->entries; track++)
        sum = sum * 31 + c->index_find(in->table, in->entries, track_number(track));
    return sum;
}

/* The breaches of the line, into a list that is large enough for every line, or for this one alone. */
static uint64_t list_manners(const struct calls *c, struct input *in)
{
    static uint8_t list[4 * SIAMRUNG_MOST_BREACHES];
    uint32_t answer = c->manners(in->bytes, in->length, in->form, list, in->room ? in->room : sizeof list);
    size_t n = siamrung_manners_breaches(answer);

    return n == 0 ? answer : answer + siamrung_breach_place(list, n - 1) * 31 + siamrung_breach_rule(list, n - 1);
}

/* ---- the table of jobs */

struct row {
    char name[48];
    job *run;
    const struct calls *beside;
    struct input *small, *large; /* short lines with as many words as the long one, so that no branch is learnt by heart; or one field */
    unsigned pieces;
    double units, small_units;
};

static struct row rows[96];
static unsigned row_count;
static unsigned rounds = 15;
static double least = 4e-3;
static const char *mark = "";

/* A row beside plain C; the caller gives it its name. */
static struct row *new_row(job *run, struct input *large, double units)
{
    struct row *r = &rows[row_count++];

    r->run = run;
    r->beside = &plain;
    r->large = large;
    r->units = units;
    return r;
}

/* Each line comes on the next of the links. */
static struct input *line_of(fill_line *make, size_t n)
{
    static uint32_t lines;
    struct input *in = calloc(1, sizeof *in);

    in->bytes = malloc(2 * n);
    in->length = 2 * n;
    in->link = ++lines % (SIAMRUNG_LAST_LINK + 1);
    make(in->bytes, n);
    return in;
}

/* Short lines that have as many words together as the long one. */
static void add_short(struct row *r, fill_line *make, size_t small, size_t large)
{
    struct input *one;
    unsigned i;

    r->small_units = r->units;
    r->pieces = (unsigned)(large / small);
    r->small = calloc(r->pieces, sizeof *r->small);
    for (i = 0; i < r->pieces; i++) {
        one = line_of(make, small);
        r->small[i] = *one;
        free(one);
    }
}

static void add_line(const char *name, job *run, fill_line *make, size_t small, size_t large)
{
    struct row *r = new_row(run, NULL, (double)large);

    snprintf(r->name, sizeof r->name, "%s", name);
    add_short(r, make, small, large);
    r->large = line_of(make, large);
}

/* The same inputs to be read in two's complement. */
static struct input *in_twos_complement(const struct input *from, unsigned pieces)
{
    struct input *to = malloc(pieces * sizeof *to);
    unsigned i;

    for (i = 0; i < pieces; i++) {
        to[i] = from[i];
        to[i].form = SIAMRUNG_FORM_TWOS_COMPLEMENT;
    }
    return to;
}

/* The last row once more, on the same lines. */
static void add_twos_complement(const char *name)
{
    struct row *r = &rows[row_count++];

    *r = r[-1];
    snprintf(r->name, sizeof r->name, "%s", name);
    r->small = in_twos_complement(r->small, r->pieces);
    r->large = in_twos_complement(r->large, 1);
}

/* The same inputs, each with a list that has just enough room. */
static struct input *with_exact_lists(const struct input *from, unsigned pieces)
{
    struct input *to = malloc(pieces * sizeof *to);
    unsigned i;

    for (i = 0; i < pieces; i++) {
        to[i] = from[i];
        to[i].room = 4 * siamrung_manners_breaches(plain_manners(from[i].bytes, from[i].length, from[i].form, NULL, 0));
    }
    return to;
}

/* A row once more, on the same lines. */
static void add_exact(const char *name, const struct row *of)
{
    struct row *r = &rows[row_count++];

    *r = *of;
    snprintf(r->name, sizeof r->name, "%s", name);
    r->small = with_exact_lists(r->small, r->pieces);
    r->large = with_exact_lists(r->large, 1);
}

static void add_field(const char *name, unsigned type, int relayed)
{
    struct input *in = calloc(1, sizeof *in);
    uint64_t items;
    size_t k;
    job *runs[2] = {read_field, write_field};

    in->bytes = malloc(256);
    in->type = type;
    in->way = plain_types[type].known == 2;
    in->bits = random_field(type, relayed, 1, in->bytes);
    in->length = (in->bits + 7) / 8;
    for (items = plain_types[type].items | (relayed ? FB(SENSOR) : 0); items; items &= items - 1) {
        uint32_t item = 200 + (uint32_t)__builtin_ctzll(items);
        put_be64(in->items + in->items_length, item);
        put_be64(in->items + in->items_length + 8, plain.field_item(in->bytes, in->length, in->bits, in->way, item));
        in->items_length += 16;
    }
    for (k = 0; k < 30; k++)
        put_be64(in->list + 8 * k, (uint64_t)plain.field_entry(in->bytes, in->length, in->bits, in->way, k));
    for (k = 0; k < 2; k++) {
        struct row *r = new_row(runs[k], in, 1);
        snprintf(r->name, sizeof r->name, "%s field %02X%s", k ? "write" : "read", type, name);
    }
}

/* A row of frames, beside plain C by bits; add_beside adds the other. */
static struct row *frame_row(const char *what, const char *name, job *run, struct input *large, double units)
{
    struct row *r = new_row(run, large, units);

    snprintf(r->name, sizeof r->name, "%s%s: by bits", what, name);
    return r;
}

/* A random field of that many bits, which is written, and its frame, which is read. */
static void add_frame(const char *name, size_t bits)
{
    struct input *field = calloc(1, sizeof *field), *frame = calloc(1, sizeof *frame);
    size_t i;

    field->length = bits / 8;
    field->bits = bits;
    field->bytes = malloc(field->length + 1);
    for (i = 0; i < field->length; i++)
        field->bytes[i] = (uint8_t)rnd();
    frame->length = 320;
    frame->bytes = calloc(1, frame->length);
    frame->bits = 8 + plain.frame_write(frame->bytes, frame->length, 8 * frame->length, FRAME_PLACE, 0, 0x13, field->bytes, field->length, bits);
    frame_row("frame read, ", name, read_frame, frame, 1);
    frame_row("frame written, ", name, write_frame, field, 1);
}

static struct input *stream_of(size_t words, struct input *in)
{
    in->bytes = malloc(2 * words);
    in->length = 2 * words;
    in->bits = full_stream(in->bytes, in->length);
    return in;
}

/* A stream full of frames, and short ones that have about as many bits together. */
static void add_stream(size_t small, size_t large)
{
    struct input *in = stream_of(large, calloc(1, sizeof *in));
    struct row *r = frame_row("stream of frames", "", walk_frames, in, (double)in->bits);
    unsigned i;

    r->pieces = (unsigned)(large / small);
    r->small = calloc(r->pieces, sizeof *r->small);
    for (i = 0; i < r->pieces; i++)
        r->small_units += (double)stream_of(small, &r->small[i])->bits;
}

/* The rows from the first on once more, beside plain C that goes another way. */
static void add_beside(unsigned first, const struct calls *beside, const char *way)
{
    unsigned i, end = row_count;

    for (i = first; i < end; i++) {
        struct row *r = &rows[row_count++];
        *r = rows[i];
        r->beside = beside;
        strcpy(strrchr(r->name, ':'), way);
    }
}

/* A table with a track in each entry, in another order than that in which the tracks come. */
static void give_table(struct input *in, size_t entries)
{
    size_t i;

    in->entries = entries;
    in->table = calloc(entries, sizeof *in->table);
    for (i = 0; i < entries; i++)
        in->table[i].number = track_number((i * 5 + 3) % entries);
}

/* A line of n words, eight a report, and a table of that many entries. */
static struct row *index_row(const char *state, job *run, fill_line *make, size_t entries, size_t n)
{
    struct row *r = new_row(run, line_of(make, n), (double)n / 8);

    snprintf(r->name, sizeof r->name, "index of %u, %s: enter, after", (unsigned)entries, state);
    give_table(r->large, entries);
    return r;
}

/* A line of so many reports that all entries of the empty table are used at its end; and lines that are entered into a full table. */
static void add_index(fill_line *make, size_t entries, size_t small, size_t large)
{
    struct row *r;
    unsigned i;

    index_row("begun empty", index_afresh, make, entries, 8 * (entries + entries / 7 + 1));
    r = index_row("full", index_on, make, entries, large);
    add_short(r, make, small, large);
    for (i = 0; i < r->pieces; i++)
        give_table(&r->small[i], entries);
}

static void add_find(size_t entries)
{
    struct row *r = new_row(find_each, calloc(1, sizeof *r->large), (double)entries);

    snprintf(r->name, sizeof r->name, "index of %u, full: find", (unsigned)entries);
    give_table(r->large, entries);
}

#define SHORT_LINE 1024

static void make_rows(size_t large)
{
    unsigned k, frames, manners;

    add_line("full of reports: kind, after", walk, full_line, SHORT_LINE, large);
    add_line("full of reports: every item", record_all, full_line, SHORT_LINE, large);
    add_twos_complement("read as two's complement: every item");
    add_line("mostly idle: kind, after", walk, idle_line, SHORT_LINE, large);
    add_line("one long run: kind, after", walk, long_run, SHORT_LINE, large);
    add_line("bad words, each a run: kind, after", walk, bad_words, SHORT_LINE, large);
    add_line("bad words in one run: kind, after", walk, bad_run, SHORT_LINE, large);
    add_line("full line written", fill, full_line, SHORT_LINE, large);
    for (k = 0; k < 21; k++)
        add_field(plain_types[types[k]].step == 80 ? ", the largest ELM" : plain_types[types[k]].step ? ", the longest list" : "", types[k], 0);
    add_field(", the largest ELM, relayed", SIAMRUNG_TYPE_ELM_DOWNLINK, 1);
    frames = row_count;
    add_frame("empty", 0);
    add_frame("96 bits", 96);
    add_frame("2008 bits", 2008);
    add_stream(SHORT_LINE, large);
    add_beside(frames, &plain_bytes, ": by bytes");
    add_index(tracks_512, 512, SHORT_LINE, large);
    add_index(tracks_16, 16, SHORT_LINE, large);
    add_find(512);
    add_line("manners, no breach", list_manners, no_breach, SHORT_LINE, large);
    add_line("manners, few breaches", list_manners, few_breaches, SHORT_LINE, large);
    add_line("manners, each a breach", list_manners, all_breaches, SHORT_LINE, large);
    add_line("manners, mostly idle", list_manners, idle_breaches, SHORT_LINE, large);
    manners = row_count;
    add_exact("exact list, each a breach: two passes", &rows[manners - 2]);
    add_exact("exact list, few breaches: two passes", &rows[manners - 3]);
    add_beside(manners, &plain_once, ": one pass");
}

/* ---- the clock */

static double now(void)
{
    struct timespec t;

    clock_gettime(CLOCK_MONOTONIC, &t);
    return (double)t.tv_sec + 1e-9 * (double)t.tv_nsec;
}

static volatile uint64_t sink;

static double timed(const struct calls *c, job *run, struct input *in, unsigned pieces, unsigned times)
{
    double start = now();
    unsigned i, k;

    for (i = 0; i < times; i++)
        for (k = 0; k < pieces; k++)
            sink += run(c, &in[k]);
    return (now() - start) / times;
}

/* The least seconds of a pass of each, alternately. */
static void measure(const struct row *r, struct input *in, unsigned pieces, double *a, double *b)
{
    unsigned i, times = 1;

    while (rounds > 1 && timed(r->beside, r->run, in, pieces, times) * times < least)
        times *= 2;
    *a = *b = 1e9;
    for (i = 0; i < rounds; i++) {
        double x = timed(&ours, r->run, in, pieces, times), y = timed(r->beside, r->run, in, pieces, times);
        *a = x < *a ? x : *a;
        *b = y < *b ? y : *b;
    }
}

static void print_row(const struct row *r)
{
    double a, b, c, d;

    measure(r, r->large, 1, &a, &b);
    if (r->run(&ours, r->large) != r->run(r->beside, r->large)) {
        printf("bench: DIFFERENT: %s\n", r->name);
        exit(1);
    }
    printf("%-40s %10.2f %10.2f %7.2f%s", r->name, 1e-6 * r->units / a, 1e-6 * r->units / b, b / a, mark);
    if (r->small) {
        measure(r, r->small, r->pieces, &c, &d);
        printf(" %9.2f %9.2f", a / c * r->small_units / r->units, b / d * r->small_units / r->units);
    }
    printf("\n");
    fflush(stdout);
}

/* ---- */

/* One pass, for a tool that counts instructions by this name. */
__attribute__((noinline)) uint64_t pass(const struct calls *c, job *run, struct input *in);

uint64_t pass(const struct calls *c, job *run, struct input *in)
{
    return run(c, in);
}

static void passes(void)
{
    unsigned i;

    for (i = 0; i < row_count; i++) {
        sink += pass(&ours, rows[i].run, rows[i].large);
        sink += pass(rows[i].beside, rows[i].run, rows[i].large);
        printf("%.0f %s\n", rows[i].units, rows[i].name);
    }
}

/* Both libraries answer the same; or the program ends. */
static void compare(unsigned times)
{
    printf("same answers: %lu about lines, ", agree_lines(times));
    printf("%lu about writing, ", agree_writing(times));
    printf("%lu about fields, ", agree_fields(times));
    printf("%lu about frames, ", agree_frames(times));
    printf("%lu about the index, ", agree_index(times));
    printf("%lu about manners\n", agree_manners(times));
}

int main(int n, char **words)
{
    unsigned i, times = 200, once = 0;

    for (i = 1; i < (unsigned)n; i++) {
        if (strcmp(words[i], "--small") == 0) {
            rounds = 1;
            times = 4;
        } else if (strcmp(words[i], "--emulated") == 0) {
            mark = " emulated";
        } else if (strcmp(words[i], "--passes") == 0) {
            once = 1;
        } else if (strcmp(words[i], "--recording") == 0) {
            static uint8_t line[MOST_BYTES];
            full_line(line, MOST_BYTES / 2);
            return fwrite(line, 1, MOST_BYTES, stdout) == MOST_BYTES ? 0 : 1;
        } else {
            fprintf(stderr, "usage: bench [--small] [--emulated] [--passes] [--recording]\n");
            return 2;
        }
    }
    make_rows(times == 4 ? 4096 : 32768);
    if (once) {
        passes();
        return 0;
    }
    compare(times);
    printf("millions of words (or fields, frames, bits of a stream, reports entered, numbers found) a second, their ratio, and the cost of a\n"
           "word (or report) on a line of %.0f words to that on lines of %d (or of a bit on streams as long)\n%-40s %10s %10s %7s %9s %9s\n",
           rows[0].units, SHORT_LINE, "", "siamrung", "plain C", "ratio", "siamrung", "plain C");
    for (i = 0; i < row_count; i++)
        print_row(&rows[i]);
    return 0;
}
