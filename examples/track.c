/*
 * The last report of a track: track [--twos-complement] NUMBER RECORDING.. takes a file number and recordings, one for each scan of the antenna.
 * The first recording is scan 1, the second scan 2, and so on. It enters the reports into an index, scan after scan, and asks the index for the
 * number. Standard output has one line: the number's last report, or that the number is in no entry. Standard error has everything that was
 * refused, with its reason. If something was refused, the report that is printed may not be the last one. With --twos-complement altitudes are
 * read in that form.
 */
#include <errno.h>
#include <inttypes.h>
#include <stdio.h>
#include <stdlib.h>
#include <string.h>

#include "siamrung.h"

#include "altitude_form.h"
#include "line_reason.h"
#include "number.h"
#include "version.h"

/* As many as a table may have. */
#define ENTRIES 512

/* One byte more than a line may have, so that the library sees when a recording is too long. */
#define ROOM 65537

/* An entry has no link number: a track is the same on each link of its sensor. So the link is not asked for. */
#define LINK 0

/* The lines are kept: an entry says where its report stands, and not what is in it. */
struct line {
    uint8_t *bytes;
    size_t length;
    /* how its sensor sends altitudes */
    uint32_t form;
    uint32_t scan;
};

/* The kinds that have a file number. */
static const char *kind_name(uint32_t kind)
{
    switch (kind) {
    case SIAMRUNG_KIND_ATCRBS: return "ATCRBS";
    case SIAMRUNG_KIND_ATCRBS_CD: return "ATCRBS-CD";
    case SIAMRUNG_KIND_ATCRBS_MTD: return "ATCRBS-MTD";
    case SIAMRUNG_KIND_ATCRBS_RDAS: return "ATCRBS-RDAS";
    case SIAMRUNG_KIND_MTD: return "MTD";
    case SIAMRUNG_KIND_RDAS: return "RDAS";
    default: return "kind without a file number";
    }
}

static const char *reason(uint32_t refusal)
{
    switch (refusal) {
    case SIAMRUNG_INDEX_REFUSAL_TABLE_BROKEN: return "the table is broken";
    case SIAMRUNG_INDEX_REFUSAL_TABLE_FULL: return "the table has no unused entry";
    default: return line_reason(refusal);
    }
}

/* ---- recordings into the index */

/* Answers 0 if the recording cannot be read; standard error says why. */
static int read_line(const char *name, struct line *l)
{
    FILE *file;
    int good = 0;
    l->bytes = malloc(ROOM);
    file = l->bytes == NULL ? NULL : fopen(name, "rb");
    if (file != NULL) {
        l->length = fread(l->bytes, 1, ROOM, file);
        good = !ferror(file);
    }
    if (!good)
        fprintf(stderr, "track: %s: %s\n", name, strerror(errno));
    if (file != NULL)
        fclose(file);
    return good;
}

/* The run at the place is refused, or the line itself. */
static void say_refused(const struct line *l, size_t place)
{
    uint32_t why = siamrung_refusal(l->bytes, l->length, place, l->form, LINK);
    fprintf(stderr, "track: scan %" PRIu32 " place %zu REFUSED %" PRIu32 " at %zu: %s\n", l->scan,
            siamrung_first(l->bytes, l->length, place, l->form, LINK), why, siamrung_named(l->bytes, l->length, place, l->form, LINK),
            reason(why));
}

/* The index does not take what stands at the place. A report without a number is said to have number 0. */
static void say_not_entered(const struct line *l, size_t place, uint32_t why)
{
    fprintf(stderr, "track: scan %" PRIu32 " place %zu number %" PRId64 " NOT ENTERED %" PRIu32 ": %s\n", l->scan,
            siamrung_first(l->bytes, l->length, place, l->form, LINK),
            siamrung_item(l->bytes, l->length, place, l->form, LINK, SIAMRUNG_ITEM_FILE), why, reason(why));
}

/* Enters the reports of a line, from run to run. Where the line itself is refused, the next place is the one that was passed: nothing more can
 * be read. */
static void enter_line(siamrung_entry *table, const struct line *l)
{
    size_t place, next = 0;
    uint32_t kind, done;
    do {
        place = next;
        kind = siamrung_kind(l->bytes, l->length, place, l->form, LINK);
        done = siamrung_index_done(siamrung_index_enter(table, ENTRIES, l->bytes, l->length, place, l->form, LINK, l->scan));
        /* in the other cases the report is entered, or there is no number to enter */
        if (done == SIAMRUNG_INDEX_REFUSAL_TABLE_BROKEN || done == SIAMRUNG_INDEX_REFUSAL_TABLE_FULL)
            say_not_entered(l, place, done);
        /* a refused run has no number to enter; but it may have been a report of the number that is asked for */
        if (kind == SIAMRUNG_KIND_REFUSED)
            say_refused(l, place);
        next = siamrung_after(l->bytes, l->length, place, l->form, LINK);
    } while (kind != SIAMRUNG_KIND_END && next != place);
}

/* ---- the number's last report */

static void print_report(const siamrung_entry *e, const struct line *l)
{
    printf("%u scan %" PRIu32 " place %zu %s %.4f nmi %.4f deg %.3f s", (unsigned)e->number, e->scan, e->place, kind_name(e->kind),
           siamrung_nmi(l->bytes, l->length, e->place, l->form, LINK), siamrung_degrees(l->bytes, l->length, e->place, l->form, LINK),
           siamrung_seconds(l->bytes, l->length, e->place, l->form, LINK));
    if (siamrung_has(l->bytes, l->length, e->place, l->form, LINK, SIAMRUNG_ITEM_ALTITUDE))
        printf(" altitude %" PRId64 " ft", 100 * siamrung_item(l->bytes, l->length, e->place, l->form, LINK, SIAMRUNG_ITEM_ALTITUDE));
    printf("\n");
}

/* Answers 0 if there is no answer to print, or it cannot be printed; standard error says why. */
static int print_last(const siamrung_entry *table, const struct line *lines, uint32_t number)
{
    uint32_t answer = siamrung_index_find(table, ENTRIES, number), done = siamrung_index_done(answer);
    if (done == SIAMRUNG_INDEX_FOUND) {
        const siamrung_entry *e = &table[siamrung_index_entry(answer)];
        print_report(e, &lines[e->scan - 1]);
    } else if (done == SIAMRUNG_INDEX_MISSING) {
        printf("%" PRIu32 " is in no entry\n", number);
    } else {
        fprintf(stderr, "track: number %" PRIu32 " NOT LOOKED FOR %" PRIu32 ": %s\n", number, done, reason(done));
        return 0;
    }
    if (fflush(stdout) != 0 || ferror(stdout)) {
        perror("track: standard output");
        return 0;
    }
    return 1;
}

/* ---- the whole */

/* Enters every recording, then prints. Answers 0 where something failed. */
static int track(uint32_t number, uint32_t form, char **names, struct line *lines, size_t count)
{
    /* all zeros: each entry is unused */
    static siamrung_entry table[ENTRIES];
    size_t i;
    for (i = 0; i < count; i++) {
        lines[i].form = form;
        lines[i].scan = (uint32_t)(i + 1);
        if (!read_line(names[i], &lines[i]))
            return 0;
        enter_line(table, &lines[i]);
    }
    return print_last(table, lines, number);
}

int main(int argc, char **argv)
{
    uint32_t number, form = SIAMRUNG_FORM_SIGN_MAGNITUDE;
    int good, first = take_form(argc, argv, &form);
    size_t i, count = argc < first + 2 ? 0 : (size_t)(argc - first - 1);
    struct line *lines;
    if (!right_version("track"))
        return 1;
    if (count == 0 || !read_number(argv[first], &number)) {
        fprintf(stderr, "usage: track [--twos-complement] NUMBER RECORDING..    (a decimal file number; a recording for each scan, "
                        "the earliest first)\n");
        return 2;
    }
    lines = calloc(count, sizeof *lines);
    if (lines == NULL) {
        perror("track");
        return 1;
    }
    good = track(number, form, argv + first + 1, lines, count);
    for (i = 0; i < count; i++)
        free(lines[i].bytes);
    free(lines);
    return good ? 0 : 1;
}
