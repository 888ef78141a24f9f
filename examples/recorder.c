/*
 * A small recorder: recorder [--twos-complement] [--link NUMBER]. It reads a recording from standard input. It prints each report with its values and
 * units, and each refusal with its reason. At the end it prints how many reports of each kind there were, how many refusals, and how many reports had
 * a height: so one sees at once that a recording has no heights. With --twos-complement it reads altitudes in that form: some sensors send them so.
 * With --link each report and each refusal is printed with the number of the link that it came on, 0 to 15. A greater number is refused with 13, and
 * then no link is printed. The options stand in this order.
 */
#include <inttypes.h>
#include <stdio.h>
#include <stdlib.h>
#include <string.h>

#include "siamrung.h"

#include "altitude_form.h"
#include "kind_names.h"
#include "line_reason.h"
#include "number.h"
#include "version.h"

/* One byte more than a line may have, so that the library sees when a recording is too long. */
#define MOST 65537

/* Items that are printed with their names, if the report has them. The printed value is the count times the scale. */
static const struct {
    uint32_t item;
    const char *name;
    int64_t scale;
    const char *unit;
} shown[] = {
    {SIAMRUNG_ITEM_ALTITUDE, "altitude", 100, " ft"},
    {SIAMRUNG_ITEM_ADDRESS, "address", 1, ""},
    {SIAMRUNG_ITEM_CODE, "code", 1, ""},
    {SIAMRUNG_ITEM_FILE, "file", 1, ""},
    {SIAMRUNG_ITEM_RUN, "run length", 4, " ACP"},
    {SIAMRUNG_ITEM_QUALITY, "quality", 1, ""},
};

struct line {
    uint8_t *bytes;
    size_t length;
    /* how its sensor sends altitudes */
    uint32_t form;
    /* the link that it came on, and whether the program was told it */
    uint32_t link;
    int link_told;
};

/* How many of each there were. */
struct tally {
    size_t kinds[KINDS];
    size_t refused;
    size_t reports;
    size_t heights;
};

/* The link of what stands at the place. A number that no link has is refused, and says link 0: that would mislead, so it is not printed. */
static void print_link(const struct line *l, size_t place)
{
    if (l->link_told && siamrung_refusal(l->bytes, l->length, place, l->form, l->link) != SIAMRUNG_REFUSAL_NO_SUCH_LINK)
        printf("link %" PRIu32 ": ", siamrung_link(l->bytes, l->length, place, l->form, l->link));
}

static void print_report(const struct line *l, size_t place, uint32_t kind)
{
    size_t i;
    printf("%zu %s", siamrung_first(l->bytes, l->length, place, l->form, l->link), kind_names[kind - SIAMRUNG_KIND_SEARCH]);
    if (siamrung_has_values(l->bytes, l->length, place, l->form, l->link))
        printf(" %.4f nmi %.4f deg %.3f s", siamrung_nmi(l->bytes, l->length, place, l->form, l->link),
               siamrung_degrees(l->bytes, l->length, place, l->form, l->link), siamrung_seconds(l->bytes, l->length, place, l->form, l->link));
    for (i = 0; i < sizeof shown / sizeof shown[0]; i++)
        if (siamrung_has(l->bytes, l->length, place, l->form, l->link, shown[i].item))
            printf(" %s %" PRId64 "%s", shown[i].name,
                   siamrung_item(l->bytes, l->length, place, l->form, l->link, shown[i].item) * shown[i].scale, shown[i].unit);
    printf("\n");
}

static void print_refusal(const struct line *l, size_t place)
{
    uint32_t why = siamrung_refusal(l->bytes, l->length, place, l->form, l->link);
    printf("%zu REFUSED %" PRIu32 " at %zu: %s\n", siamrung_first(l->bytes, l->length, place, l->form, l->link), why,
           siamrung_named(l->bytes, l->length, place, l->form, l->link), line_reason(why));
}

/* Prints every outcome, from run to run. Where the link number, the line or the place itself is refused, the next place is the one that was passed:
 * nothing more can be read. */
static void print_line(const struct line *l, struct tally *t)
{
    size_t place, next = 0;
    uint32_t kind;
    do {
        place = next;
        kind = siamrung_kind(l->bytes, l->length, place, l->form, l->link);
        if (kind == SIAMRUNG_KIND_END)
            return;
        print_link(l, place);
        if (kind == SIAMRUNG_KIND_REFUSED) {
            print_refusal(l, place);
            t->refused++;
        } else {
            print_report(l, place, kind);
            t->kinds[kind - SIAMRUNG_KIND_SEARCH]++;
            t->reports++;
            if (siamrung_has(l->bytes, l->length, place, l->form, l->link, SIAMRUNG_ITEM_ALTITUDE))
                t->heights++;
        }
        next = siamrung_after(l->bytes, l->length, place, l->form, l->link);
    } while (next != place);
}

static void print_tally(const struct tally *t)
{
    size_t i;
    for (i = 0; i < KINDS; i++)
        if (t->kinds[i] > 0)
            printf("%zu %s\n", t->kinds[i], kind_names[i]);
    printf("%zu refused\n%zu reports, %zu with altitude, %zu without\n", t->refused, t->reports, t->heights, t->reports - t->heights);
}

/* Takes the options. Answers 0 if there is anything else. */
static int take_options(int argc, char **argv, struct line *l)
{
    int at = take_form(argc, argv, &l->form);
    if (at + 1 < argc && strcmp(argv[at], "--link") == 0) {
        l->link_told = read_number(argv[at + 1], &l->link);
        at += 2;
        if (!l->link_told)
            return 0;
    }
    return at == argc;
}

int main(int argc, char **argv)
{
    struct line l = {NULL, 0, SIAMRUNG_FORM_SIGN_MAGNITUDE, 0, 0};
    struct tally t = {{0}, 0, 0, 0};
    if (!right_version("recorder"))
        return 1;
    if (!take_options(argc, argv, &l)) {
        fprintf(stderr, "usage: recorder [--twos-complement] [--link NUMBER] < RECORDING    (a decimal link number, 0 to 15)\n");
        return 2;
    }
    l.bytes = malloc(MOST);
    if (l.bytes == NULL)
        return 1;
    l.length = fread(l.bytes, 1, MOST, stdin);
    if (ferror(stdin)) {
        perror("recorder: standard input");
        return 1;
    }
    print_line(&l, &t);
    print_tally(&t);
    free(l.bytes);
    return 0;
}
