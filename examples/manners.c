/*
 * A technician's look at a sensor: manners [--twos-complement]. It reads a recording from standard input. For each report that breaks a rule
 * between its fields it prints a line: the place, the kind, the rule's number, and what is wrong, with the section of FAA-RD-80-14. At the end it
 * prints how often each rule was broken, and how many reports there were. A run that is refused is not judged: standard error names it, with its
 * reason. The exit status is 0 if the recording was judged, with breaches and refused runs or without. With --twos-complement altitudes are read in
 * that form.
 */
#include <inttypes.h>
#include <stdio.h>

#include "siamrung.h"

#include "altitude_form.h"
#include "kind_names.h"
#include "line_reason.h"
#include "version.h"

/* One byte more than a line may have, so that the library sees when a recording is too long. */
#define ROOM 65537

/* A breach has no link number, so the link is not asked for: the library too lists with link 0. */
#define LINK 0

struct line {
    uint8_t bytes[ROOM];
    size_t length;
    /* how its sensor sends altitudes */
    uint32_t form;
};

/* What is wrong, by the number of the rule. There is no rule 0; the library lists these four rules and no other. */
static const char *const wrong[] = {
    [SIAMRUNG_BREACH_SUBSTITUTION_MODE3A] = "an ATCRBS substitution report has bit 5, Mode 3/A, set (4.2.7)",
    [SIAMRUNG_BREACH_RELAY_WITHOUT_MODE_C] = "a relayed DABS report has bit 6, Mode C, zero (4.1.4)",
    [SIAMRUNG_BREACH_MODE_C_ALL_ZEROS] = "an ATCRBS report has bit 6, Mode C, set and bits 79-90 all zeros (4.2.2); at sea level it may be right",
    [SIAMRUNG_BREACH_MAP_STOP_BELOW_START] = "a Map has its range stop below its range start (fields of Table 4-2)",
};
#define RULES (sizeof wrong / sizeof wrong[0])

static const char *reason(uint32_t refusal)
{
    return refusal == SIAMRUNG_MANNERS_REFUSAL_LIST_TOO_SMALL ? "the list is too small for the breaches" : line_reason(refusal);
}

/* How many reports and how many refused runs there are. Each refused run is named on standard error. The line itself is not refused here, so every
 * outcome but the end goes on. */
static void count_runs(const struct line *l, size_t *reports, size_t *refused)
{
    size_t place = 0;
    uint32_t kind;
    while ((kind = siamrung_kind(l->bytes, l->length, place, l->form, LINK)) != SIAMRUNG_KIND_END) {
        if (kind == SIAMRUNG_KIND_REFUSED) {
            uint32_t why = siamrung_refusal(l->bytes, l->length, place, l->form, LINK);
            fprintf(stderr, "manners: place %zu REFUSED %" PRIu32 " at %zu: %s\n",
                    siamrung_first(l->bytes, l->length, place, l->form, LINK), why,
                    siamrung_named(l->bytes, l->length, place, l->form, LINK), reason(why));
            ++*refused;
        } else {
            ++*reports;
        }
        place = siamrung_after(l->bytes, l->length, place, l->form, LINK);
    }
}

static void print_breaches(const struct line *l, const uint8_t *list, size_t breaches, size_t *counts)
{
    size_t k;
    for (k = 0; k < breaches; k++) {
        size_t place = siamrung_breach_place(list, k);
        uint32_t rule = siamrung_breach_rule(list, k), kind = siamrung_kind(l->bytes, l->length, place, l->form, LINK);
        printf("%zu %s rule %" PRIu32 ": %s\n", place, kind_names[kind - SIAMRUNG_KIND_SEARCH], rule, wrong[rule]);
        counts[rule]++;
    }
}

/* Answers 0 if the breaches of the line cannot be listed; standard error says why. */
static int judge(const struct line *l)
{
    /* enough for every line */
    static uint8_t list[4 * SIAMRUNG_MOST_BREACHES];
    size_t counts[RULES] = {0}, reports = 0, refused = 0, rule;
    uint32_t answer = siamrung_manners(l->bytes, l->length, l->form, list, sizeof list), done = siamrung_manners_done(answer);
    if (done != SIAMRUNG_MANNERS_LISTED) {
        fprintf(stderr, "manners: NOT JUDGED %" PRIu32 ": %s\n", done, reason(done));
        return 0;
    }
    count_runs(l, &reports, &refused);
    print_breaches(l, list, siamrung_manners_breaches(answer), counts);
    for (rule = 1; rule < RULES; rule++)
        printf("rule %zu broken %zu times: %s\n", rule, counts[rule], wrong[rule]);
    printf("%zu reports, %zu breaches; %zu refused and not judged\n", reports, siamrung_manners_breaches(answer), refused);
    return 1;
}

int main(int argc, char **argv)
{
    static struct line l;
    int good;
    if (!right_version("manners"))
        return 1;
    l.form = SIAMRUNG_FORM_SIGN_MAGNITUDE;
    if (take_form(argc, argv, &l.form) != argc) {
        fprintf(stderr, "usage: manners [--twos-complement] < RECORDING\n");
        return 2;
    }
    l.length = fread(l.bytes, 1, ROOM, stdin);
    if (ferror(stdin)) {
        perror("manners: standard input");
        return 1;
    }
    good = judge(&l);
    if (fflush(stdout) != 0 || ferror(stdout)) {
        perror("manners: standard output");
        return 1;
    }
    return good ? 0 : 1;
}
