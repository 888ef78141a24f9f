/*
 * plain.h: the calls of siamrung.h once more, under another name, as a C programmer writes them by hand: what the proved library is
 * measured against. The answers are to be the same on every input; bench.c compares them before it measures anything.
 */
#ifndef PLAIN_H
#define PLAIN_H

#include <siamrung.h>

/* ---- what a read finds, for plain_line.c, plain_index.c, plain_manners.c and plain_lister.c: one decode of the run, an item at its number */

#define PLAIN_ITEMS 37

struct plain_outcome {
    uint32_t kind;
    uint32_t refusal;
    uint32_t link;
    size_t first, after, named;
    int32_t item[PLAIN_ITEMS];
};

void plain_read(const uint8_t *bytes, size_t length, size_t place, uint32_t form, uint32_t link, struct plain_outcome *o);

/* which items a kind of report has: bit k is item k. A DABS or ATCRBS with a height has ALTITUDE or CARRIED too. */
uint64_t plain_items_of(uint32_t kind);

/* how many bits an item of that kind has; ALTITUDE is none of them */
unsigned plain_width(uint32_t kind, unsigned item);

/* ---- the calls */

uint32_t plain_kind(const uint8_t *bytes, size_t length, size_t place, uint32_t form, uint32_t link);
uint32_t plain_refusal(const uint8_t *bytes, size_t length, size_t place, uint32_t form, uint32_t link);
size_t plain_first(const uint8_t *bytes, size_t length, size_t place, uint32_t form, uint32_t link);
size_t plain_after(const uint8_t *bytes, size_t length, size_t place, uint32_t form, uint32_t link);
size_t plain_named(const uint8_t *bytes, size_t length, size_t place, uint32_t form, uint32_t link);
uint32_t plain_link(const uint8_t *bytes, size_t length, size_t place, uint32_t form, uint32_t link);
uint32_t plain_has(const uint8_t *bytes, size_t length, size_t place, uint32_t form, uint32_t link, uint32_t item);
int64_t plain_item(const uint8_t *bytes, size_t length, size_t place, uint32_t form, uint32_t link, uint32_t item);
uint32_t plain_has_values(const uint8_t *bytes, size_t length, size_t place, uint32_t form, uint32_t link);
double plain_nmi(const uint8_t *bytes, size_t length, size_t place, uint32_t form, uint32_t link);
double plain_degrees(const uint8_t *bytes, size_t length, size_t place, uint32_t form, uint32_t link);
double plain_seconds(const uint8_t *bytes, size_t length, size_t place, uint32_t form, uint32_t link);

size_t plain_write(uint8_t *bytes, size_t length, size_t place, uint32_t form, uint32_t kind, const uint8_t *items, size_t items_length);
uint32_t plain_write_refusal(const uint8_t *bytes, size_t length, size_t place, uint32_t form, uint32_t kind, const uint8_t *items,
                             size_t items_length);

uint32_t plain_field_refusal(const uint8_t *bytes, size_t length, size_t count, uint32_t from_sensor);
uint32_t plain_field_type(const uint8_t *bytes, size_t length, size_t count, uint32_t from_sensor);
uint32_t plain_field_inner_type(const uint8_t *bytes, size_t length, size_t count, uint32_t from_sensor);
uint32_t plain_field_has(const uint8_t *bytes, size_t length, size_t count, uint32_t from_sensor, uint32_t item);
uint64_t plain_field_item(const uint8_t *bytes, size_t length, size_t count, uint32_t from_sensor, uint32_t item);
size_t plain_field_entries(const uint8_t *bytes, size_t length, size_t count, uint32_t from_sensor);
int64_t plain_field_entry(const uint8_t *bytes, size_t length, size_t count, uint32_t from_sensor, size_t index);
size_t plain_field_text_place(const uint8_t *bytes, size_t length, size_t count, uint32_t from_sensor);
size_t plain_field_text_length(const uint8_t *bytes, size_t length, size_t count, uint32_t from_sensor);

size_t plain_field_write(uint8_t *bytes, size_t length, uint32_t type, const uint8_t *items, size_t items_length, const uint8_t *list,
                         size_t list_length, const uint8_t *text, size_t text_length);
uint32_t plain_field_write_refusal(const uint8_t *bytes, size_t length, uint32_t type, const uint8_t *items, size_t items_length,
                                   const uint8_t *list, size_t list_length, const uint8_t *text, size_t text_length);

uint32_t plain_index_enter(siamrung_entry *table, size_t entries, const uint8_t *bytes, size_t length, size_t place, uint32_t form,
                           uint32_t link, uint32_t scan);
uint32_t plain_index_find(const siamrung_entry *table, size_t entries, uint32_t number);

/* in two passes over the line, and in one */
uint32_t plain_manners(const uint8_t *bytes, size_t length, uint32_t form, uint8_t *list, size_t list_length);
uint32_t plain_once_manners(const uint8_t *bytes, size_t length, uint32_t form, uint8_t *list, size_t list_length);

/* ---- shared by the two writers: items as siamrung.h gives them */

/* Puts the value of each item at its number less `from`, and answers which were given, a bit each; 0 where one is given twice, is outside
 * 0 .. below, or the length is no multiple of sixteen. */
uint64_t plain_take_items(const uint8_t *items, size_t length, uint64_t from, uint64_t below, int64_t *values);

#endif
