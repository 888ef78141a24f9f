/*
 * driver.c: answers cases with the Siamrung library, so that a program in another language can compare every answer with its own
 * (tests/independent). It relies on siamrung.h alone and knows nothing of reports, fields, frames, indexes or rules: it asks and passes on.
 *
 * Input: cases, one behind the other, until the end. Every number has its high byte first. "bytes" is a length of four bytes and as many
 * bytes; "numbers" is a count of four bytes and as many numbers of eight.
 *   'L' bytes, form (4), link (4), step (4), numbers: a line, and the form and the link number to read it with; the places to look at beside
 *       the walk, with the same two
 *   'P' bytes, form (4), count (4), count times: link (4); numbers: a line, the form to read it in, and link numbers; the places to look at,
 *       each with one link number after the other; a report there is also written again, and looked at again, with the same two
 *   'W' bytes, count (4), count times: place (8), form (4), kind (4), items (bytes): a line, and the reports to write into it
 *   'F' bytes, count (8), from_sensor (4), ask (1), numbers: a field; the indices to ask beside 0 to 31
 *   'G' bytes, type (4), items (bytes), list (bytes), text (bytes): a field to write
 *   'S' stream, numbers: a stream to walk; the counts and places, in turn, to look at beside the walk
 *   'T' stream, count (4), count times: count (8), place (8), from_sensor (4), control (1), field (bytes), length (8), count (8): a stream,
 *       the frames to write into it with the length and the count to pass with each field; then the walk
 *   'I' table, count (4), count times: bytes; count (4), count times a step: a table, the lines, and the calls in turn, each of them
 *       'e' line (4), place (8), form (4), link (4), scan (4): to enter what stands there, the line by its number among the lines
 *       'w' line (4), place (8), form (4), link (4), scan (4): to enter every outcome of the line from the place on
 *       'f' number (4): to look for a number
 *   'M' bytes, length (8), form (4), link (4), count (4), count times: form (4), front (4), length (8), behind (4): a line, the length to
 *       pass with it, the form and the link number to walk it with, before the calls and after them; the calls of siamrung_manners in turn,
 *       each with its form and its list
 * "form" and "link" are the arguments of those names in siamrung.h, any numbers of 32 bits: they are passed on as they came.
 * "table" is front (4), entries (8), count (4), count times: number (2), kind (2), scan (4), place (8): the entries that are there. The
 * table begins behind as many of them as front says, and is passed with that number of entries; the others stand around it. A number of
 * entries over those that are there is only said, and more than 512 are there then. Where no entry is there, NULL is passed.
 * "stream" is bytes, length (8), count (8), place (8), numbers: a stream of frames, the length and the count to pass with it, the place
 * from which to walk it, and the sizes of the buffers that each field is asked with. A length is that of the bytes, or is only said to be
 * greater; no bit is counted that is not there, and other bytes stand behind. A size above 256 is only said too: 256 bytes are there, and no
 * field needs more. A buffer holds 165, 172, 179 .. (modulo 256) before the call.
 * A list for siamrung_manners has that many bytes in front of it and behind it. All of them and the list hold the same pattern before the
 * call. A length of a list above 26,220 is only said: 26,220 bytes are there, and no line needs more than 26,212. Where no byte is there, NULL
 * is passed. A length of a line that is not that of the bytes is only said: it is greater, and more than 65,536 bytes are there then.
 * Output: answers, each with its length (4) before it. The first is a head: the version (4) and the size of a size_t (4). Then follows one
 * for each case: the numbers that the calls gave, four bytes for a uint32_t, eight for the others, one for siamrung_has and
 * siamrung_field_has (255 for any number but 0 and 1), and the bytes after each writing, a field buffer's too. Behind each call of the
 * index stand the entries that it changed: how many (4), and each with its number among all that are there (4); in a walk also
 * siamrung_after. At the end of the case stand all entries. Behind each call of siamrung_manners stand its parts, the place and the rule of
 * each breach in the list, and the list with the bytes around it; a walk has siamrung_kind, siamrung_first and siamrung_after of each
 * outcome. A report that is written again has siamrung_write, the length of its line (4) and the bytes of it, which held the pattern of a
 * buffer before. An answer ends with one byte: 1 if nothing that is only read was changed.
 *
 * Every slice is malloc'ed to its exact length, so that valgrind sees an access outside; an empty slice is passed as NULL.
 */
#include "siamrung.h"

#include <stdio.h>
#include <stdlib.h>
#include <string.h>

#define ITEMS 41
#define FIRST_FIELD_ITEM 200
/* also asked: numbers of no item that are equal to one in their low bits */
#define NO_ITEMS 4
static const uint32_t no_items[NO_ITEMS] = {68, 265, 457, 0x80000004};

/* of an item that is written: its number and its value */
#define ITEM_BYTES 16
#define LAST_INDEX 31
/* where there is no report, items are asked this many times more seldom */
#define SELDOM 8
/* no field of a frame needs more bytes */
#define MOST_ROOM 256
/* no list of breaches needs more bytes: 26,220 */
#define MOST_LIST (4 * SIAMRUNG_MOST_BREACHES + 8)

/* ---- the slices of a case, each with a copy */

struct slice {
    uint8_t *bytes;
    uint8_t *copy;
    size_t length;
};

static void fail(const char *why)
{
    fprintf(stderr, "driver: %s\n", why);
    exit(2);
}

static void *take(size_t length)
{
    void *space = malloc(length);
    if (space == NULL) {
        fail("no memory");
    }
    return space;
}

/* A buffer that holds a pattern; NULL where it has no byte. */
static uint8_t *take_pattern(size_t length)
{
    uint8_t *bytes = length > 0 ? take(length) : NULL;
    size_t i;
    for (i = 0; i < length; i++) {
        bytes[i] = (uint8_t)(165 + 7 * i);
    }
    return bytes;
}

static void get(uint8_t *bytes, size_t length)
{
    if (fread(bytes, 1, length, stdin) != length) {
        fail("input ends inside a case");
    }
}

static uint64_t get_number(size_t width)
{
    uint8_t bytes[8];
    uint64_t number = 0;
    size_t i;
    get(bytes, width);
    for (i = 0; i < width; i++) {
        number = number * 256 + bytes[i];
    }
    return number;
}

static struct slice get_slice(void)
{
    struct slice slice = {NULL, NULL, 0};
    slice.length = (size_t)get_number(4);
    if (slice.length > 0) {
        slice.bytes = take(slice.length);
        slice.copy = take(slice.length);
        get(slice.bytes, slice.length);
        memcpy(slice.copy, slice.bytes, slice.length);
    }
    return slice;
}

static int same(const struct slice *slice)
{
    return slice->length == 0 || memcmp(slice->bytes, slice->copy, slice->length) == 0;
}

static void drop(struct slice *slice)
{
    free(slice->bytes);
    free(slice->copy);
}

/* ---- the answer of a case, gathered whole so that its length can stand before it */

static uint8_t *answer;
static size_t answer_length;
static size_t answer_room;

static void put(const uint8_t *bytes, size_t length)
{
    if (length == 0) {
        return;
    }
    if (answer_room - answer_length < length) {
        answer_room = 2 * (answer_room + length);
        answer = realloc(answer, answer_room);
        if (answer == NULL) {
            fail("no memory");
        }
    }
    memcpy(answer + answer_length, bytes, length);
    answer_length += length;
}

static void spell(uint8_t *bytes, uint64_t number, size_t width)
{
    size_t i;
    for (i = 0; i < width; i++) {
        bytes[width - 1 - i] = (uint8_t)(number % 256);
        number /= 256;
    }
}

static void put_number(uint64_t number, size_t width)
{
    uint8_t bytes[8];
    spell(bytes, number, width);
    put(bytes, width);
}

static void put_yes(uint32_t number)
{
    put_number(number <= 1 ? number : 255, 1);
}

static void put_double(double value)
{
    uint64_t number;
    memcpy(&number, &value, sizeof number);
    put_number(number, 8);
}

/* flushed at once: the other side may wait for this answer before it sends more */
static void send_answer(void)
{
    size_t length = answer_length;
    put_number(length, 4);
    if (fwrite(answer + length, 1, 4, stdout) != 4 || fwrite(answer, 1, length, stdout) != length || fflush(stdout) != 0) {
        fail("output not taken");
    }
    answer_length = 0;
}

/* ---- a line */

static void put_items(const struct slice *line, size_t place, uint32_t form, uint32_t link)
{
    uint32_t i;
    for (i = 0; i < ITEMS + NO_ITEMS; i++) {
        uint32_t item = i < ITEMS ? i : no_items[i - ITEMS];
        put_yes(siamrung_has(line->bytes, line->length, place, form, link, item));
        put_number((uint64_t)siamrung_item(line->bytes, line->length, place, form, link, item), 8);
    }
}

static int is_report(uint32_t kind)
{
    return kind != SIAMRUNG_KIND_REFUSED && kind != SIAMRUNG_KIND_END;
}

/* All answers about one place; gives siamrung_after, and sets end where the line is finished. */
static size_t look(const struct slice *line, size_t place, uint32_t form, uint32_t link, uint64_t turn, uint64_t step, int *end)
{
    uint32_t kind = siamrung_kind(line->bytes, line->length, place, form, link);
    size_t after = siamrung_after(line->bytes, line->length, place, form, link);
    int asked = turn % (is_report(kind) ? step : SELDOM * step) == 0;
    put_number(kind, 4);
    put_number(siamrung_refusal(line->bytes, line->length, place, form, link), 4);
    put_number(siamrung_first(line->bytes, line->length, place, form, link), 8);
    put_number(after, 8);
    put_number(siamrung_named(line->bytes, line->length, place, form, link), 8);
    put_number(siamrung_link(line->bytes, line->length, place, form, link), 4);
    put_number(siamrung_has_values(line->bytes, line->length, place, form, link), 4);
    put_double(siamrung_nmi(line->bytes, line->length, place, form, link));
    put_double(siamrung_degrees(line->bytes, line->length, place, form, link));
    put_double(siamrung_seconds(line->bytes, line->length, place, form, link));
    put_number(asked ? 1 : 0, 1);
    if (asked) {
        put_items(line, place, form, link);
    }
    *end = kind == SIAMRUNG_KIND_END || after == place;
    return after;
}

static void answer_line(void)
{
    struct slice line = get_slice();
    uint32_t form = (uint32_t)get_number(4);
    uint32_t link = (uint32_t)get_number(4);
    uint64_t step = get_number(4);
    uint64_t places = get_number(4);
    uint64_t turn = 0;
    size_t place = 0;
    int end = 0;
    /* a library that never ends is stopped here: no line has more places to look at */
    while (!end && turn <= line.length / 2 + 1) {
        place = look(&line, place, form, link, turn, step, &end);
        turn++;
    }
    for (turn = 0; turn < places; turn++) {
        look(&line, (size_t)get_number(8), form, link, turn, 1, &end);
    }
    put_number(same(&line) ? 1 : 0, 1);
    drop(&line);
}

/* ---- a line on several links */

/* The items of the report at the place, as siamrung_write takes them; gives their length. */
static size_t gather_items(const struct slice *line, size_t place, uint32_t form, uint32_t link, uint8_t *items)
{
    size_t length = 0;
    uint32_t item;
    for (item = 0; item < ITEMS; item++) {
        if (siamrung_has(line->bytes, line->length, place, form, link, item) != 0) {
            spell(items + length, item, 8);
            spell(items + length + 8, (uint64_t)siamrung_item(line->bytes, line->length, place, form, link, item), 8);
            length += ITEM_BYTES;
        }
    }
    return length;
}

/* The report at the place, written into a line that it just fills with its idle word, and all answers about that line. */
static void put_again(const struct slice *line, size_t place, uint32_t form, uint32_t link)
{
    uint8_t items[ITEM_BYTES * ITEMS];
    size_t items_length = gather_items(line, place, form, link, items);
    uint32_t kind = siamrung_kind(line->bytes, line->length, place, form, link);
    size_t words = siamrung_after(line->bytes, line->length, place, form, link) - siamrung_first(line->bytes, line->length, place, form, link);
    struct slice again = {NULL, NULL, 0};
    int end;
    /* a library that says more words is stopped here: no run has more than its line */
    again.length = 2 * ((words < line->length / 2 ? words : line->length / 2) + 1);
    again.bytes = take_pattern(again.length);
    put_number(siamrung_write(again.bytes, again.length, 0, form, kind, items, items_length), 8);
    put_number(again.length, 4);
    put(again.bytes, again.length);
    look(&again, 0, form, link, 0, 1, &end);
    drop(&again);
}

static void answer_links(void)
{
    struct slice line = get_slice();
    uint32_t form = (uint32_t)get_number(4);
    uint64_t links_count = get_number(4);
    uint32_t *links = take((links_count + 1) * sizeof(uint32_t));
    uint64_t places;
    uint64_t i;
    int end;
    for (i = 0; i < links_count; i++) {
        links[i] = (uint32_t)get_number(4);
    }
    for (places = get_number(4); places > 0; places--) {
        size_t place = (size_t)get_number(8);
        for (i = 0; i < links_count; i++) {
            look(&line, place, form, links[i], 0, 1, &end);
            if (is_report(siamrung_kind(line.bytes, line.length, place, form, links[i]))) {
                put_again(&line, place, form, links[i]);
            }
        }
    }
    put_number(same(&line) ? 1 : 0, 1);
    free(links);
    drop(&line);
}

/* ---- a line to write into */

static int write_one(struct slice *line)
{
    size_t place = (size_t)get_number(8);
    uint32_t form = (uint32_t)get_number(4);
    uint32_t kind = (uint32_t)get_number(4);
    struct slice items = get_slice();
    int unchanged;
    if (line->length > 0) {
        memcpy(line->copy, line->bytes, line->length);
    }
    put_number(siamrung_write_refusal(line->bytes, line->length, place, form, kind, items.bytes, items.length), 4);
    unchanged = same(line);
    put_number(siamrung_write(line->bytes, line->length, place, form, kind, items.bytes, items.length), 8);
    put_number(siamrung_write_refusal(line->bytes, line->length, place, form, kind, items.bytes, items.length), 4);
    put(line->bytes, line->length);
    unchanged = unchanged && same(&items);
    drop(&items);
    return unchanged;
}

static void answer_write(void)
{
    struct slice line = get_slice();
    uint64_t writes = get_number(4);
    int unchanged = 1;
    for (; writes > 0; writes--) {
        unchanged = write_one(&line) && unchanged;
    }
    put_number(unchanged ? 1 : 0, 1);
    drop(&line);
}

/* ---- a link data field */

static void put_field_items(const struct slice *field, size_t count, uint32_t from_sensor, uint64_t indices)
{
    uint32_t i;
    size_t index;
    for (i = 0; i < ITEMS + NO_ITEMS; i++) {
        uint32_t item = i < ITEMS ? FIRST_FIELD_ITEM + i : no_items[i - ITEMS];
        put_yes(siamrung_field_has(field->bytes, field->length, count, from_sensor, item));
        put_number(siamrung_field_item(field->bytes, field->length, count, from_sensor, item), 8);
    }
    for (index = 0; index <= LAST_INDEX; index++) {
        put_number((uint64_t)siamrung_field_entry(field->bytes, field->length, count, from_sensor, index), 8);
    }
    for (; indices > 0; indices--) {
        index = (size_t)get_number(8);
        put_number((uint64_t)siamrung_field_entry(field->bytes, field->length, count, from_sensor, index), 8);
    }
}

static void answer_field(void)
{
    struct slice field = get_slice();
    size_t count = (size_t)get_number(8);
    uint32_t from_sensor = (uint32_t)get_number(4);
    int asked = get_number(1) != 0;
    uint64_t indices = get_number(4);
    uint32_t refusal = siamrung_field_refusal(field.bytes, field.length, count, from_sensor);
    put_number(refusal, 4);
    put_number(siamrung_field_type(field.bytes, field.length, count, from_sensor), 4);
    put_number(siamrung_field_inner_type(field.bytes, field.length, count, from_sensor), 4);
    put_number(siamrung_field_entries(field.bytes, field.length, count, from_sensor), 8);
    put_number(siamrung_field_text_place(field.bytes, field.length, count, from_sensor), 8);
    put_number(siamrung_field_text_length(field.bytes, field.length, count, from_sensor), 8);
    asked = asked || refusal == 0;
    put_number(asked ? 1 : 0, 1);
    if (asked) {
        put_field_items(&field, count, from_sensor, indices);
    } else {
        for (; indices > 0; indices--) {
            get_number(8);
        }
    }
    put_number(same(&field) ? 1 : 0, 1);
    drop(&field);
}

static void answer_field_write(void)
{
    struct slice field = get_slice();
    uint32_t type = (uint32_t)get_number(4);
    struct slice items = get_slice();
    struct slice list = get_slice();
    struct slice text = get_slice();
    int unchanged;
    put_number(siamrung_field_write_refusal(field.bytes, field.length, type, items.bytes, items.length, list.bytes, list.length, text.bytes,
                                            text.length), 4);
    unchanged = same(&field);
    put_number(siamrung_field_write(field.bytes, field.length, type, items.bytes, items.length, list.bytes, list.length, text.bytes,
                                    text.length), 8);
    put_number(siamrung_field_write_refusal(field.bytes, field.length, type, items.bytes, items.length, list.bytes, list.length, text.bytes,
                                            text.length), 4);
    put(field.bytes, field.length);
    unchanged = unchanged && same(&items) && same(&list) && same(&text);
    put_number(unchanged ? 1 : 0, 1);
    drop(&field);
    drop(&items);
    drop(&list);
    drop(&text);
}

/* ---- a frame */

struct stream {
    struct slice slice;
    size_t length;
    size_t count;
    size_t place;
    size_t *rooms;
    uint64_t rooms_count;
};

static struct stream get_stream(void)
{
    struct stream stream;
    uint64_t i;
    stream.slice = get_slice();
    stream.length = (size_t)get_number(8);
    stream.count = (size_t)get_number(8);
    stream.place = (size_t)get_number(8);
    stream.rooms_count = get_number(4);
    stream.rooms = stream.rooms_count > 0 ? take(stream.rooms_count * sizeof(size_t)) : NULL;
    for (i = 0; i < stream.rooms_count; i++) {
        stream.rooms[i] = (size_t)get_number(8);
    }
    return stream;
}

static void drop_stream(struct stream *stream)
{
    drop(&stream->slice);
    free(stream->rooms);
}

/* The field copied to a buffer of that size, which holds a pattern before. */
static void put_frame_field(const struct stream *stream, size_t count, size_t place, size_t room)
{
    size_t there = room < MOST_ROOM ? room : MOST_ROOM;
    uint8_t *field = take_pattern(there);
    put_number(siamrung_frame_field(stream->slice.bytes, stream->length, count, place, field, room), 8);
    put(field, there);
    free(field);
}

/* All answers about one place; gives siamrung_frame_place, and sets end where the walk is finished. */
static size_t look_at_frame(const struct stream *stream, size_t count, size_t place, int *end)
{
    const uint8_t *bytes = stream->slice.bytes;
    size_t length = stream->length;
    uint32_t kind = siamrung_frame_kind(bytes, length, count, place);
    size_t next = siamrung_frame_place(bytes, length, count, place);
    uint64_t i;
    put_number(kind, 4);
    put_number(siamrung_frame_refusal(bytes, length, count, place), 4);
    put_number(next, 8);
    put_number(siamrung_frame_from_sensor(bytes, length, count, place), 4);
    put_number(siamrung_frame_control(bytes, length, count, place), 4);
    put_number(siamrung_frame_field_count(bytes, length, count, place), 8);
    for (i = 0; i < stream->rooms_count; i++) {
        put_frame_field(stream, count, place, stream->rooms[i]);
    }
    *end = kind == SIAMRUNG_KIND_END || next == place;
    return next;
}

static void walk_frames(const struct stream *stream)
{
    size_t place = stream->place;
    size_t turn = 0;
    int end = 0;
    /* a library that never ends is stopped here: no stream has more places to look at */
    while (!end && turn <= stream->slice.length + 1) {
        place = look_at_frame(stream, stream->count, place, &end);
        turn++;
    }
}

static void answer_frames(void)
{
    struct stream stream = get_stream();
    uint64_t numbers = get_number(4);
    int end;
    walk_frames(&stream);
    for (; numbers > 1; numbers -= 2) {
        size_t count = (size_t)get_number(8);
        size_t place = (size_t)get_number(8);
        look_at_frame(&stream, count, place, &end);
    }
    put_number(same(&stream.slice) ? 1 : 0, 1);
    drop_stream(&stream);
}

static int write_frame(struct stream *stream)
{
    struct slice *slice = &stream->slice;
    size_t count = (size_t)get_number(8);
    size_t place = (size_t)get_number(8);
    uint32_t from_sensor = (uint32_t)get_number(4);
    uint8_t control = (uint8_t)get_number(1);
    struct slice field = get_slice();
    size_t field_length = (size_t)get_number(8);
    size_t field_count = (size_t)get_number(8);
    int unchanged;
    put_number(siamrung_frame_write_refusal(slice->bytes, stream->length, count, place, from_sensor, control, field.bytes, field_length,
                                            field_count), 4);
    unchanged = same(slice);
    put_number(siamrung_frame_write(slice->bytes, stream->length, count, place, from_sensor, control, field.bytes, field_length,
                                    field_count), 8);
    put_number(siamrung_frame_write_refusal(slice->bytes, stream->length, count, place, from_sensor, control, field.bytes, field_length,
                                            field_count), 4);
    put(slice->bytes, slice->length);
    unchanged = unchanged && same(&field);
    drop(&field);
    if (slice->length > 0) {
        memcpy(slice->copy, slice->bytes, slice->length);
    }
    return unchanged;
}

static void answer_frame_writes(void)
{
    struct stream stream = get_stream();
    uint64_t writes = get_number(4);
    int unchanged = 1;
    for (; writes > 0; writes--) {
        unchanged = write_frame(&stream) && unchanged;
    }
    walk_frames(&stream);
    put_number(unchanged && same(&stream.slice) ? 1 : 0, 1);
    drop_stream(&stream);
}

/* ---- the index */

/* sixteen bytes, with no gap: an entry's four numbers are all of its bytes */
typedef char no_gap[sizeof(siamrung_entry) == 16 && offsetof(siamrung_entry, place) == 8 ? 1 : -1];

struct table {
    /* all that are there */
    siamrung_entry *whole;
    siamrung_entry *copy;
    size_t there;
    /* what is passed */
    siamrung_entry *lent;
    size_t entries;
};

static siamrung_entry get_entry(void)
{
    siamrung_entry entry;
    entry.number = (uint16_t)get_number(2);
    entry.kind = (uint16_t)get_number(2);
    entry.scan = (uint32_t)get_number(4);
    entry.place = (size_t)get_number(8);
    return entry;
}

static void put_entry(const siamrung_entry *entry)
{
    put_number(entry->number, 2);
    put_number(entry->kind, 2);
    put_number(entry->scan, 4);
    put_number(entry->place, 8);
}

static struct table get_table(void)
{
    struct table table = {NULL, NULL, 0, NULL, 0};
    size_t front = (size_t)get_number(4);
    size_t i;
    table.entries = (size_t)get_number(8);
    table.there = (size_t)get_number(4);
    if (front > table.there) {
        fail("a table behind its entries");
    }
    if (table.there > 0) {
        table.whole = take(table.there * sizeof(siamrung_entry));
        table.copy = take(table.there * sizeof(siamrung_entry));
        for (i = 0; i < table.there; i++) {
            table.whole[i] = get_entry();
            table.copy[i] = table.whole[i];
        }
        table.lent = table.whole + front;
    }
    return table;
}

/* The entries that are not as they were before the call. */
static void put_changes(struct table *table)
{
    size_t changes = 0;
    size_t i;
    for (i = 0; i < table->there; i++) {
        changes += memcmp(&table->whole[i], &table->copy[i], sizeof(siamrung_entry)) != 0;
    }
    put_number(changes, 4);
    for (i = 0; changes > 0 && i < table->there; i++) {
        if (memcmp(&table->whole[i], &table->copy[i], sizeof(siamrung_entry)) != 0) {
            put_number(i, 4);
            put_entry(&table->whole[i]);
            table->copy[i] = table->whole[i];
        }
    }
}

static void put_done(struct table *table, uint32_t number)
{
    put_number(number, 4);
    put_number(siamrung_index_done(number), 4);
    put_number(siamrung_index_entry(number), 8);
    put_changes(table);
}

static void enter(struct table *table, const struct slice *line, size_t place, uint32_t form, uint32_t link, uint32_t scan)
{
    put_done(table, siamrung_index_enter(table->lent, table->entries, line->bytes, line->length, place, form, link, scan));
}

static void enter_all(struct table *table, const struct slice *line, size_t place, uint32_t form, uint32_t link, uint32_t scan)
{
    size_t turn = 0;
    int end = 0;
    /* a library that never ends is stopped here: no line has more places to look at */
    while (!end && turn <= line->length / 2 + 1) {
        uint32_t kind = siamrung_kind(line->bytes, line->length, place, form, link);
        size_t after = siamrung_after(line->bytes, line->length, place, form, link);
        enter(table, line, place, form, link, scan);
        put_number(after, 8);
        end = kind == SIAMRUNG_KIND_END || after == place;
        place = after;
        turn++;
    }
}

static void answer_step(struct table *table, const struct slice *lines, size_t lines_count)
{
    uint64_t tag = get_number(1);
    if (tag == 'f') {
        put_done(table, siamrung_index_find(table->lent, table->entries, (uint32_t)get_number(4)));
    } else {
        size_t line = (size_t)get_number(4);
        size_t place = (size_t)get_number(8);
        uint32_t form = (uint32_t)get_number(4);
        uint32_t link = (uint32_t)get_number(4);
        uint32_t scan = (uint32_t)get_number(4);
        if (line >= lines_count || (tag != 'e' && tag != 'w')) {
            fail("no such step");
        }
        if (tag == 'w') {
            enter_all(table, &lines[line], place, form, link, scan);
        } else {
            enter(table, &lines[line], place, form, link, scan);
        }
    }
}

static void answer_index(void)
{
    struct table table = get_table();
    size_t lines_count = (size_t)get_number(4);
    struct slice *lines = take((lines_count + 1) * sizeof(struct slice));
    uint64_t steps;
    int unchanged = 1;
    size_t i;
    for (i = 0; i < lines_count; i++) {
        lines[i] = get_slice();
    }
    for (steps = get_number(4); steps > 0; steps--) {
        answer_step(&table, lines, lines_count);
    }
    for (i = 0; i < table.there; i++) {
        put_entry(&table.whole[i]);
    }
    for (i = 0; i < lines_count; i++) {
        unchanged = same(&lines[i]) && unchanged;
        drop(&lines[i]);
    }
    put_number(unchanged ? 1 : 0, 1);
    free(lines);
    free(table.whole);
    free(table.copy);
}

/* ---- manners */

static void walk_line(const struct slice *line, size_t length, uint32_t form, uint32_t link)
{
    size_t place = 0;
    size_t turn = 0;
    int end = 0;
    /* a library that never ends is stopped here: no line has more places to look at */
    while (!end && turn <= line->length / 2 + 1) {
        uint32_t kind = siamrung_kind(line->bytes, length, place, form, link);
        size_t after = siamrung_after(line->bytes, length, place, form, link);
        put_number(kind, 4);
        put_number(siamrung_first(line->bytes, length, place, form, link), 8);
        put_number(after, 8);
        end = kind == SIAMRUNG_KIND_END || after == place;
        place = after;
        turn++;
    }
}

/* The breaches as the header's functions take them out of the list. A library that counts too many is stopped where the list ends. */
static void put_breaches(const uint8_t *list, size_t there, uint32_t number)
{
    size_t breaches = siamrung_manners_done(number) == SIAMRUNG_MANNERS_LISTED ? siamrung_manners_breaches(number) : 0;
    size_t k;
    for (k = 0; k < breaches && k < there / 4; k++) {
        put_number(siamrung_breach_place(list, k), 8);
        put_number(siamrung_breach_rule(list, k), 4);
    }
}

static void put_manners(const struct slice *line, size_t length)
{
    uint32_t form = (uint32_t)get_number(4);
    size_t front = (size_t)get_number(4);
    size_t list_length = (size_t)get_number(8);
    size_t behind = (size_t)get_number(4);
    size_t there = list_length < MOST_LIST ? list_length : MOST_LIST;
    uint8_t *whole = take_pattern(front + there + behind);
    uint8_t *list = whole == NULL ? NULL : whole + front;
    uint32_t number = siamrung_manners(line->bytes, length, form, list, list_length);
    put_number(number, 4);
    put_number(siamrung_manners_done(number), 4);
    put_number(siamrung_manners_breaches(number), 8);
    put_breaches(list, there, number);
    put(whole, front + there + behind);
    free(whole);
}

static void answer_manners(void)
{
    struct slice line = get_slice();
    size_t length = (size_t)get_number(8);
    uint32_t form = (uint32_t)get_number(4);
    uint32_t link = (uint32_t)get_number(4);
    uint64_t calls = get_number(4);
    walk_line(&line, length, form, link);
    for (; calls > 0; calls--) {
        put_manners(&line, length);
    }
    walk_line(&line, length, form, link);
    put_number(same(&line) ? 1 : 0, 1);
    drop(&line);
}

/* ---- the whole */

static void answer_case(int tag)
{
    switch (tag) {
    case 'L':
        answer_line();
        break;
    case 'P':
        answer_links();
        break;
    case 'W':
        answer_write();
        break;
    case 'F':
        answer_field();
        break;
    case 'G':
        answer_field_write();
        break;
    case 'S':
        answer_frames();
        break;
    case 'T':
        answer_frame_writes();
        break;
    case 'I':
        answer_index();
        break;
    case 'M':
        answer_manners();
        break;
    default:
        fail("no such case");
    }
}

int main(void)
{
    int tag;
    put_number(siamrung_version(), 4);
    put_number(sizeof(size_t), 4);
    send_answer();
    while ((tag = getchar()) != EOF) {
        answer_case(tag);
        send_answer();
    }
    free(answer);
    return 0;
}
