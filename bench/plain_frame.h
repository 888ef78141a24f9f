/*
 * plain_frame.h: the calls of siamrung.h on frames once more, twice: plain_frame_.. goes bit by bit, plain_bytes_frame_.. by bytes and words.
 */
#ifndef PLAIN_FRAME_H
#define PLAIN_FRAME_H

#include <siamrung.h>

#define PLAIN_FRAME_CALLS(p)                                                                                                                \
    uint32_t p##kind(const uint8_t *bytes, size_t length, size_t count, size_t place);                                                      \
    uint32_t p##refusal(const uint8_t *bytes, size_t length, size_t count, size_t place);                                                   \
    size_t p##place(const uint8_t *bytes, size_t length, size_t count, size_t place);                                                       \
    uint32_t p##from_sensor(const uint8_t *bytes, size_t length, size_t count, size_t place);                                               \
    uint32_t p##control(const uint8_t *bytes, size_t length, size_t count, size_t place);                                                   \
    size_t p##field_count(const uint8_t *bytes, size_t length, size_t count, size_t place);                                                 \
    size_t p##field(const uint8_t *bytes, size_t length, size_t count, size_t place, uint8_t *field, size_t field_length);                  \
    size_t p##write(uint8_t *bytes, size_t length, size_t count, size_t place, uint32_t from_sensor, uint8_t control, const uint8_t *field, \
                    size_t field_length, size_t field_count);                                                                               \
    uint32_t p##write_refusal(const uint8_t *bytes, size_t length, size_t count, size_t place, uint32_t from_sensor, uint8_t control,       \
                              const uint8_t *field, size_t field_length, size_t field_count);

PLAIN_FRAME_CALLS(plain_frame_)
PLAIN_FRAME_CALLS(plain_bytes_frame_)

#endif
