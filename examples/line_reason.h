/*
 * What each refusal of reading a line says, in words. The examples that read a line print it behind the number.
 */
#ifndef LINE_REASON_H
#define LINE_REASON_H

#include "siamrung.h"

static const char *line_reason(uint32_t refusal)
{
    switch (refusal) {
    case SIAMRUNG_REFUSAL_NO_SUCH_LINK: return "the link number is above 15";
    case SIAMRUNG_REFUSAL_LINE_TOO_LONG: return "the recording has more than 65,536 bytes";
    case SIAMRUNG_REFUSAL_ODD_BYTE_COUNT: return "the recording has an odd number of bytes";
    case SIAMRUNG_REFUSAL_PLACE_BEYOND_LINE: return "the place is beyond the end";
    case SIAMRUNG_REFUSAL_WORD_TOO_WIDE: return "a word has more than thirteen bits";
    case SIAMRUNG_REFUSAL_EVEN_WORD: return "a word has an even number of ones";
    case SIAMRUNG_REFUSAL_UNKNOWN_FORM: return "the first word is of no known form";
    case SIAMRUNG_REFUSAL_WRONG_LENGTH: return "the run has not as many words as its first word says";
    case SIAMRUNG_REFUSAL_UNASSIGNED_RADAR: return "bits 88 to 90 are not assigned";
    case SIAMRUNG_REFUSAL_SPARE_BIT_SET: return "a zero or spare bit is one";
    case SIAMRUNG_REFUSAL_MINUS_ZERO: return "the altitude is minus zero";
    default: return "refused";
    }
}

#endif
