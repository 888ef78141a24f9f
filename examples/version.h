/*
 * version.h: whether the library is the one that a program was compiled for. With another, the calls would pass other arguments than it takes.
 */
#ifndef VERSION_H
#define VERSION_H

#include <inttypes.h>
#include <stdio.h>

#include "siamrung.h"

/* Answers 0 if the library has another version; standard error says so. */
static int right_version(const char *program)
{
    if (siamrung_version() == SIAMRUNG_VERSION)
        return 1;
    fprintf(stderr, "%s: the library has version %" PRIu32 ", this program was compiled for %d\n", program, siamrung_version(), SIAMRUNG_VERSION);
    return 0;
}

#endif
