/*
 * altitude_form.h: the option by which a program is told in which form a sensor sends altitudes. The words do not tell it.
 */
#ifndef ALTITUDE_FORM_H
#define ALTITUDE_FORM_H

#include <string.h>

#include "siamrung.h"

/* Takes the option --twos-complement, if it stands first. Answers the place of the next argument, and sets the form. */
static int take_form(int argc, char **argv, uint32_t *form)
{
    if (argc < 2 || strcmp(argv[1], "--twos-complement") != 0)
        return 1;
    *form = SIAMRUNG_FORM_TWOS_COMPLEMENT;
    return 2;
}

#endif
