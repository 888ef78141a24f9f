/*
 * kind_names.h: what each kind of report is called, as the lister calls it. The kind with the number k has the name kind_names[k -
 * SIAMRUNG_KIND_SEARCH].
 */
#ifndef KIND_NAMES_H
#define KIND_NAMES_H

#include "siamrung.h"

static const char *const kind_names[] = {
    "SEARCH", "STROBE", "MAP", "STATUS", "RTQC", "DABS", "DABS-CD", "DABS-MTD", "DABS-RDAS",
    "ATCRBS", "ATCRBS-CD", "ATCRBS-MTD", "ATCRBS-RDAS", "MTD", "RDAS",
};
#define KINDS (sizeof kind_names / sizeof kind_names[0])

#endif
