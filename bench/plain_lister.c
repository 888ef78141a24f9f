/*
 * plain_lister.c: the lister by hand: a recording from standard input, its listing to standard output, over the reader of plain_line.c.
 * A recording has no link; it is read with link 0.
 */
#include <stdio.h>

#include "plain.h"

static const char *const names[] = {
    "SEARCH",  "STROBE", "MAP",        "STATUS",     "RTQC",        "DABS", "DABS-CD", "DABS-MTD",
    "DABS-RDAS", "ATCRBS", "ATCRBS-CD", "ATCRBS-MTD", "ATCRBS-RDAS", "MTD",  "RDAS",
};

static uint8_t bytes[65538];

static void list(size_t length)
{
    struct plain_outcome o;
    size_t at = 0, reported = 0, refused = 0;

    for (;;) {
        plain_read(bytes, length, at, SIAMRUNG_FORM_SIGN_MAGNITUDE, 0, &o);
        if (o.kind == SIAMRUNG_KIND_END)
            break;
        at = o.after;
        if (o.kind == SIAMRUNG_KIND_REFUSED) {
            refused += o.after - o.first;
            printf("%lu REFUSED %u %lu %lu\n", (unsigned long)o.first, o.refusal, (unsigned long)(o.after - o.first), (unsigned long)o.named);
        } else {
            reported += o.after - o.first;
            printf("%lu %s %lu\n", (unsigned long)o.first, names[o.kind - SIAMRUNG_KIND_SEARCH], (unsigned long)(o.after - o.first));
        }
    }
    printf("IDLE %lu REPORTED %lu REFUSED %lu TOTAL %lu\n", (unsigned long)(length / 2 - reported - refused), (unsigned long)reported,
           (unsigned long)refused, (unsigned long)(length / 2));
}

int main(void)
{
    size_t length = fread(bytes, 1, sizeof bytes, stdin);

    if (length > 65536)
        puts("LONG");
    else if (length % 2)
        puts("ODD");
    else
        list(length);
    return ferror(stdin) || fflush(stdout) ? 1 : 0;
}
