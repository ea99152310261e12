/* salvage.c: a program in C that gets what can be got from a damaged log. It lends the log, a buffer for the records
 * and one for the list of what is skipped. What it must print stands in salvage.out, worked out by hand. It is compiled
 * in any folder, by
 *     gcc -O2 -I FOLDER_OF_NATAQVOJU_H salvage.c FOLDER_OF_THE_LIBRARIES/libnataqvoju_salvage.a -o salvage */
#include <inttypes.h>
#include <stdio.h>
#include <string.h>

#include "nataqvoju.h"

static const uint8_t damaged[] = {
    0x7E, 0xB5, 3, 14, 1,       /*  0: wire 14 goes high */
    0x7E, 0xB5, 6,              /*  5: a delivery step */
    0x7E, 0xB4, 5, 10, 0, 0, 0, /*  8: an advance, in whose mark a bit has flipped */
    0x7E, 0xB5, 4, 0x2E,        /* 15: an end of interrupt */
    0x00, 0xFF,                 /* 19: stray bytes */
    0x7E, 0xB5, 6,              /* 21: a delivery step */
    0x7E, 0xB5, 5, 10, 0, 0,    /* 24: an advance, of which the last byte is missing */
};

/* The most that a log of this length can need. */
enum { LENGTH = sizeof damaged, KEPT = LENGTH, LIST = 2 * ((LENGTH + 3) / 4) };

static uint8_t kept[KEPT];
static uint64_t list[LIST];

static int as_it_came(const void *from, const void *to) {
    const uint8_t *byte;
    for (byte = (const uint8_t *)from; byte != to; byte++)
        if (*byte != 0xEE) return 0;
    return 1;
}

/* Salvages into the first bytes and numbers of the buffers, and shows what came of it. */
static void salvage(size_t kept_length, size_t list_length) {
    NataqvojuSalvaged s;
    uint64_t n;
    int rest;
    memset(kept, 0xEE, sizeof kept);
    memset(list, 0xEE, sizeof list);
    printf("-- room for %zu bytes and %zu numbers\n", kept_length, list_length);
    s = nataqvoju_salvage(damaged, LENGTH, kept, kept_length, list, list_length);
    if (s.number != NATAQVOJU_DONE) printf("refused %" PRIu64 "\n", s.number);
    printf("records %" PRIu64 ", bytes %" PRIu64 ", stretches %" PRIu64 "\n", s.records, s.bytes, s.stretches);
    for (n = 0; n < s.bytes; n++) printf("%02x%s", kept[n], n + 1 < s.bytes ? " " : "\n");
    for (n = 0; n < s.stretches; n++) printf("skipped %" PRIu64 " at %" PRIu64 "\n", list[2 * n + 1], list[2 * n]);
    rest = as_it_came(kept + s.bytes, kept + KEPT) && as_it_came(list + 2 * s.stretches, list + LIST);
    printf("the rest of the buffers: %s\n", rest ? "as it came" : "CHANGED");
}

int main(void) {
    NataqvojuSalvaged s;
    uint8_t again[KEPT];
    uint64_t none;
    printf("a log of %d bytes\n", LENGTH);
    salvage(KEPT, LIST);
    salvage(15, 5);
    salvage(14, 6);
    salvage(15, 6);
    puts("-- what was kept, salvaged again: there is nothing to list");
    s = nataqvoju_salvage(kept, 15, again, sizeof again, &none, 0);
    printf("records %" PRIu64 ", bytes %" PRIu64 ", stretches %" PRIu64 ", %s\n", s.records, s.bytes, s.stretches,
           memcmp(again, kept, 15) == 0 ? "the same bytes" : "OTHER BYTES");
    return 0;
}
