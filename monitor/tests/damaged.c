/* damaged.c: the salvage of damaged logs. Logs whose parts were worked out by hand, each with every room from none to
 * more than it needs: 12 exactly where the records or the list don't fit, every byte of both buffers then as it came, a
 * rest that stays, lists of odd length. Then long logs. The log and the memory around the buffers are watched.
 * Last line: N passed, M failed. */
#include <stdio.h>
#include <string.h>

#include "nataqvoju.h"

static unsigned long passed, failed;
static int sound = 1;

static void must(int good, const char *what, unsigned long long at) {
    if (good) return;
    sound = 0;
    printf("FAILED: %s, %llu\n", what, at);
}

/* all that was tried since the last one is one check */
static void counted(void) {
    if (sound) passed++; else failed++;
    sound = 1;
}

/* ---- logs and their parts ---- */

enum { LONGEST = 64, MOST = 16 };

typedef struct {
    const char *name;
    const char *log; /* in hexadecimal */
    uint64_t records;
    uint64_t list[MOST]; /* offset and length of each skipped stretch; a length of 0 ends it */
} Case;

static const Case cases[] = {
    {"an empty log", "", 0, {0}},
    {"a delivery step", "7eb506", 1, {0}},
    {"each kind, one after the other",
     "7eb50100040000 7eb502000400001000000000000000 7eb5030e01 7eb5042e 7eb50507000000 7eb506", 6, {0}},
    {"calls that a board refuses", "7eb503ff01 7eb50109090000 7eb5030e02", 3, {0}},
    {"one byte", "00", 0, {0, 1}},
    {"a mark alone", "7eb5", 0, {0, 2}},
    {"nothing but damage", "000102030405060708090a0b0c0d0e0f", 0, {0, 16}},
    {"nothing but first bytes of a mark", "7e7e7e7e7e7e7e7e", 0, {0, 8}},
    {"a torn middle", "7eb506 b5030e01 0000 7eb506", 2, {3, 6}},
    {"a torn advance, which takes what follows for its body", "7eb506 7eb50502 7eb5030e01 7eb506", 3, {10, 2}},
    {"a flipped mark", "7eb506 7fb506 7eb506", 2, {3, 3}},
    {"a flipped second byte of a mark", "7eb506 7eb406 7eb506", 2, {3, 3}},
    {"kind 0", "7eb506 7eb500 7eb506", 2, {3, 3}},
    {"kind 7", "7eb506 7eb507 7eb506", 2, {3, 3}},
    {"kind 4 is known", "00 7eb504ff 00", 1, {0, 1, 5, 1}},
    {"a first byte before a mark", "7e 7eb506", 1, {0, 1}},
    {"a mark before a mark", "7eb5 7eb506", 1, {0, 2}},
    {"a skip of one byte, not of a record", "7eb5097eb506", 1, {0, 3}},
    {"a record inside a broken one", "7eb4 05 7eb506 00", 1, {0, 3, 6, 1}},
    {"what looks like a record inside a kept one", "7eb505 7eb50600", 1, {0}},
    {"damage at both ends", "ff 7eb506 7eb5042e ffff", 2, {0, 1, 8, 2}},
    {"a write, and one that lacks its last byte",
     "7eb502000400001000000000000000 7eb5020004000010000000000000", 1, {15, 14}},
    {"a wire change that lacks its last byte", "7eb506 7eb5030e", 1, {3, 4}},
    {"an end that lacks its only byte", "7eb506 7eb504", 1, {3, 3}},
    {"as many stretches as there can be", "00 7eb506 00 7eb506 00 7eb506 00", 3, {0, 1, 4, 1, 8, 1, 12, 1}},
    {"two stretches with one record between them", "0000 7eb506 000000", 1, {0, 2, 5, 3}},
};

static size_t read_log(const char *text, uint8_t *log) {
    size_t n = 0;
    unsigned byte;
    int used;
    while (sscanf(text, " %2x%n", &byte, &used) == 1) {
        log[n++] = (uint8_t)byte;
        text += used;
    }
    return n;
}

/* ---- the lent memory, and what is around it ---- */

enum { BEFORE = 32 };

static struct {
    uint8_t log[BEFORE + LONGEST + BEFORE];
    uint8_t kept[BEFORE + LONGEST + BEFORE];
    uint64_t list[BEFORE + LONGEST + BEFORE];
} lent, wanted;

static void all_rooms(const Case *c) {
    uint8_t log[LONGEST], kept[LONGEST];
    size_t length = read_log(c->log, log), bytes = 0, numbers = 0, at = 0, m, k, l;
    while (numbers < MOST && c->list[numbers + 1] != 0) numbers += 2;
    for (m = 0; m <= numbers; m += 2) { /* what lies between the stretches is kept */
        size_t end = m < numbers ? (size_t)c->list[m] : length;
        memcpy(kept + bytes, log + at, end - at);
        bytes += end - at;
        at = m < numbers ? end + (size_t)c->list[m + 1] : end;
    }
    must(bytes <= length && numbers <= 2 * ((length + 3) / 4), "the most that a log can need", length);
    for (k = 0; k <= bytes + 2; k++)
        for (l = 0; l <= numbers + 3; l++) {
            int fits = bytes <= k && numbers <= l;
            NataqvojuSalvaged s, want = {0, 0, 0, 0};
            memset(&lent, 0x5A, sizeof lent);
            memcpy(lent.log + BEFORE, log, length);
            memcpy(&wanted, &lent, sizeof lent);
            want.number = fits ? NATAQVOJU_DONE : NATAQVOJU_NO_ROOM;
            if (fits) {
                want.records = c->records;
                want.bytes = bytes;
                want.stretches = numbers / 2;
                memcpy(wanted.kept + BEFORE, kept, bytes);
                memcpy(wanted.list + BEFORE, c->list, numbers * sizeof *c->list);
            }
            s = nataqvoju_salvage(lent.log + BEFORE, length, lent.kept + BEFORE, k, lent.list + BEFORE, l);
            must(memcmp(&s, &want, sizeof s) == 0, c->name, 1000 * k + l);
            must(memcmp(&lent, &wanted, sizeof lent) == 0, c->name, 1000 * k + l);
        }
    counted();
}

/* ---- long logs: a salvage has no limit ---- */

enum { LONG = 300000 }; /* bytes, a multiple of 12 */

static void of_long_logs(void) {
    static uint8_t log[LONG], kept[LONG];
    static uint64_t list[LONG / 2];
    NataqvojuSalvaged s;
    size_t n;
    for (n = 0; n < LONG; n += 3) memcpy(log + n, "\x7E\xB5\x06", 3);
    s = nataqvoju_salvage(log, LONG, kept, LONG, list, 0);
    must(s.number == 0 && s.records == LONG / 3 && s.bytes == LONG && s.stretches == 0, "sound", LONG);
    must(memcmp(kept, log, LONG) == 0, "sound, its bytes", LONG);
    counted();

    for (n = 0; n < LONG; n += 4) memcpy(log + n, "\x00\x7E\xB5\x06", 4);
    s = nataqvoju_salvage(log, LONG, kept, LONG, list, LONG / 2 - 1);
    must(s.number == 12 && s.records == 0 && s.bytes == 0 && s.stretches == 0, "torn, a number too few", LONG);
    s = nataqvoju_salvage(log, LONG, kept, LONG / 4 * 3, list, LONG / 2);
    must(s.number == 0 && s.records == LONG / 4 && s.bytes == LONG / 4 * 3 && s.stretches == LONG / 4, "torn", LONG);
    for (n = 0; n < LONG / 4; n++) {
        must(memcmp(kept + 3 * n, "\x7E\xB5\x06", 3) == 0, "torn, a record", n);
        must(list[2 * n] == 4 * n && list[2 * n + 1] == 1, "torn, a stretch", n);
    }
    counted();

    memset(log, 0x7E, LONG);
    list[2] = 7;
    s = nataqvoju_salvage(log, LONG, kept, 0, list, 2);
    must(s.number == 0 && s.records == 0 && s.bytes == 0 && s.stretches == 1, "all damage", LONG);
    must(list[0] == 0 && list[1] == LONG && list[2] == 7, "all damage, its stretch", LONG);
    counted();
}

int main(void) {
    size_t n;
    for (n = 0; n < sizeof cases / sizeof *cases; n++) all_rooms(&cases[n]);
    of_long_logs();
    printf("%lu passed, %lu failed\n", passed, failed);
    return failed != 0;
}
