/* ill_formed.c: a well-formed board with one field broken, for every field and every way to break it alone. Every call
 * but a reset must answer 5 and nothing else, and leave each of the 304 bytes, and the memory around them, as it was. A
 * reset with settings takes the board, or leaves it as it was for the record's sake, and never answers 5.
 * Fields that take any value are tried too: there nothing may be refused. A field is one check, whatever number of
 * values is tried in it. Last line: N passed, M failed. */
#include <stdio.h>
#include <string.h>

#include "nataqvoju.h"

static unsigned long passed, failed;
static int sound = 1;

static void check(int good, const char *what, long at, unsigned long long value) {
    if (good) return;
    sound = 0;
    printf("FAILED: %s, at %ld, value %llu\n", what, at, value);
}

/* all that was tried since the last one is one check */
static void counted(void) {
    if (sound) passed++; else failed++;
    sound = 1;
}

/* ---- the board that is broken: each kind of pin and of timer occurs ---- */

static NataqvojuBoard good;

static void must(NataqvojuNumbers n) { check(n.number == 0, "a step of the set-up", 0, n.number); }

static void word(unsigned index, uint32_t value) {
    must(nataqvoju_write(&good, NATAQVOJU_CONTROLLER, 4, NATAQVOJU_INDEX, index));
    must(nataqvoju_write(&good, NATAQVOJU_CONTROLLER, 4, NATAQVOJU_DATA, value));
}

static void timer(unsigned m, uint64_t configuration, uint64_t comparator) {
    must(nataqvoju_write(&good, NATAQVOJU_TIMERS, 8, 0x100 + 0x20 * m, configuration));
    must(nataqvoju_write(&good, NATAQVOJU_TIMERS, 8, 0x108 + 0x20 * m, comparator));
}

static void set_up(void) {
    unsigned p;
    must(nataqvoju_reset(&good));
    /* pins by fours: masked edge, edge, level, level active low */
    for (p = 0; p < 24; p++) {
        static const uint32_t kinds[4] = {0x10000, 0x00000, 0x08000, 0x0A000};
        word(0x10 + 2 * p, kinds[p % 4] | (0x30 + p));
        word(0x11 + 2 * p, (uint32_t)(0xA0 + p) << 24);
    }
    word(0, 0x0B000000);
    for (p = 0; p < 24; p += 3) must(nataqvoju_wire(&good, p, 1));
    /* timer 0 level, 32 bits, periodic; timer 1 edge, 64 bits, periodic; timer 2 level, 32 bits, one-shot. All fire once. */
    timer(0, 2 | 4 | 8 | 0x40 | 0x100 | 2u << 9, 5);
    timer(1, 4 | 8 | 0x40 | 5u << 9, 6);
    timer(2, 2 | 4 | 0x100 | 8u << 9, 7);
    must(nataqvoju_write(&good, NATAQVOJU_TIMERS, 8, 0x010, 1));
    must(nataqvoju_advance(&good, 7));
    must(nataqvoju_deliver(&good));
    must(nataqvoju_deliver(&good));
    check(good.timers.timer[0].status == 1 && good.timers.timer[2].status == 1, "timers 0 and 2 have fired", 0, 0);
}

/* ---- every call on it, with the memory around it watched ---- */

static int bare(NataqvojuNumbers n, uint32_t number) {
    NataqvojuNumbers want;
    memset(&want, 0, sizeof want);
    want.number = number;
    return memcmp(&n, &want, sizeof n) == 0;
}

static struct {
    uint8_t before[64];
    NataqvojuBoard board;
    uint8_t after[64];
} lent, kept;

static int unchanged(void) { return memcmp(&lent, &kept, sizeof lent) == 0; }

/* vendor 0x1022, 10,000,000 femtoseconds, pins 2, 8 and 23, id 15; with one byte of it changed */
static NataqvojuNumbers reset_with(NataqvojuBoard *b, unsigned at, uint8_t byte, size_t length) {
    uint8_t record[] = {0x5A, 0xC3, 1, 0x22, 0x10, 0x80, 0x96, 0x98, 0, 4, 0, 0, 0, 0, 1, 0, 0, 0, 0, 0x80, 0, 15};
    record[at] = byte;
    return nataqvoju_reset_settings(b, record, length);
}

static int refuses_all(const NataqvojuBoard *b) {
    int ok = 1;
    NataqvojuBoard fresh;
    memset(&lent, 0x5A, sizeof lent);
    lent.board = *b;
    memcpy(&kept, &lent, sizeof lent);
    ok &= bare(nataqvoju_read(&lent.board, NATAQVOJU_CONTROLLER, 4, NATAQVOJU_DATA), 5) && unchanged();
    ok &= bare(nataqvoju_read(&lent.board, 7, 3, 1), 5) && unchanged();
    ok &= bare(nataqvoju_write(&lent.board, NATAQVOJU_CONTROLLER, 4, NATAQVOJU_DATA, 0x2A), 5) && unchanged();
    ok &= bare(nataqvoju_write(&lent.board, NATAQVOJU_TIMERS, 8, 0x108, 1), 5) && unchanged();
    ok &= bare(nataqvoju_read(&lent.board, NATAQVOJU_TIMERS, 4, NATAQVOJU_COUNTER), 5) && unchanged();
    ok &= bare(nataqvoju_write(&lent.board, NATAQVOJU_TIMERS, 4, 0x10C, UINT64_MAX), 5) && unchanged();
    ok &= bare(nataqvoju_wire(&lent.board, 1, 1), 5) && unchanged();
    ok &= bare(nataqvoju_wire(&lent.board, 24, 2), 5) && unchanged();
    ok &= bare(nataqvoju_end(&lent.board, 0x32), 5) && unchanged();
    ok &= bare(nataqvoju_advance(&lent.board, 0), 5) && unchanged();
    ok &= bare(nataqvoju_advance(&lent.board, 4294967295u), 5) && unchanged();
    ok &= bare(nataqvoju_deliver(&lent.board), 5) && unchanged();
    /* a reset with settings is refused for its record alone */
    ok &= bare(reset_with(&lent.board, 0, 0x7E, 21), 8) && unchanged();
    ok &= bare(reset_with(&lent.board, 0, 0x7E, 22), 6) && unchanged();
    ok &= bare(reset_with(&lent.board, 2, 2, 22), 9) && unchanged();
    ok &= bare(reset_with(&lent.board, 21, 16, 22), 10) && unchanged();
    /* and a reset takes it */
    memset(&fresh, 0, sizeof fresh);
    nataqvoju_reset(&fresh);
    ok &= bare(nataqvoju_reset(&lent.board), 0) && memcmp(&lent.board, &fresh, sizeof fresh) == 0;
    reset_with(&fresh, 21, 14, 22);
    lent.board = kept.board;
    ok &= bare(reset_with(&lent.board, 21, 14, 22), 0) && memcmp(&lent.board, &fresh, sizeof fresh) == 0;
    lent.board = kept.board;
    return ok && unchanged();
}

static int refuses_none(const NataqvojuBoard *b) {
    NataqvojuBoard t = *b;
    return nataqvoju_read(&t, NATAQVOJU_CONTROLLER, 4, NATAQVOJU_DATA).number == 0 && memcmp(&t, b, sizeof t) == 0 &&
           nataqvoju_advance(&t, 1).number == 0 && nataqvoju_deliver(&t).number == 0;
}

/* ---- the fields ---- */

#define BROKEN(field, at, x)                                           \
    do {                                                               \
        NataqvojuBoard t = good;                                       \
        t.field = (x);                                                 \
        check(refuses_all(&t), #field, at, (unsigned long long)(x));   \
    } while (0)

#define FINE(field, at, x)                                             \
    do {                                                               \
        NataqvojuBoard t = good;                                       \
        t.field = (x);                                                 \
        check(refuses_none(&t), #field " takes any", at, (unsigned long long)(x)); \
    } while (0)

#define FLAG(field, at)                                                \
    do {                                                               \
        unsigned v;                                                    \
        for (v = 2; v < 256; v++) BROKEN(field, at, (uint8_t)v);       \
    } while (0)

static int is_level(unsigned p) { return good.controller.entries.low[p] >> 15 & 1; }

/* a level timer with its interrupt enabled holds the wire of this pin high */
static int driven(unsigned p) {
    unsigned m;
    for (m = 0; m < 3; m++) {
        const NataqvojuTimer *t = &good.timers.timer[m];
        if (t->level_type && t->interrupt && t->status && t->route == p) return 1;
    }
    return 0;
}

static void of_controller(void) {
    unsigned k;
    for (k = 4; k < 32; k++) BROKEN(controller.id, k, (uint32_t)1 << k);
    for (k = 0; k < 16; k++) FINE(controller.id, k, k);
    counted();
    for (k = 8; k < 32; k++) BROKEN(controller.index, k, (uint32_t)1 << k);
    for (k = 0; k < 256; k++) FINE(controller.index, k, k);
    counted();
}

static void of_pin(unsigned p) {
    unsigned k;
    uint32_t low = good.controller.entries.low[p];
    BROKEN(controller.entries.low[p], p, low | 0x1000);
    for (k = 17; k < 32; k++) BROKEN(controller.entries.low[p], p, low | (uint32_t)1 << k);
    /* remote IRR stands on a level entry alone, masked or not */
    for (k = 0; k < 2; k++) {
        uint32_t masked = (low & ~(uint32_t)0x1C000) | k << 16;
        BROKEN(controller.entries.low[p], p, masked | 0x4000);
        if (good.controller.entries.held[p] == 0) FINE(controller.entries.low[p], p, masked | 0xC000);
    }
    if (is_level(p)) FINE(controller.entries.low[p], p, low ^ 0x4000);
    counted();
    for (k = 0; k < 256; k++) FINE(controller.entries.destination[p], p, (uint8_t)k);
    counted();
    BROKEN(controller.entries.level[p], p, !good.controller.entries.level[p]);
    FLAG(controller.entries.level[p], p);
    counted();
    FLAG(controller.entries.held[p], p);
    if (is_level(p))
        BROKEN(controller.entries.held[p], p, 1);
    else
        FINE(controller.entries.held[p], p, !good.controller.entries.held[p]);
    counted();
    FLAG(outside[p], p);
    /* the wire rule: the level kept is no longer the one that it gives, unless a timer holds the wire high anyway */
    if (driven(p))
        FINE(outside[p], p, !good.outside[p]);
    else
        BROKEN(outside[p], p, !good.outside[p]);
    counted();
}

static void of_block(void) {
    unsigned k;
    for (k = 1; k < 32; k++) BROKEN(timers.enabled, k, (uint32_t)1 << k);
    BROKEN(timers.enabled, 0, 0); /* the wires that the level timers hold high would fall */
    counted();
    for (k = 0; k < 64; k++) FINE(timers.counter, k, (uint64_t)1 << k);
    counted();
    for (k = 0; k < 16; k++) FINE(timers.vendor, k, (uint32_t)1 << k);
    FINE(timers.vendor, 0, 0);
    FINE(timers.vendor, 0, 0xFFFF);
    for (k = 16; k < 32; k++) BROKEN(timers.vendor, k, (uint32_t)1 << k);
    BROKEN(timers.vendor, 0, 0x10000 | good.timers.vendor);
    BROKEN(timers.vendor, 0, UINT32_MAX);
    counted();
    for (k = 0; k < 27; k++) FINE(timers.tick_period, k, (uint32_t)1 << k);
    for (k = 27; k < 32; k++) BROKEN(timers.tick_period, k, (uint32_t)1 << k);
    FINE(timers.tick_period, 0, 100000000);
    BROKEN(timers.tick_period, 0, 100000001);
    BROKEN(timers.tick_period, 0, 0);
    BROKEN(timers.tick_period, 0, UINT32_MAX);
    counted();
}

static void of_timer(unsigned m) {
    const NataqvojuTimer *t = &good.timers.timer[m];
    unsigned k, bits = t->narrow ? 32 : 64;
    uint32_t route = t->route, routed = (uint32_t)1 << route;
    for (k = 0; k < bits; k++) FINE(timers.timer[m].comparator, m, (uint64_t)1 << k);
    for (k = bits; k < 64; k++) BROKEN(timers.timer[m].comparator, m, (uint64_t)1 << k);
    counted();
    for (k = 0; k < bits; k++) FINE(timers.timer[m].period, m, (uint64_t)1 << k);
    for (k = bits; k < 64; k++) BROKEN(timers.timer[m].period, m, (uint64_t)1 << k);
    counted();
    for (k = 24; k < 32; k++) BROKEN(timers.timer[m].route, m, (uint16_t)k);
    for (k = 5; k < 16; k++) BROKEN(timers.timer[m].route, m, (uint16_t)(1u << k | route));
    counted();
    /* with any pins beside its route, and never without it */
    FINE(timers.masks[m], m, routed);
    for (k = 0; k < 24; k++) {
        uint32_t pin = (uint32_t)1 << k;
        FINE(timers.masks[m], k, pin | routed);
        if (k != route) BROKEN(timers.masks[m], k, pin);
    }
    BROKEN(timers.masks[m], m, 0);
    BROKEN(timers.masks[m], m, 0xFFFFFF & ~routed);
    for (k = 24; k < 32; k++) BROKEN(timers.masks[m], k, good.timers.masks[m] | (uint32_t)1 << k);
    BROKEN(timers.masks[m], m, UINT32_MAX);
    counted();
    FLAG(timers.timer[m].level_type, m);
    if (t->status) BROKEN(timers.timer[m].level_type, m, 0);
    counted();
    FLAG(timers.timer[m].interrupt, m);
    counted();
    FLAG(timers.timer[m].periodic, m);
    counted();
    FLAG(timers.timer[m].set_comparator, m);
    if (t->periodic)
        FINE(timers.timer[m].set_comparator, m, 1);
    else
        BROKEN(timers.timer[m].set_comparator, m, 1);
    counted();
    FLAG(timers.timer[m].narrow, m);
    counted();
    FLAG(timers.timer[m].status, m);
    if (!t->level_type) BROKEN(timers.timer[m].status, m, 1);
    counted();
}

/* ---- routes and masks: a timer that holds no wire may have any route of its own mask ---- */

static void of_route(unsigned m) {
    const NataqvojuBoard was = good;
    unsigned pin, route, all;
    nataqvoju_reset(&good);
    for (pin = 0; pin < 24; pin++)
        for (all = 0; all < 2; all++) {
            uint32_t mask = all ? 0xFFFFFF & ~((uint32_t)1 << pin) : (uint32_t)1 << pin;
            unsigned k;
            /* what this timer's mask has not the others' have; their routes are in theirs */
            for (k = 0; k < 3; k++) {
                good.timers.masks[k] = k == m ? mask : 0xFFFFFF & ~mask;
                for (route = 0; !(good.timers.masks[k] >> route & 1);) route++;
                good.timers.timer[k].route = (uint16_t)route;
            }
            for (route = 0; route < 24; route++)
                if (mask >> route & 1)
                    FINE(timers.timer[m].route, pin, (uint16_t)route);
                else
                    BROKEN(timers.timer[m].route, pin, (uint16_t)route);
        }
    good = was;
    counted();
}

/* ---- the answer depends on the 304 bytes and the arguments alone ---- */

static uint64_t seed = 0x9E3779B97F4A7C15u;

static uint64_t next(void) {
    seed ^= seed << 13;
    seed ^= seed >> 7;
    seed ^= seed << 17;
    return seed;
}

static NataqvojuNumbers any_call(NataqvojuBoard *b, uint64_t r, uint64_t x) {
    /* an access to the timers: a whole register, or a half */
    uint64_t width = r >> 8 & 1 ? 8 : 4, offset = (r >> 16 & 127) * 4 / width * width;
    switch (r % 8) {
    case 0: return r >> 9 & 1 ? nataqvoju_read(b, 1, width, offset) : nataqvoju_read(b, 0, 4, (r >> 16 & 1) * 16);
    case 1: return nataqvoju_write(b, 0, 4, 0, r >> 16 & 63);
    case 2: return nataqvoju_write(b, 0, 4, 16, x & 0x1FFFF);
    case 3: return nataqvoju_write(b, 1, width, offset, r >> 24 & 1 ? x >> (64 - 8 * width) : x & 0x3FFF);
    case 4: return nataqvoju_wire(b, (r >> 16) % 25, r >> 32 & 1);
    case 5: return nataqvoju_end(b, (uint8_t)(r >> 16));
    case 6: return nataqvoju_advance(b, (uint32_t)(r >> 24 & 1 ? x : x & 31));
    default: return nataqvoju_deliver(b);
    }
}

/* the same calls in place, and each on a copy of its own that is carried over by value */
static void sequences(void) {
    int s, i;
    for (s = 0; s < 200; s++) {
        NataqvojuBoard here, there;
        int ok = 1;
        nataqvoju_reset(&here);
        there = here;
        for (i = 0; i < 500; i++) {
            uint64_t r = next(), x = next();
            NataqvojuBoard copy = there;
            NataqvojuNumbers a = any_call(&here, r, x), c = any_call(&copy, r, x);
            there = copy;
            ok &= memcmp(&a, &c, sizeof a) == 0 && memcmp(&here, &there, sizeof here) == 0 && a.number != 5;
        }
        check(ok, "in place, and by way of copies", s, 0);
    }
    counted();
}

/* any 304 bytes are answered; nearly all of them with 5 */
static void any_bytes(void) {
    int s, i, k;
    for (s = 0; s < 200; s++) {
        int ok = 1;
        for (i = 0; i < 100; i++) {
            NataqvojuBoard b;
            for (k = 0; k < (int)sizeof b; k += 8) {
                uint64_t r = next();
                memcpy((uint8_t *)&b + k, &r, 8);
            }
            ok &= refuses_all(&b);
        }
        check(ok, "any bytes", s, 0);
    }
    counted();
}

int main(void) {
    unsigned p, m;
    set_up();
    check(refuses_none(&good), "the board that is broken", 0, 0);
    counted();
    of_controller();
    for (p = 0; p < 24; p++) of_pin(p);
    of_block();
    for (m = 0; m < 3; m++) of_timer(m);
    for (m = 0; m < 3; m++) of_route(m);
    sequences();
    any_bytes();
    printf("%lu passed, %lu failed\n", passed, failed);
    return failed != 0 || passed == 0;
}
