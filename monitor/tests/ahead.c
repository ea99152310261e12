/* ahead.c: the two inline functions of the header beside the library, on boards that random calls have made: an advance by
 * less than the next firing's ticks fires nothing and by so many exactly the timers that are due; a delivered pin's trigger
 * mode is the one that its register reads. It is C11 and C++11. Last line: N passed, M failed. */
#include <stdio.h>
#include <string.h>

#include "nataqvoju.h"

static uint64_t seed = UINT64_C(0x9E3779B97F4A7C15);

static uint64_t next(void) {
    seed ^= seed << 13;
    seed ^= seed >> 7;
    seed ^= seed << 17;
    return seed;
}

/* a number that is small, near a turn of 32 or 64 bits, or anything */
static uint64_t near_a_turn(void) {
    static const uint64_t turns[4] = {0, UINT64_C(1) << 32, 0, UINT64_C(1) << 63};
    uint64_t r = next();
    return r % 8 == 0 ? next() : turns[r >> 8 & 3] + (r >> 16) % 9 - 4;
}

static void any_call(NataqvojuBoard *b) {
    uint64_t r = next();
    uint64_t timer = 0x100 + 0x20 * ((r >> 16) % 3);
    switch (r % 8) {
    case 0: nataqvoju_write(b, NATAQVOJU_CONTROLLER, 4, NATAQVOJU_INDEX, 0x10 + 2 * ((r >> 16) % 24)); break;
    case 1: nataqvoju_write(b, NATAQVOJU_CONTROLLER, 4, NATAQVOJU_DATA, next() & 0xA8FF); break;
    case 2: nataqvoju_wire(b, (r >> 16) % 24, r >> 32 & 1); break;
    case 3: nataqvoju_write(b, NATAQVOJU_TIMERS, 8, timer, next() & 0x3F4E); break;
    case 4: nataqvoju_write(b, NATAQVOJU_TIMERS, 8, timer + 8, near_a_turn()); break;
    case 5: /* the counter can only be written while the block is disabled */
        nataqvoju_write(b, NATAQVOJU_TIMERS, 8, NATAQVOJU_CONFIGURATION, 0);
        nataqvoju_write(b, NATAQVOJU_TIMERS, 8, NATAQVOJU_COUNTER, near_a_turn());
        nataqvoju_write(b, NATAQVOJU_TIMERS, 8, NATAQVOJU_CONFIGURATION, r >> 16 & 7 ? 1 : 0);
        break;
    case 6: nataqvoju_advance(b, (uint32_t)(r >> 32) >> (r >> 16 & 31)); break;
    default: nataqvoju_end(b, (uint8_t)(r >> 16));
    }
}

/* ---- the next firing ---- */

/* how often timers fire in so many ticks, more of them than one advance takes, on a copy; a refusal counts as a firing */
static uint64_t fires(NataqvojuBoard b, uint64_t ticks) {
    NataqvojuNumbers n = nataqvoju_advance(&b, ticks < UINT32_MAX ? (uint32_t)ticks : UINT32_MAX);
    return n.number ? 1 : (uint64_t)n.fired[0] + n.fired[1] + n.fired[2];
}

/* whether in so many ticks the timers that meet their comparators then fire once, and the others don't */
static int fires_due(NataqvojuBoard b, uint32_t ticks) {
    const NataqvojuTimers before = b.timers;
    NataqvojuNumbers n = nataqvoju_advance(&b, ticks);
    unsigned m;
    for (m = 0; m < 3; m++) {
        uint64_t apart = before.timer[m].comparator - (before.counter + ticks);
        if (before.timer[m].narrow) apart &= UINT32_MAX;
        if (n.fired[m] != (apart == 0)) return 0;
    }
    return n.number == 0 && n.fired[0] + n.fired[1] + n.fired[2] > 0;
}

enum { DISABLED, WHOLE_TURN, SOON, FAR, CASES };
static unsigned long seen[CASES];

static int right_firing(const NataqvojuBoard *b) {
    uint64_t d = nataqvoju_next_firing(b);
    NataqvojuBoard later = *b;
    if (d == 0) { /* none, as far as an advance goes; if the block is enabled, all three comparators have just been met */
        seen[b->timers.enabled ? WHOLE_TURN : DISABLED]++;
        later.timers.counter--;
        return fires(*b, UINT32_MAX) == 0 && (!b->timers.enabled || fires(later, 1) == 3);
    }
    if (d <= UINT32_MAX) {
        seen[SOON]++;
        return fires(*b, d - 1) == 0 && fires_due(*b, (uint32_t)d);
    }
    /* farther than an advance goes: the counter may be anything, so it is put there */
    seen[FAR]++;
    later.timers.counter += d - 1;
    return fires(*b, UINT32_MAX) == 0 && fires(later, 1) > 0 && nataqvoju_next_firing(&later) == 1;
}

/* ---- the trigger mode ---- */

static unsigned long modes[2];

static int right_mode(NataqvojuBoard *b) {
    NataqvojuNumbers n = nataqvoju_deliver(b);
    NataqvojuBoard copy = *b;
    uint64_t low;
    int level = nataqvoju_is_level(b, n.pin);
    if (n.number || !n.delivered) return n.number == 0;
    nataqvoju_write(&copy, NATAQVOJU_CONTROLLER, 4, NATAQVOJU_INDEX, NATAQVOJU_ENTRY + 2 * (unsigned)n.pin);
    low = nataqvoju_read(&copy, NATAQVOJU_CONTROLLER, 4, NATAQVOJU_DATA).value;
    modes[level]++;
    return level == (int)(low >> 15 & 1) && (!level || low >> 14 & 1);
}

/* ---- the checks ---- */

static unsigned long passed, failed;

static void check(int good, const char *what) {
    if (good) passed++; else failed++;
    if (!good) printf("FAILED: %s\n", what);
}

/* what random calls don't come by: all three comparators met just now, at both widths */
static void turns(void) {
    NataqvojuBoard b;
    unsigned m;
    nataqvoju_reset(&b);
    check(nataqvoju_next_firing(&b) == 0, "a disabled block fires nothing");
    nataqvoju_write(&b, NATAQVOJU_TIMERS, 8, NATAQVOJU_CONFIGURATION, 1);
    check(nataqvoju_next_firing(&b) == UINT64_MAX, "from reset the comparators are met in 2^64 - 1 ticks");
    for (m = 0; m < 3; m++) nataqvoju_write(&b, NATAQVOJU_TIMERS, 8, 0x108 + 0x20 * m, 0);
    check(nataqvoju_next_firing(&b) == 0 && right_firing(&b), "2^64 ticks are told as none");
    nataqvoju_write(&b, NATAQVOJU_TIMERS, 8, 0x120, 0x100);
    check(nataqvoju_next_firing(&b) == UINT64_C(1) << 32 && right_firing(&b), "a whole turn of 32 bits");
    nataqvoju_write(&b, NATAQVOJU_TIMERS, 8, 0x128, 7);
    check(nataqvoju_next_firing(&b) == 7 && right_firing(&b), "the least of the three");
    check(!nataqvoju_is_level(&b, 24) && !nataqvoju_is_level(&b, UINT32_MAX), "pins above 23 are not level");
}

int main(void) {
    int firings = 1, pins = 1, s, i;
    turns();
    for (s = 0; s < 300; s++) {
        NataqvojuBoard b;
        nataqvoju_reset(&b);
        for (i = 0; i < 300; i++) {
            any_call(&b);
            firings &= right_firing(&b);
            pins &= right_mode(&b);
        }
    }
    check(firings, "an advance by less fires nothing, and by so many the timers that are due");
    check(pins, "a delivered pin's trigger mode is its register's");
    check(seen[DISABLED] > 100 && seen[SOON] > 100 && seen[FAR] > 100, "near, far and no firings came");
    check(modes[0] > 100 && modes[1] > 100, "edge and level pins were delivered");
    printf("%lu passed, %lu failed\n", passed, failed);
    return failed != 0 || passed == 0;
}
