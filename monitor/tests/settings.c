/* settings.c: a reset with a settings record. Records that are taken, with every number at its ends, and the board that
 * comes of each, byte for byte; what its registers read, which routes are taken, what the id register does; refused
 * records, each fault alone and with all that are tested after it, on boards and on memory that is none; the plain
 * reset after it; settings that stay through any calls; a board of 288 bytes, as before there were settings, taken
 * over. The memory around the board and around the record is watched. Last line: N passed, M failed. */
#include <stdio.h>
#include <string.h>

#include "nataqvoju.h"

static unsigned long passed, failed;
static int sound = 1;

static void must(int good, const char *what, unsigned long long at) {
    if (good) return;
    sound = 0;
    printf("FAILED: %s, %llu\n", what, at);
}

/* all that was tried since the last one is one check */
static void counted(void) {
    if (sound) passed++; else failed++;
    sound = 1;
}

static void check(int good, const char *what) {
    must(good, what, 0);
    counted();
}

/* ---- settings, and their record ---- */

typedef struct {
    uint32_t vendor, period, masks[3], id;
} Settings;

enum { LENGTH = NATAQVOJU_SETTINGS_LENGTH, VENDOR_AT = 3, PERIOD_AT = 5, MASKS_AT = 9, ID_AT = 21 };

static const Settings standard = {0x8086, 100000000, {0xFFFFFF, 0xFFFFFF, 0xFFFFFF}, 0};
static const Settings other = {0x1234, 69841279, {0x000024, 0x800020, 0x000F00}, 11};

static void put(uint8_t *to, uint32_t number, unsigned bytes) {
    for (; bytes > 0; bytes--, number >>= 8) *to++ = (uint8_t)number;
}

static void fill(uint8_t *record, const Settings *s) {
    unsigned m;
    record[0] = 0x5A;
    record[1] = 0xC3;
    record[2] = 1;
    put(record + VENDOR_AT, s->vendor, 2);
    put(record + PERIOD_AT, s->period, 4);
    for (m = 0; m < 3; m++) put(record + MASKS_AT + 4 * m, s->masks[m], 4);
    put(record + ID_AT, s->id, 1);
}

/* ---- the lent board and record, and the memory around them ---- */

enum { AROUND = 64, LONGEST = 64 };

static struct {
    uint8_t before[AROUND];
    NataqvojuBoard board;
    uint8_t after[AROUND];
    uint8_t record[AROUND + LONGEST + AROUND];
} lent, kept;

#define BOARD (&lent.board)
#define RECORD (lent.record + AROUND)

static NataqvojuBoard worked, none;

static void lend(const NataqvojuBoard *board, const Settings *s) {
    memset(&lent, 0x5A, sizeof lent);
    lent.board = *board;
    fill(RECORD, s);
    memcpy(&kept, &lent, sizeof lent);
}

/* the call with this many bytes of the lent record */
static NataqvojuNumbers reset(size_t length) {
    memcpy(&kept, &lent, sizeof lent);
    return nataqvoju_reset_settings(BOARD, RECORD, length);
}

static int is(NataqvojuNumbers n, uint32_t number) {
    NataqvojuNumbers want;
    memset(&want, 0, sizeof want);
    want.number = number;
    return memcmp(&n, &want, sizeof n) == 0;
}

/* refused, and not a byte is changed */
static int refused(NataqvojuNumbers n, uint32_t number) {
    return is(n, number) && memcmp(&lent, &kept, sizeof lent) == 0;
}

static unsigned lowest(uint32_t mask) {
    unsigned pin = 0;
    while (!(mask >> pin & 1)) pin++;
    return pin;
}

/* the board that these settings make, by hand */
static NataqvojuBoard made(const Settings *s) {
    NataqvojuBoard board;
    unsigned k;
    memset(&board, 0, sizeof board);
    board.timers.tick_period = s->period;
    board.timers.vendor = s->vendor;
    for (k = 0; k < 3; k++) {
        board.timers.masks[k] = s->masks[k];
        board.timers.timer[k].comparator = UINT64_MAX;
        board.timers.timer[k].route = (uint16_t)lowest(s->masks[k]);
    }
    board.controller.id = s->id;
    for (k = 0; k < 24; k++) board.controller.entries.low[k] = 0x10000;
    return board;
}

/* these settings are taken, on boards and on memory that is none, and nothing but the board is changed */
static int taken(const Settings *s) {
    const NataqvojuBoard *boards[2] = {&worked, &none};
    NataqvojuBoard want = made(s);
    int ok = 1, k;
    for (k = 0; k < 2; k++) {
        lend(boards[k], s);
        ok &= is(reset(LENGTH), 0) && memcmp(BOARD, &want, sizeof want) == 0;
        kept.board = want;
        ok &= memcmp(&lent, &kept, sizeof lent) == 0;
    }
    return ok;
}

/* these are not: 10 */
static int out_of_range(const Settings *s) {
    int ok;
    lend(&worked, s);
    ok = refused(reset(LENGTH), 10);
    lend(&none, s);
    return ok & refused(reset(LENGTH), 10);
}

/* ---- records that are taken, and numbers out of range ---- */

static void of_numbers(void) {
    Settings s;
    unsigned k, m;
    must(taken(&standard) && taken(&other), "both", 0);
    counted();
    for (k = 0; k < 16; k++) {
        s = other;
        s.vendor = 1u << k;
        must(taken(&s), "vendor", s.vendor);
    }
    s.vendor = 0;
    must(taken(&s), "vendor", s.vendor);
    s.vendor = 0xFFFF;
    must(taken(&s), "vendor", s.vendor);
    counted();
    s = other;
    for (k = 0; k < 32; k++) {
        s.period = (uint32_t)1 << k;
        must(k < 27 ? taken(&s) : out_of_range(&s), "period", s.period);
    }
    for (k = 0; k < 3; k++) {
        s.period = 99999999 + k;
        must(k < 2 ? taken(&s) : out_of_range(&s), "period", s.period);
    }
    s.period = 0;
    must(out_of_range(&s), "period", s.period);
    s.period = UINT32_MAX;
    must(out_of_range(&s), "period", s.period);
    counted();
    for (m = 0; m < 3; m++) {
        s = other;
        for (k = 0; k < 32; k++) {
            s.masks[m] = (uint32_t)1 << k;
            must(k < 24 ? taken(&s) : out_of_range(&s), "one pin", 100 * m + k);
            s.masks[m] = UINT32_MAX << k & 0xFFFFFF;
            must(k < 24 ? taken(&s) : out_of_range(&s), "from a pin up", 100 * m + k);
            if (k >= 24) {
                s.masks[m] = (uint32_t)1 << k | 0xFFFFFF;
                must(out_of_range(&s), "a bit above 23 beside all pins", 100 * m + k);
            }
        }
        s.masks[m] = UINT32_MAX;
        must(out_of_range(&s), "all bits", m);
        counted();
    }
    s = other;
    for (k = 0; k < 256; k++) {
        s.id = k;
        must(k < 16 ? taken(&s) : out_of_range(&s), "id", k);
    }
    counted();
}

/* ---- the refusals, in their order ---- */

static int wrong_byte(size_t at, unsigned byte, uint32_t number) {
    uint8_t was = RECORD[at];
    int ok;
    if (byte == was) return 1;
    RECORD[at] = (uint8_t)byte;
    ok = refused(reset(LENGTH), number);
    RECORD[at] = was;
    return ok;
}

static void of_order(const NataqvojuBoard *board, const char *what) {
    size_t length;
    unsigned byte;
    int faults;
    /* each fault with and without those that are tested after it */
    for (faults = 0; faults < 2; faults++) {
        Settings s = other;
        if (faults) s.period = 0, s.masks[1] = 0, s.id = 200;
        lend(board, &s);
        if (faults) must(refused(reset(LENGTH), 10), what, 10);
        for (byte = 0; byte < 256; byte++)
            if (byte != 1) must(wrong_byte(2, byte, 9), what, 9000 + byte);
        if (faults) RECORD[2] = 2;
        for (byte = 0; byte < 256; byte++)
            must(wrong_byte(0, byte, 6) && wrong_byte(1, byte, 6), what, 6000 + byte);
        if (faults) RECORD[0] = 0xC3, RECORD[1] = 0x5A;
        if (faults) must(refused(reset(LENGTH), 6), "the mark's bytes changed places", 0);
        for (length = 0; length <= LONGEST; length++)
            if (length != LENGTH) must(refused(reset(length), 8), what, 8000 + length);
        counted();
    }
    /* a sound record stands in those bytes all the same */
    lend(board, &other);
    must(is(reset(LENGTH), 0), what, 0);
    counted();
}

/* ---- what a board with settings shows ---- */

static uint64_t timers(unsigned width, unsigned offset) {
    NataqvojuNumbers n = nataqvoju_read(BOARD, NATAQVOJU_TIMERS, width, offset);
    must(n.number == 0, "a read of the timers", offset);
    return n.value;
}

static void set_timers(unsigned width, unsigned offset, uint64_t value) {
    must(is(nataqvoju_write(BOARD, NATAQVOJU_TIMERS, width, offset, value), 0), "a write to the timers", offset);
}

static uint64_t word(unsigned index) {
    must(is(nataqvoju_write(BOARD, NATAQVOJU_CONTROLLER, 4, NATAQVOJU_INDEX, index), 0), "the index", index);
    return nataqvoju_read(BOARD, NATAQVOJU_CONTROLLER, 4, NATAQVOJU_DATA).value;
}

static void of_registers(const Settings *s) {
    uint64_t capabilities = (uint64_t)s->period << 32 | s->vendor << 16 | 0x2201;
    unsigned m;
    lend(&none, s);
    must(is(reset(LENGTH), 0), "a reset", 0);
    must(timers(8, 0x000) == capabilities, "the capabilities", 8);
    must(timers(4, 0x000) == (uint32_t)capabilities && timers(4, 0x004) == s->period, "their halves", 4);
    set_timers(8, 0x000, 0);
    set_timers(4, 0x004, 1);
    must(timers(8, 0x000) == capabilities, "the capabilities, written", 8);
    counted();
    for (m = 0; m < 3; m++) {
        unsigned at = NATAQVOJU_TIMER + NATAQVOJU_TIMER_STEP * m;
        uint64_t reads = (uint64_t)s->masks[m] << 32 | lowest(s->masks[m]) << 9 | 0x30;
        must(timers(8, at) == reads, "the configuration", m);
        must(timers(4, at) == (uint32_t)reads && timers(4, at + 4) == s->masks[m], "its halves", m);
        set_timers(4, at + 4, 0);
        set_timers(4, at + 4, UINT32_MAX);
        set_timers(8, at, ~(uint64_t)s->masks[m] << 32 | (uint32_t)reads);
        must(timers(8, at) == reads, "bits 63:32 are not written", m);
        must(memcmp(BOARD->timers.masks, s->masks, sizeof s->masks) == 0, "nor are the masks", m);
        counted();
    }
    must(word(NATAQVOJU_ID) == s->id << 24 && word(NATAQVOJU_ARBITRATION) == s->id << 24, "id and arbitration", 0);
    must(word(NATAQVOJU_ID) == s->id << 24, "the id's index", 0);
    must(is(nataqvoju_write(BOARD, NATAQVOJU_CONTROLLER, 4, NATAQVOJU_DATA, 0x05000000), 0), "an id is written", 0);
    must(word(NATAQVOJU_ID) == 0x05000000 && word(NATAQVOJU_ARBITRATION) == 0x05000000, "and read back", 0);
    must(timers(8, 0x000) == capabilities, "and the capabilities are as they were", 0);
    must(is(reset(LENGTH), 0) && word(NATAQVOJU_ID) == s->id << 24, "and a reset brings the settings' back", 0);
    counted();
}

/* every route from every other, with the other bits */
static void of_routes(const Settings *s) {
    enum { BITS = 0x14E }; /* level, interrupt, periodic, 32 bits, and bit 6 */
    unsigned m, from, to;
    lend(&none, s);
    must(is(reset(LENGTH), 0), "a reset", 0);
    for (m = 0; m < 3; m++) {
        unsigned at = NATAQVOJU_TIMER + NATAQVOJU_TIMER_STEP * m;
        for (from = 0; from < 24; from++) {
            if (!(s->masks[m] >> from & 1)) continue;
            for (to = 0; to < 32; to++) {
                int in = to < 24 && (s->masks[m] >> to & 1);
                unsigned route = in ? to : from;
                set_timers(8, at, from << 9);
                must(BOARD->timers.timer[m].route == from, "a route of the mask", 100 * m + from);
                set_timers(to & 1 ? 4 : 8, at, to << 9 | BITS);
                must(BOARD->timers.timer[m].route == route, "the route", 100 * from + to);
                must(timers(8, at) == ((uint64_t)s->masks[m] << 32 | route << 9 | 0x30 | BITS), "its register",
                     100 * from + to);
            }
        }
        counted();
    }
}

/* ---- the plain reset, and settings that stay ---- */

static void of_plain_reset(void) {
    NataqvojuBoard want = made(&standard);
    lend(&none, &other);
    must(is(reset(LENGTH), 0), "a reset with settings", 0);
    memcpy(&kept, &lent, sizeof lent);
    must(is(nataqvoju_reset(BOARD), 0) && memcmp(BOARD, &want, sizeof want) == 0, "and one without", 0);
    kept.board = want;
    must(memcmp(&lent, &kept, sizeof lent) == 0, "which touches nothing else", 0);
    must(timers(8, 0x000) == UINT64_C(0x05F5E10080862201), "document 01's capabilities", 0);
    counted();
}

static uint64_t seed = 0x9E3779B97F4A7C15u;

static uint64_t next(void) {
    seed ^= seed << 13;
    seed ^= seed >> 7;
    seed ^= seed << 17;
    return seed;
}

static NataqvojuNumbers any_call(NataqvojuBoard *b) {
    uint64_t r = next(), x = next(), width = r >> 8 & 1 ? 8 : 4, offset = (r >> 16 & 127) * 4 / width * width;
    uint64_t value = r >> 24 & 1 ? x >> (64 - 8 * width) : x & 0x3FFF;
    unsigned timer = NATAQVOJU_TIMER + NATAQVOJU_TIMER_STEP * (unsigned)((r >> 16) % 3);
    switch (r % 9) {
    case 0: return nataqvoju_read(b, NATAQVOJU_TIMERS, width, offset);
    case 1: return nataqvoju_write(b, NATAQVOJU_CONTROLLER, 4, NATAQVOJU_INDEX, r >> 16 & 63);
    case 2: return nataqvoju_write(b, NATAQVOJU_CONTROLLER, 4, NATAQVOJU_DATA, x & 0x1FFFF);
    case 3: return nataqvoju_write(b, NATAQVOJU_TIMERS, width, offset, value);
    case 4: return nataqvoju_write(b, NATAQVOJU_TIMERS, 8, timer, x);
    case 5: return nataqvoju_wire(b, (r >> 16) % 25, r >> 32 & 1);
    case 6: return nataqvoju_end(b, (uint8_t)(r >> 16));
    case 7: return nataqvoju_advance(b, (uint32_t)(r >> 24 & 1 ? x : x & 31));
    default: return nataqvoju_deliver(b);
    }
}

static int as_set(const NataqvojuBoard *b, const Settings *s) {
    int ok = b->timers.vendor == s->vendor && b->timers.tick_period == s->period;
    unsigned m;
    for (m = 0; m < 3; m++) {
        ok &= b->timers.masks[m] == s->masks[m];
        ok &= b->timers.timer[m].route < 24 && (s->masks[m] >> b->timers.timer[m].route & 1);
    }
    return ok;
}

static void of_calls(void) {
    unsigned long moved = 0;
    int n, k, m;
    for (n = 0; n < 200; n++) {
        Settings s;
        s.vendor = next() & 0xFFFF;
        s.period = (uint32_t)(1 + next() % 100000000);
        for (m = 0; m < 3; m++) s.masks[m] = (uint32_t)(next() & (n % 2 ? 0xFFFFFF : next())) & 0xFFFFFF;
        for (m = 0; m < 3; m++) s.masks[m] |= (uint32_t)1 << next() % 24;
        s.id = next() & 15;
        lend(n % 3 ? &none : &worked, &s);
        must(is(reset(LENGTH), 0), "a reset", (unsigned)n);
        for (k = 0; k < 300; k++) {
            NataqvojuTimers before = BOARD->timers;
            must(any_call(BOARD).number != 5 && as_set(BOARD, &s), "a call", (unsigned)n);
            for (m = 0; m < 3; m++) moved += before.timer[m].route != BOARD->timers.timer[m].route;
        }
        kept.board = *BOARD;
        must(memcmp(&lent, &kept, sizeof lent) == 0, "nothing but the board is changed", (unsigned)n);
    }
    check(moved > 1000, "routes were written");
}

/* ---- a board that was saved before there were settings ---- */

typedef struct { /* 288 bytes */
    uint64_t counter, enabled;
    NataqvojuTimer timer[3];
    NataqvojuController controller;
    uint8_t outside[24];
} BoardBefore;

static void take_over(NataqvojuBoard *board, const BoardBefore *before) {
    nataqvoju_reset(board); /* document 01's settings */
    board->timers.counter = before->counter;
    board->timers.enabled = before->enabled < 2 ? (uint32_t)before->enabled : 2; /* 2: no board, as it was none */
    memcpy(board->timers.timer, before->timer, sizeof before->timer);
    board->controller = before->controller;
    memcpy(board->outside, before->outside, sizeof before->outside);
}

static void of_boards_before(void) {
    BoardBefore before;
    NataqvojuBoard board, over;
    int k;
    must(sizeof before == 288, "the size before", sizeof before);
    nataqvoju_reset(&board);
    for (k = 0; k < 2000; k++) {
        any_call(&board);
        before.counter = board.timers.counter;
        before.enabled = board.timers.enabled;
        memcpy(before.timer, board.timers.timer, sizeof before.timer);
        before.controller = board.controller;
        memcpy(before.outside, board.outside, sizeof before.outside);
        memset(&over, 0xEE, sizeof over);
        take_over(&over, &before);
        must(memcmp(&over, &board, sizeof over) == 0, "taken over", (unsigned)k);
    }
    before.enabled = UINT64_C(1) << 32;
    take_over(&over, &before);
    must(is(nataqvoju_deliver(&over), 5), "what was no board is none", 0);
    counted();
}

/* ---- memory that is no board ---- */

static void of_zeros(void) {
    NataqvojuBoard zeros;
    memset(&zeros, 0, sizeof zeros);
    lend(&zeros, &other);
    check(refused(nataqvoju_deliver(BOARD), 5) && refused(nataqvoju_read(BOARD, 1, 8, 0), 5), "zeros are no board");
    check(taken(&other), "a reset with settings makes one");
}

int main(void) {
    int k;
    memset(&none, 0xEE, sizeof none);
    nataqvoju_reset(&worked);
    for (k = 0; k < 500; k++) any_call(&worked);
    of_numbers();
    of_order(&worked, "a board");
    of_order(&none, "memory that is no board");
    of_registers(&standard);
    of_registers(&other);
    of_routes(&standard);
    of_routes(&other);
    of_plain_reset();
    of_calls();
    of_boards_before();
    of_zeros();
    printf("%lu passed, %lu failed\n", passed, failed);
    return failed != 0 || passed == 0;
}
