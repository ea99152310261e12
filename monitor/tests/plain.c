/* plain.c: the plain engine beside the board's own calls. Each call is made on two boards, and the numbers and all
 * bytes have to agree: each kind by its name, refusals, timers of all sorts, a board with settings, memory that is no
 * board, unknown kinds. The memory around the board that the plain engine is lent is watched.
 * Last line: N passed, M failed. */
#include <stdio.h>
#include <string.h>

#include "nataqvoju.h"

static unsigned long passed, failed;
static NataqvojuBoard first;
static struct {
    uint8_t before[64];
    NataqvojuBoard board;
    uint8_t after[64];
} lent;

#define PLAIN (&lent.board)

static int guarded(void) {
    size_t k;
    for (k = 0; k < sizeof lent.before; k++)
        if (lent.before[k] != 0x5A || lent.after[k] != 0x5A) return 0;
    return 1;
}

static void check(int good, const char *what) {
    if (good) {
        passed++;
    } else {
        failed++;
        printf("FAILED: %s\n", what);
    }
}

static NataqvojuNumbers bare(uint32_t number) {
    NataqvojuNumbers n;
    memset(&n, 0, sizeof n);
    n.number = number;
    return n;
}

static int same(NataqvojuNumbers n, NataqvojuNumbers want) { return memcmp(&n, &want, sizeof n) == 0; }

/* both answered this number, and the boards are the same */
static void both(const char *what, NataqvojuNumbers of_first, NataqvojuNumbers of_plain, uint32_t number) {
    int boards = memcmp(&first, PLAIN, sizeof first) == 0 && guarded();
    check(of_first.number == number && same(of_first, of_plain) && boards, what);
}

static void fill(int byte) {
    memset(&lent, 0x5A, sizeof lent);
    memset(PLAIN, byte, sizeof first);
    first = *PLAIN;
}

static void reset(void) { both("reset", nataqvoju_reset(&first), nataqvoju_plain_reset(PLAIN), 0); }
static void read(uint64_t window, uint64_t width, uint64_t offset, uint32_t number) {
    both("read", nataqvoju_read(&first, window, width, offset), nataqvoju_plain_read(PLAIN, window, width, offset),
         number);
}
static void write(uint64_t window, uint64_t width, uint64_t offset, uint64_t value, uint32_t number) {
    both("write", nataqvoju_write(&first, window, width, offset, value),
         nataqvoju_plain_write(PLAIN, window, width, offset, value), number);
}
static void wire(uint64_t pin, uint64_t level, uint32_t number) {
    both("wire", nataqvoju_wire(&first, pin, level), nataqvoju_plain_wire(PLAIN, pin, level), number);
}
static void end(uint8_t vector, uint32_t number) {
    both("end", nataqvoju_end(&first, vector), nataqvoju_plain_end(PLAIN, vector), number);
}
static void advance(uint32_t ticks, uint32_t number) {
    both("advance", nataqvoju_advance(&first, ticks), nataqvoju_plain_advance(PLAIN, ticks), number);
}
static void deliver(uint32_t number) {
    both("deliver", nataqvoju_deliver(&first), nataqvoju_plain_deliver(PLAIN), number);
}

static void entry(unsigned pin, uint64_t low) {
    write(NATAQVOJU_CONTROLLER, 4, NATAQVOJU_INDEX, NATAQVOJU_ENTRY + 2 * pin, 0);
    write(NATAQVOJU_CONTROLLER, 4, NATAQVOJU_DATA, low, 0);
}

static void timer(unsigned n, uint64_t configuration, uint64_t comparator) {
    write(NATAQVOJU_TIMERS, 8, NATAQVOJU_TIMER + NATAQVOJU_TIMER_STEP * n, configuration, 0);
    write(NATAQVOJU_TIMERS, 8, NATAQVOJU_TIMER + NATAQVOJU_TIMER_STEP * n + NATAQVOJU_COMPARATOR, comparator, 0);
}

/* edge pin 4, active low, with a pulsing and a level timer; level pin 9; timer 2 in 32-bit mode on masked pin 5 */
static void of_calls(void) {
    int k;
    fill(0xEE);
    reset();
    entry(4, 0x2034);
    entry(9, 0x8029);
    timer(0, 4 << 9 | 0x4C, 3);
    timer(1, 4 << 9 | 0x06, 9);
    timer(2, 5 << 9 | 0x14C, 0xFFFFFFFF);
    write(NATAQVOJU_TIMERS, 8, NATAQVOJU_COUNTER, 0xFFFFFFF0, 0);
    write(NATAQVOJU_TIMERS, 4, NATAQVOJU_CONFIGURATION, 1, 0);
    wire(9, 1, 0);
    for (k = 0; k < 5; k++) {
        advance((uint32_t)(k * k * k), 0);
        deliver(0);
        deliver(0);
        deliver(0);
        end(0x29, 0);
        read(NATAQVOJU_TIMERS, 8, NATAQVOJU_STATUS, 0);
        read(NATAQVOJU_TIMERS, 4, NATAQVOJU_COUNTER + NATAQVOJU_HIGH_HALF, 0);
        write(NATAQVOJU_TIMERS, 8, NATAQVOJU_STATUS, 2, 0);
    }
    advance(200000, 0);
    read(2, 4, 0, 1);
    read(NATAQVOJU_CONTROLLER, 8, 0x04, 2);
    write(NATAQVOJU_TIMERS, 4, NATAQVOJU_CONFIGURATION, 1ull << 32, 4);
    wire(24, 0, 3);
    wire(0, 2, 4);
}

/* The board's own call resets with a record, and each engine serves one of the two. Timer 0 can be routed to pins 4 and
 * 6, timer 1 to pin 9, timer 2 to pins 20 to 23. */
static void of_settings(void) {
    static const uint8_t record[22] = {0x5A, 0xC3, 1, 0x34, 0x12, 0x15, 0xCD, 0x5B, 0, 0x50, 0,
                                       0,    0,    0, 2,    0,    0,    0,    0,    0xF0, 0, 5};
    uint64_t offset, route;
    unsigned m;
    fill(0xEE);
    check(same(nataqvoju_reset_settings(&first, record, sizeof record), bare(0)), "a reset with settings");
    *PLAIN = first;
    for (offset = 0; offset < 0x160; offset += 4) read(NATAQVOJU_TIMERS, 4, offset, 0);
    for (offset = 0; offset < 0x160; offset += 8) read(NATAQVOJU_TIMERS, 8, offset, 0);
    read(NATAQVOJU_CONTROLLER, 4, NATAQVOJU_DATA, 0);
    write(NATAQVOJU_CONTROLLER, 4, NATAQVOJU_DATA, 0x0A000000, 0);
    entry(6, 0x36);
    entry(9, 0x8029);
    for (m = 0; m < 3; m++)
        for (route = 0; route < 32; route++) {
            timer(m, UINT64_C(0xA5A5A5A500000000) | route << 9 | (route & 1) << 1 | 0x4C, 3 + route);
            write(NATAQVOJU_TIMERS, 4, NATAQVOJU_TIMER + NATAQVOJU_TIMER_STEP * m, (31 - route) << 9 | 0x04, 0);
            write(NATAQVOJU_TIMERS, 4, NATAQVOJU_TIMER + NATAQVOJU_TIMER_STEP * m + 4, route, 0);
        }
    check(first.timers.timer[0].route == 4 && first.timers.timer[1].route == 9 && first.timers.timer[2].route == 23,
          "the last routes of the masks that were written");
    timer(0, 6 << 9 | 0x4C, 3);
    timer(1, 6 << 9 | 0x06, 9);
    write(NATAQVOJU_TIMERS, 4, NATAQVOJU_CONFIGURATION, 1, 0);
    advance(40, 0);
    deliver(0);
    deliver(0);
    deliver(0);
    first.timers.masks[2] = PLAIN->timers.masks[2] = 1;
    advance(1, 5);
    deliver(5);
    first.timers.masks[2] = PLAIN->timers.masks[2] = 0xF00000;
    first.timers.tick_period = PLAIN->timers.tick_period = 100000001;
    read(NATAQVOJU_TIMERS, 8, 0, 5);
    first.timers.tick_period = PLAIN->timers.tick_period = 1;
    first.timers.vendor = PLAIN->timers.vendor = 0x10000;
    end(0x29, 5);
    reset();
    read(NATAQVOJU_TIMERS, 8, NATAQVOJU_CAPABILITIES, 0);
    check(first.timers.vendor == 0x8086 && first.timers.tick_period == 100000000 && first.timers.masks[1] == 0xFFFFFF,
          "a reset without settings has document 01's");
}

static void of_refusals(void) {
    uint64_t kind;
    NataqvojuBoard kept;
    fill(0xEE);
    read(2, 3, 1, 5);
    write(NATAQVOJU_TIMERS, 8, 0, 0, 5);
    wire(24, 2, 5);
    end(0, 5);
    advance(4294967295u, 5);
    deliver(5);
    for (kind = 8; kind < 12; kind++)
        check(same(nataqvoju_plain(PLAIN, kind, 0, 0, 0, 0), bare(5)), "an unknown kind on what is no board");
    reset();
    kept = *PLAIN;
    for (kind = 8; kind < 12; kind++)
        check(same(nataqvoju_plain(PLAIN, kind, 1, 1, 1, 1), bare(7)), "kinds that the mill has, or nobody");
    check(same(nataqvoju_plain(PLAIN, 0, 0, 0, 0, 0), bare(7)), "kind 0");
    check(same(nataqvoju_plain(PLAIN, 1ull << 32 | 7, 0, 0, 0, 0), bare(7)), "a kind whose low half is a reset's");
    check(memcmp(&kept, PLAIN, sizeof kept) == 0 && guarded(), "and the board is as it was");
}

int main(void) {
    of_calls();
    of_settings();
    of_refusals();
    printf("%lu passed, %lu failed\n", passed, failed);
    return failed != 0;
}
