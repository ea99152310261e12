/* pause_key.c: a monitor in C. It keeps the board in its own memory, and tells a story of it line by line.
 * What it must print stands in pause_key.out, worked out by hand. It is compiled in any folder, by
 *     gcc -O2 -I FOLDER_OF_NATAQVOJU_H pause_key.c FOLDER_OF_THE_LIBRARY/libnataqvoju.a -o pause_key */
#include <inttypes.h>
#include <stdio.h>
#include <string.h>

#include "nataqvoju.h"

enum { DRIVE = 9, PAUSE = 14 };          /* the pins of the servo drive and of the pause key */
enum { DRIVE_VECTOR = 0x29, PAUSE_VECTOR = 0x2E };
enum { EDGE = 0x0000, LEVEL = 0x8000, LOGICAL = 0x0800 };
enum { INTERRUPT = 0x04, PERIODIC = 0x08, SET_COMPARATOR = 0x40, NARROW = 0x100, ROUTE_AT = 9 };

/* ---- one line for each call: what was done, and the answer ---- */

static int refused(const char *what, NataqvojuNumbers n) {
    if (n.number == NATAQVOJU_DONE) return 0;
    printf("%s: refused %" PRIu32 "\n", what, n.number);
    return 1;
}

static void done(const char *what, NataqvojuNumbers n) {
    if (!refused(what, n)) printf("%s: ok\n", what);
}

static void value(const char *what, NataqvojuNumbers n) {
    if (!refused(what, n)) printf("%s: 0x%016" PRIx64 "\n", what, n.value);
}

static void fired(const char *what, NataqvojuNumbers n) {
    if (!refused(what, n)) printf("%s: fired %" PRIu32 " %" PRIu32 " %" PRIu32 "\n", what, n.fired[0], n.fired[1], n.fired[2]);
}

static void delivery(const char *what, NataqvojuNumbers n) {
    if (refused(what, n)) return;
    if (n.delivered)
        printf("%s: pin %u vector 0x%02x dest %u logical %u\n", what, n.pin, n.vector, n.destination, n.logical);
    else
        printf("%s: none\n", what);
}

static void same(const char *what, const NataqvojuBoard *a, const NataqvojuBoard *b) {
    printf("%s: %s\n", what, memcmp(a, b, sizeof *a) == 0 ? "same bytes" : "OTHER BYTES");
}

/* ---- registers ---- */

static NataqvojuNumbers put_word(NataqvojuBoard *b, unsigned index, uint32_t word) {
    NataqvojuNumbers n = nataqvoju_write(b, NATAQVOJU_CONTROLLER, 4, NATAQVOJU_INDEX, index);
    return n.number ? n : nataqvoju_write(b, NATAQVOJU_CONTROLLER, 4, NATAQVOJU_DATA, word);
}

static NataqvojuNumbers get_low(NataqvojuBoard *b, unsigned pin) {
    NataqvojuNumbers n = nataqvoju_write(b, NATAQVOJU_CONTROLLER, 4, NATAQVOJU_INDEX, NATAQVOJU_ENTRY + 2 * pin);
    return n.number ? n : nataqvoju_read(b, NATAQVOJU_CONTROLLER, 4, NATAQVOJU_DATA);
}

static NataqvojuNumbers put_low(NataqvojuBoard *b, unsigned pin, uint32_t word) {
    return put_word(b, NATAQVOJU_ENTRY + 2 * pin, word);
}

static NataqvojuNumbers put_high(NataqvojuBoard *b, unsigned pin, uint32_t word) {
    return put_word(b, NATAQVOJU_ENTRY + 2 * pin + 1, word);
}

static NataqvojuNumbers put_timer(NataqvojuBoard *b, unsigned m, uint64_t configuration, uint64_t comparator) {
    unsigned at = NATAQVOJU_TIMER + NATAQVOJU_TIMER_STEP * m;
    NataqvojuNumbers n = nataqvoju_write(b, NATAQVOJU_TIMERS, 8, at, configuration);
    return n.number ? n : nataqvoju_write(b, NATAQVOJU_TIMERS, 8, at + NATAQVOJU_COMPARATOR, comparator);
}

/* ---- the story ---- */

static void pause_key(NataqvojuBoard *b) {
    puts("-- the machine starts");
    done("reset", nataqvoju_reset(b));
    done("servo drive: pin 9, level, vector 0x29", put_low(b, DRIVE, LEVEL | DRIVE_VECTOR));
    done("pause key: pin 14, edge, vector 0x2e", put_low(b, PAUSE, EDGE | PAUSE_VECTOR));
    done("pause key: destination 3", put_high(b, PAUSE, 3u << 24));

    puts("-- the drive asks, is delivered, and waits for its end of interrupt");
    done("wire 9 high", nataqvoju_wire(b, DRIVE, 1));
    value("entry 9", get_low(b, DRIVE));
    delivery("delivery step", nataqvoju_deliver(b));
    value("entry 9", get_low(b, DRIVE));
    delivery("delivery step", nataqvoju_deliver(b));

    puts("-- meanwhile the pause key is pressed and let go");
    done("wire 14 high", nataqvoju_wire(b, PAUSE, 1));
    done("wire 14 low", nataqvoju_wire(b, PAUSE, 0));
    value("entry 14", get_low(b, PAUSE));
    delivery("delivery step", nataqvoju_deliver(b));
    value("entry 14", get_low(b, PAUSE));
    delivery("delivery step", nataqvoju_deliver(b));
    done("end of interrupt 0x2e", nataqvoju_end(b, PAUSE_VECTOR));
    value("entry 9", get_low(b, DRIVE));

    puts("-- the drive's end of interrupt: its wire is still high, so it comes again");
    done("end of interrupt 0x29", nataqvoju_end(b, DRIVE_VECTOR));
    delivery("delivery step", nataqvoju_deliver(b));
    done("wire 9 low", nataqvoju_wire(b, DRIVE, 0));
    done("end of interrupt 0x29", nataqvoju_end(b, DRIVE_VECTOR));
    delivery("delivery step", nataqvoju_deliver(b));
    value("entry 9", get_low(b, DRIVE));
}

static void refusals(NataqvojuBoard *b) {
    NataqvojuBoard saved = *b;
    puts("-- refusals");
    value("read of window 2", nataqvoju_read(b, 2, 4, 0));
    value("read of the controller, width 4, offset 0x04", nataqvoju_read(b, NATAQVOJU_CONTROLLER, 4, 0x04));
    value("read of the timers, width 8, offset 0x400", nataqvoju_read(b, NATAQVOJU_TIMERS, 8, 0x400));
    value("read of the controller, width 8, offset 0x04", nataqvoju_read(b, NATAQVOJU_CONTROLLER, 8, 0x04));
    value("read of the timers, width 2, offset 0x100", nataqvoju_read(b, NATAQVOJU_TIMERS, 2, 0x100));
    value("read of the timers, width 8, offset 0x104", nataqvoju_read(b, NATAQVOJU_TIMERS, 8, 0x104));
    value("read of the timers, width 4, offset 0x102", nataqvoju_read(b, NATAQVOJU_TIMERS, 4, 0x102));
    value("read of the timers, width 4, offset 0x404", nataqvoju_read(b, NATAQVOJU_TIMERS, 4, 0x404));
    done("wire 24 high", nataqvoju_wire(b, 24, 1));
    done("wire 4000000000 to level 7", nataqvoju_wire(b, 4000000000u, 7));
    done("wire 0 to level 2", nataqvoju_wire(b, 0, 2));
    done("write of 4294967296 to the controller", nataqvoju_write(b, NATAQVOJU_CONTROLLER, 4, NATAQVOJU_DATA, UINT64_C(4294967296)));
    done("write of 4294967296 to half a timer register",
         nataqvoju_write(b, NATAQVOJU_TIMERS, 4, 0x10C, UINT64_C(4294967296)));
    same("the board", b, &saved);
}

static void not_a_board(void) {
    NataqvojuBoard b, filled, fresh;
    puts("-- memory that is not a board: 304 bytes of 0xff");
    memset(&filled, 0xFF, sizeof filled);
    b = filled;
    value("read", nataqvoju_read(&b, NATAQVOJU_CONTROLLER, 4, NATAQVOJU_INDEX));
    done("write", nataqvoju_write(&b, NATAQVOJU_CONTROLLER, 4, NATAQVOJU_INDEX, 0));
    done("wire", nataqvoju_wire(&b, 0, 1));
    done("end of interrupt", nataqvoju_end(&b, 0x29));
    fired("advance", nataqvoju_advance(&b, 1));
    delivery("delivery step", nataqvoju_deliver(&b));
    same("the memory", &b, &filled);
    done("reset", nataqvoju_reset(&b));
    nataqvoju_reset(&fresh);
    same("the memory, and a board fresh from reset", &b, &fresh);
}

static void damaged(const NataqvojuBoard *b) {
    NataqvojuBoard copy;
    puts("-- a copy of the board, damaged in one byte");
    memcpy(&copy, b, sizeof copy);
    copy.outside[3] = 2;
    delivery("delivery step", nataqvoju_deliver(&copy));
    copy.outside[3] = 0;
    puts("-- and mended");
    delivery("delivery step", nataqvoju_deliver(&copy));
    same("the copy, and the board", &copy, b);
}

static void full_advance(NataqvojuBoard *b) {
    unsigned m;
    puts("-- three timers of period 1 on pins 20, 21, 22, the last one masked");
    done("pin 20, edge, vector 0x40", put_low(b, 20, EDGE | 0x40));
    done("pin 21, edge, vector 0x41, logical", put_low(b, 21, EDGE | LOGICAL | 0x41));
    for (m = 0; m < 3; m++)
        done("a timer", put_timer(b, m, (uint64_t)(20 + m) << ROUTE_AT | SET_COMPARATOR | PERIODIC | INTERRUPT, 1));
    done("enable", nataqvoju_write(b, NATAQVOJU_TIMERS, 8, NATAQVOJU_CONFIGURATION, 1));
    fired("advance by 0", nataqvoju_advance(b, 0));
    fired("advance by 4294967295", nataqvoju_advance(b, UINT32_C(4294967295)));
    value("counter", nataqvoju_read(b, NATAQVOJU_TIMERS, 8, NATAQVOJU_COUNTER));
    value("comparator 2", nataqvoju_read(b, NATAQVOJU_TIMERS, 8, NATAQVOJU_TIMER + 2 * NATAQVOJU_TIMER_STEP + NATAQVOJU_COMPARATOR));
    delivery("delivery step", nataqvoju_deliver(b));
    delivery("delivery step", nataqvoju_deliver(b));
    delivery("delivery step", nataqvoju_deliver(b));
    puts("-- nothing due");
    for (m = 0; m < 3; m++) done("a timer", put_timer(b, m, 0, UINT64_MAX));
    fired("advance by 4294967295", nataqvoju_advance(b, UINT32_C(4294967295)));
    value("counter", nataqvoju_read(b, NATAQVOJU_TIMERS, 8, NATAQVOJU_COUNTER));
}

/* As a build does that reads and writes the timers four bytes at a time: 32-bit mode, and the low half first. */
static void in_halves(NataqvojuBoard *b) {
    unsigned comparator = NATAQVOJU_TIMER + NATAQVOJU_COMPARATOR;
    uint64_t configuration = 20u << ROUTE_AT | NARROW | SET_COMPARATOR | PERIODIC | INTERRUPT;
    puts("-- timer 0 in halves: 32-bit mode, period 2, on pin 20");
    done("configuration, low half", nataqvoju_write(b, NATAQVOJU_TIMERS, 4, NATAQVOJU_TIMER, configuration));
    done("comparator, low half", nataqvoju_write(b, NATAQVOJU_TIMERS, 4, comparator, 2));
    done("comparator, high half", nataqvoju_write(b, NATAQVOJU_TIMERS, 4, comparator + NATAQVOJU_HIGH_HALF, 0));
    fired("advance by 8", nataqvoju_advance(b, 8));
    value("comparator, low half", nataqvoju_read(b, NATAQVOJU_TIMERS, 4, comparator));
    value("counter, low half", nataqvoju_read(b, NATAQVOJU_TIMERS, 4, NATAQVOJU_COUNTER));
    value("counter, high half", nataqvoju_read(b, NATAQVOJU_TIMERS, 4, NATAQVOJU_COUNTER + NATAQVOJU_HIGH_HALF));
    delivery("delivery step", nataqvoju_deliver(b));
}

int main(void) {
    NataqvojuBoard board;
    pause_key(&board);
    refusals(&board);
    not_a_board();
    damaged(&board);
    full_advance(&board);
    in_halves(&board);
    return 0;
}
