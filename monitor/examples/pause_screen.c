/* pause_screen.c: a monitor in C that shows whether the machine is paused. It lends a mill, which is a board with its
 * pause screen. Its lines, its motion program and its operator are made up: the steps of `serve`, one after the other.
 * What it must print stands in pause_screen.out, worked out by hand. It is compiled in any folder, by
 *     gcc -O2 -I FOLDER_OF_NATAQVOJU_H pause_screen.c FOLDER_OF_THE_LIBRARIES/libnataqvoju_mill.a -o pause_screen */
#include <inttypes.h>
#include <stdio.h>
#include <string.h>

#include "nataqvoju.h"

enum { DRIVE = 9, PAUSE = 14 };          /* the pins of the servo drive and of the pause key */
enum { DRIVE_VECTOR = 0x29, PAUSE_VECTOR = 0x2E, OTHER_VECTOR = 0x3E };
enum { EDGE = 0x0000, LEVEL = 0x8000 };

/* ---- what is shown ---- */

static void show(unsigned word) {
    static const char *const words[] = {"running", "asked", "taken", "paused"};
    printf("                                        screen: %s\n", words[word]);
}

static void send(NataqvojuNumbers n) { printf("  to the processor: pin %u, vector 0x%02x\n", n.pin, n.vector); }

/* one line for a call; always 1 */
static int call(const char *what, NataqvojuNumbers n) {
    if (n.number == NATAQVOJU_DONE)
        printf("%s: ok\n", what);
    else
        printf("%s: refused %" PRIu32 "\n", what, n.number);
    return 1;
}

/* ---- what comes from outside ---- */

static NataqvojuNumbers put_low(NataqvojuMill *mill, unsigned pin, uint32_t word) {
    unsigned index = NATAQVOJU_ENTRY + 2 * pin;
    NataqvojuNumbers n = nataqvoju_mill_write(mill, NATAQVOJU_CONTROLLER, 4, NATAQVOJU_INDEX, index);
    return n.number ? n : nataqvoju_mill_write(mill, NATAQVOJU_CONTROLLER, 4, NATAQVOJU_DATA, word);
}

/* A reset forgets the pause key, so the monitor tells it again. */
static int reset(NataqvojuMill *mill) {
    call("reset", nataqvoju_mill_reset(mill));
    printf("told: %u\n", mill->screen.told);
    return call("tell 14", nataqvoju_mill_tell(mill, PAUSE));
}

/* The next calls that come from outside, or 0 when the story is over. */
static int serve(NataqvojuMill *mill) {
    static unsigned step;
    switch (step++) {
    case 0:
        puts("-- the motion program sets up its entries");
        call("pin 9, level, vector 0x29", put_low(mill, DRIVE, LEVEL | DRIVE_VECTOR));
        return call("pin 14, edge, vector 0x2e", put_low(mill, PAUSE, EDGE | PAUSE_VECTOR));
    case 1:
        puts("-- the pause key is pressed, and the drive asks, before anything is delivered");
        call("wire 14 high", nataqvoju_mill_wire(mill, PAUSE, 1));
        return call("wire 9 high", nataqvoju_mill_wire(mill, DRIVE, 1));
    case 2:
        puts("-- both are with the processor; it ends the drive's interrupt first");
        call("wire 9 low", nataqvoju_mill_wire(mill, DRIVE, 0));
        return call("end of interrupt 0x29", nataqvoju_mill_end(mill, DRIVE_VECTOR));
    case 3:
        puts("-- it moves the key to vector 0x3e: what counts is the vector that was delivered");
        call("pin 14, edge, vector 0x3e", put_low(mill, PAUSE, EDGE | OTHER_VECTOR));
        return call("end of interrupt 0x3e", nataqvoju_mill_end(mill, OTHER_VECTOR));
    case 4:
        return call("end of interrupt 0x2e", nataqvoju_mill_end(mill, PAUSE_VECTOR));
    case 5:
        puts("-- pressed again while paused, and served");
        call("wire 14 low", nataqvoju_mill_wire(mill, PAUSE, 0));
        return call("wire 14 high", nataqvoju_mill_wire(mill, PAUSE, 1));
    case 6:
        return call("end of interrupt 0x3e", nataqvoju_mill_end(mill, OTHER_VECTOR));
    case 7:
        puts("-- the work goes on; a second resume changes nothing");
        return call("resume", nataqvoju_mill_resume(mill));
    case 8:
        return call("resume", nataqvoju_mill_resume(mill));
    case 9:
        puts("-- refused, and as it was");
        call("tell 24", nataqvoju_mill_tell(mill, 24));
        return call("tell 9", nataqvoju_mill_tell(mill, DRIVE));
    case 10:
        puts("-- a reset, with the key still down");
        return reset(mill);
    default:
        return 0;
    }
}

/* ---- the monitor's loop ---- */

static void run(NataqvojuMill *mill, uint64_t pause) {
    NataqvojuNumbers n;
    unsigned word = NATAQVOJU_PAUSED + 1; /* no word yet */
    nataqvoju_mill_reset(mill);
    nataqvoju_mill_tell(mill, pause);
    do {
        if (mill->screen.word != word) show(word = mill->screen.word);
        n = nataqvoju_mill_deliver(mill);
        if (n.delivered) send(n);
    } while (n.delivered || serve(mill));
}

/* ---- bytes ---- */

static void bytes(const NataqvojuMill *mill) {
    NataqvojuMill copy;
    uint8_t saved[sizeof copy];
    puts("-- saved, damaged and mended");
    memcpy(saved, mill, sizeof saved);
    printf("bytes: %zu\n", sizeof saved);
    memcpy(&copy, saved, sizeof copy);
    copy.screen.told = 0; /* with a pin kept */
    call("resume", nataqvoju_mill_resume(&copy));
    copy.screen.told = 1;
    call("resume", nataqvoju_mill_resume(&copy));
    printf("the copy, and the mill: %s\n", memcmp(&copy, mill, sizeof copy) == 0 ? "same bytes" : "OTHER BYTES");
}

int main(void) {
    NataqvojuMill mill;
    run(&mill, PAUSE);
    bytes(&mill);
    return 0;
}
