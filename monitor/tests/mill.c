/* mill.c: the mill's function over kinds, raw and by the names that the header gives them, and its reset with settings.
 * Each call and each word of the screen, the refusals, every clause of a well-formed screen broken alone, numbers that
 * are wider than a call takes, numbers that a kind ignores, resets with a record in each word and on memory that is no
 * mill, the answers beside the board's own. The memory around the lent mill is watched.
 * Last line: N passed, M failed. */
#include <stdio.h>
#include <string.h>

#include "nataqvoju.h"

static unsigned long passed, failed;
static int sound = 1;

static void must(int good, const char *what, unsigned long long at) {
    if (good) return;
    sound = 0;
    printf("FAILED: %s, %llu\n", what, at);
}

/* all that was tried since the last one is one check */
static void counted(void) {
    if (sound) passed++; else failed++;
    sound = 1;
}

static void check(int good, const char *what) {
    must(good, what, 0);
    counted();
}

/* ---- the lent mill, and the memory around it ---- */

static struct {
    uint8_t before[64];
    NataqvojuMill mill;
    uint8_t after[64];
} lent, kept;

#define MILL (&lent.mill)

static void lend(const NataqvojuMill *mill) {
    memset(&lent, 0x5A, sizeof lent);
    lent.mill = *mill;
    memcpy(&kept, &lent, sizeof lent);
}

static int unchanged(void) { return memcmp(&lent, &kept, sizeof lent) == 0; }

static int guarded(void) {
    return memcmp(lent.before, kept.before, sizeof lent.before) == 0 &&
           memcmp(lent.after, kept.after, sizeof lent.after) == 0;
}

static NataqvojuNumbers bare(uint32_t number) {
    NataqvojuNumbers n;
    memset(&n, 0, sizeof n);
    n.number = number;
    return n;
}

static int same(NataqvojuNumbers n, NataqvojuNumbers want) { return memcmp(&n, &want, sizeof n) == 0; }
static int is(NataqvojuNumbers n, uint32_t number) { return same(n, bare(number)); }
static int done(NataqvojuNumbers n) { return is(n, 0); }
static int refused(NataqvojuNumbers n, uint32_t number) { return is(n, number) && unchanged(); }

static int shows(unsigned told, unsigned pin, unsigned word, unsigned vector) {
    const NataqvojuScreen *s = &MILL->screen;
    return guarded() && s->told == told && s->pin == pin && s->word == word && s->vector == vector;
}

/* ---- the mill that is used: pins 9 level and 14 edge, both unmasked, and 14 told ---- */

enum { DRIVE = 9, PAUSE = 14, TIMER_PIN = 20 };
enum { DRIVE_VECTOR = 0x29, PAUSE_VECTOR = 0x2E, OTHER_VECTOR = 0x3E };
enum { EDGE = 0x00000, LEVEL = 0x08000, MASKED = 0x10000 };

static int entry(unsigned pin, uint32_t low) {
    return done(nataqvoju_mill_write(MILL, NATAQVOJU_CONTROLLER, 4, NATAQVOJU_INDEX, NATAQVOJU_ENTRY + 2 * pin)) &&
           done(nataqvoju_mill_write(MILL, NATAQVOJU_CONTROLLER, 4, NATAQVOJU_DATA, low));
}

/* a delivery step that gives this pin */
static int delivers(uint8_t pin, uint8_t vector) {
    NataqvojuNumbers want = bare(0);
    want.delivered = 1;
    want.pin = pin;
    want.vector = vector;
    return same(nataqvoju_mill_deliver(MILL), want);
}

static int ends(uint8_t vector) { return done(nataqvoju_mill_end(MILL, vector)); }

static void start(void) {
    NataqvojuMill any;
    memset(&any, 0xEE, sizeof any);
    lend(&any);
    must(done(nataqvoju_mill_reset(MILL)) && shows(0, 0, 0, 0), "a reset of any memory", 0);
    must(entry(DRIVE, LEVEL | DRIVE_VECTOR) && entry(PAUSE, EDGE | PAUSE_VECTOR), "the entries", 0);
    must(done(nataqvoju_mill_tell(MILL, PAUSE)) && shows(1, PAUSE, NATAQVOJU_RUNNING, 0), "the telling", 0);
}

static int press(void) {
    return done(nataqvoju_mill_wire(MILL, PAUSE, 0)) && done(nataqvoju_mill_wire(MILL, PAUSE, 1));
}

/* from the start to a word, with no edge held but in asked */
static void go_to(unsigned word) {
    start();
    if (word >= NATAQVOJU_ASKED) must(press() && shows(1, PAUSE, NATAQVOJU_ASKED, 0), "asked", word);
    if (word >= NATAQVOJU_TAKEN)
        must(delivers(PAUSE, PAUSE_VECTOR) && shows(1, PAUSE, NATAQVOJU_TAKEN, PAUSE_VECTOR), "taken", word);
    if (word == NATAQVOJU_PAUSED)
        must(ends(PAUSE_VECTOR) && shows(1, PAUSE, NATAQVOJU_PAUSED, PAUSE_VECTOR), "paused", word);
}

/* ---- the words ---- */

static void of_words(void) {
    go_to(NATAQVOJU_PAUSED);
    counted();
    start();
    check(done(nataqvoju_mill_deliver(MILL)) && ends(PAUSE_VECTOR) && shows(1, PAUSE, NATAQVOJU_RUNNING, 0),
          "no press, and an end with the key's vector: running");
    /* another pin, which is lower, is delivered first and waits for its end */
    go_to(NATAQVOJU_ASKED);
    check(done(nataqvoju_mill_wire(MILL, DRIVE, 1)) && delivers(DRIVE, DRIVE_VECTOR) && ends(PAUSE_VECTOR) &&
              shows(1, PAUSE, NATAQVOJU_ASKED, 0), "another pin's delivery, and an end before the key's: asked");
    check(delivers(PAUSE, PAUSE_VECTOR) && shows(1, PAUSE, NATAQVOJU_TAKEN, PAUSE_VECTOR), "the key's delivery: taken");
    check(ends(DRIVE_VECTOR) && shows(1, PAUSE, NATAQVOJU_TAKEN, PAUSE_VECTOR), "an end with another vector: taken");
    check(entry(PAUSE, EDGE | OTHER_VECTOR) && ends(OTHER_VECTOR) && shows(1, PAUSE, NATAQVOJU_TAKEN, PAUSE_VECTOR),
          "an end with the entry's new vector: taken");
    check(press() && done(nataqvoju_mill_wire(MILL, DRIVE, 0)) && delivers(PAUSE, OTHER_VECTOR) &&
              shows(1, PAUSE, NATAQVOJU_TAKEN, PAUSE_VECTOR), "a second delivery leaves the first one's vector");
    check(ends(PAUSE_VECTOR) && shows(1, PAUSE, NATAQVOJU_PAUSED, PAUSE_VECTOR), "its end: paused");
    check(press() && shows(1, PAUSE, NATAQVOJU_PAUSED, PAUSE_VECTOR), "a press: paused");
    check(done(nataqvoju_mill_resume(MILL)) && shows(1, PAUSE, NATAQVOJU_ASKED, 0), "a resume with an edge: asked");
    /* an edge that a write takes away, and a level delivery */
    check(entry(PAUSE, LEVEL | PAUSE_VECTOR) && shows(1, PAUSE, NATAQVOJU_ASKED, 0), "the edge is dropped: asked");
    check(delivers(PAUSE, PAUSE_VECTOR) && shows(1, PAUSE, NATAQVOJU_TAKEN, PAUSE_VECTOR), "a level delivery: taken");
    check(entry(PAUSE, EDGE | MASKED | PAUSE_VECTOR) && ends(PAUSE_VECTOR) &&
              shows(1, PAUSE, NATAQVOJU_PAUSED, PAUSE_VECTOR), "an end while the entry is an edge entry: paused");
    check(done(nataqvoju_mill_resume(MILL)) && shows(1, PAUSE, NATAQVOJU_RUNNING, 0), "a resume with no edge: running");
    check(press() && shows(1, PAUSE, NATAQVOJU_RUNNING, 0), "a press while masked holds no edge: running");
    /* an edge that a timer makes */
    start();
    must(entry(TIMER_PIN, EDGE | 0x40) && done(nataqvoju_mill_tell(MILL, TIMER_PIN)), "the timer's pin", 0);
    must(done(nataqvoju_mill_write(MILL, NATAQVOJU_TIMERS, 8, NATAQVOJU_TIMER, TIMER_PIN << 9 | 4)) &&
             done(nataqvoju_mill_write(MILL, NATAQVOJU_TIMERS, 8, NATAQVOJU_TIMER + NATAQVOJU_COMPARATOR, 3)) &&
             done(nataqvoju_mill_write(MILL, NATAQVOJU_TIMERS, 8, NATAQVOJU_CONFIGURATION, 1)), "the timer", 0);
    check(done(nataqvoju_mill_advance(MILL, 2)) && shows(1, TIMER_PIN, NATAQVOJU_RUNNING, 0), "no firing: running");
    check(nataqvoju_mill_advance(MILL, 1).fired[0] == 1 && shows(1, TIMER_PIN, NATAQVOJU_ASKED, 0), "a firing: asked");
}

/* ---- telling, resuming, a reset, in each word ---- */

static void of_screen_calls(void) {
    unsigned word;
    for (word = 0; word < 4; word++) {
        unsigned vector = word >= NATAQVOJU_TAKEN ? PAUSE_VECTOR : 0;
        go_to(word);
        memcpy(&kept, &lent, sizeof lent);
        must(refused(nataqvoju_mill_tell(MILL, 24), 3), "tell 24", word);
        must(refused(nataqvoju_mill_tell(MILL, 256 + PAUSE), 3), "tell 270", word);
        must(refused(nataqvoju_mill_tell(MILL, (UINT64_C(1) << 32) + PAUSE), 3), "tell 2^32 + 14", word);
        must(refused(nataqvoju_mill_tell(MILL, UINT64_MAX), 3), "tell 2^64 - 1", word);
        must(refused(nataqvoju_mill_tell(MILL, DRIVE), 14), "tell a level pin", word);
        counted();
        must(done(nataqvoju_mill_resume(MILL)), "a resume", word);
        must(word == NATAQVOJU_PAUSED ? shows(1, PAUSE, NATAQVOJU_RUNNING, 0) : shows(1, PAUSE, word, vector),
             "has an effect in paused alone", word);
        counted();
        /* the pin again, and another; entry 0 is masked */
        go_to(word);
        must(done(nataqvoju_mill_tell(MILL, PAUSE)), "the pin again", word);
        must(shows(1, PAUSE, word == NATAQVOJU_ASKED ? NATAQVOJU_ASKED : NATAQVOJU_RUNNING, 0), "by its edge", word);
        go_to(word);
        must(done(nataqvoju_mill_tell(MILL, 0)) && shows(1, 0, NATAQVOJU_RUNNING, 0), "pin 0, masked", word);
        must(done(nataqvoju_mill_tell(MILL, 23)) && shows(1, 23, NATAQVOJU_RUNNING, 0), "pin 23", word);
        counted();
        go_to(word);
        must(done(nataqvoju_mill_reset(MILL)) && shows(0, 0, 0, 0), "a reset", word);
        must(done(nataqvoju_mill_resume(MILL)) && shows(0, 0, 0, 0), "a resume with no pin", word);
        must(press() && shows(0, 0, 0, 0), "a press with no pin", word);
        counted();
    }
    /* an edge that is held and then masked counts at the telling */
    start();
    must(press() && entry(PAUSE, EDGE | MASKED | PAUSE_VECTOR), "pressed, then masked", 0);
    check(done(nataqvoju_mill_tell(MILL, PAUSE)) && shows(1, PAUSE, NATAQVOJU_ASKED, 0), "a masked edge: asked");
    must(entry(PAUSE, LEVEL | MASKED), "level and masked", 0);
    memcpy(&kept, &lent, sizeof lent);
    check(refused(nataqvoju_mill_tell(MILL, PAUSE), 14), "a masked level entry: 14");
}

/* ---- a reset with settings ---- */

/* vendor 0x1022, 10,000,000 femtoseconds, pins 2, 8 and 23, id 15; with one byte of it changed */
static NataqvojuNumbers reset_with(unsigned at, uint8_t byte, size_t length) {
    uint8_t record[64] = {0x5A, 0xC3, 1, 0x22, 0x10, 0x80, 0x96, 0x98, 0, 4, 0, 0, 0, 0, 1, 0, 0, 0, 0, 0x80, 0, 15};
    uint8_t same_record[64];
    NataqvojuNumbers n;
    record[at] = byte;
    memcpy(same_record, record, sizeof record);
    n = nataqvoju_mill_reset_settings(MILL, record, length);
    must(memcmp(same_record, record, sizeof record) == 0, "the record is only read", at);
    return n;
}

/* whatever the lent mill is: refused for the record alone, in this order, and then it is as it was */
static int refuses_records(void) {
    int ok = 1;
    size_t length;
    memcpy(&kept, &lent, sizeof lent);
    for (length = 0; length < 64; length++)
        if (length != 22) ok &= refused(reset_with(0, 0x7E, length), 8) && refused(reset_with(21, 15, length), 8);
    ok &= refused(reset_with(0, 0xC3, 22), 6) && refused(reset_with(1, 0x5A, 22), 6);
    ok &= refused(reset_with(2, 0, 22), 9) && refused(reset_with(2, 2, 22), 9);
    ok &= refused(reset_with(8, 6, 22), 10);                                        /* the period */
    ok &= refused(reset_with(9, 0, 22), 10) && refused(reset_with(12, 1, 22), 10);  /* the masks */
    ok &= refused(reset_with(14, 0, 22), 10) && refused(reset_with(16, 1, 22), 10);
    ok &= refused(reset_with(19, 0, 22), 10) && refused(reset_with(20, 1, 22), 10);
    return ok & refused(reset_with(21, 16, 22), 10);
}

/* done: no pin is told, and the board is the one that the board's own call makes */
static int takes_record(void) {
    static const uint8_t record[22] = {0x5A, 0xC3, 1, 0x22, 0x10, 0x80, 0x96, 0x98, 0, 4, 0,
                                       0,    0,    0, 1,    0,    0,    0,    0,    0x80, 0, 15};
    NataqvojuMill want;
    memset(&want, 0, sizeof want);
    if (!done(nataqvoju_reset_settings(&want.board, record, 22))) return 0;
    return done(reset_with(21, 15, 22)) && guarded() && memcmp(MILL, &want, sizeof want) == 0;
}

static void of_settings(void) {
    NataqvojuMill any, fresh;
    unsigned word;
    for (word = 0; word < 4; word++) {
        unsigned vector = word >= NATAQVOJU_TAKEN ? PAUSE_VECTOR : 0;
        go_to(word);
        must(refuses_records() && shows(1, PAUSE, word, vector), "a refused record", word);
        must(takes_record() && shows(0, 0, 0, 0), "a record", word);
        must(nataqvoju_mill_read(MILL, 1, 8, 0).value == UINT64_C(0x0098968010222201), "the capabilities", word);
        must(nataqvoju_mill_read(MILL, 1, 8, 0x120).value == UINT64_C(0x0000010000001030), "a configuration", word);
        must(nataqvoju_mill_read(MILL, 0, 4, 16).value == 0x0F000000, "the id", word);
        /* the key is told again, and a press asks; a reset without settings has document 01's */
        must(done(nataqvoju_mill_tell(MILL, PAUSE)) && entry(PAUSE, EDGE) && press(), "told and pressed", word);
        must(shows(1, PAUSE, NATAQVOJU_ASKED, 0), "asked", word);
        memset(&fresh, 0, sizeof fresh);
        nataqvoju_reset(&fresh.board);
        must(done(nataqvoju_mill_reset(MILL)) && guarded() && memcmp(MILL, &fresh, sizeof fresh) == 0, "a reset", word);
        counted();
    }
    memset(&any, 0xEE, sizeof any);
    lend(&any);
    check(refuses_records() && takes_record(), "memory that is no mill");
    memset(&any, 0, sizeof any);
    lend(&any);
    check(refused(nataqvoju_mill_resume(MILL), 5) && refuses_records() && takes_record(), "zeros are no mill");
}

/* ---- the raw entry: each kind by its number, with other numbers in the places that it ignores ---- */

#define JUNK UINT64_C(0xA5A5A5A5DEADBEEF)

/* the named call on `here`, the raw one on a copy of what it was: the same numbers and the same bytes */
#define RAW(kind, named, raw)                                                                    \
    do {                                                                                         \
        NataqvojuMill there = *MILL;                                                             \
        NataqvojuNumbers n = named, m = raw;                                                     \
        must(same(n, m) && memcmp(&there, MILL, sizeof there) == 0 && guarded(), "raw", kind);   \
    } while (0)

static void of_kinds(void) {
    unsigned word;
    for (word = 0; word < 4; word++) {
        go_to(word);
        must(nataqvoju_mill_read(MILL, 1, 8, 0).value == UINT64_C(0x05F5E10080862201), "the capabilities", word);
        RAW(1, nataqvoju_mill_read(MILL, 1, 8, 0), nataqvoju_mill(&there, 1, 1, 8, 0, JUNK));
        RAW(1, nataqvoju_mill_read(MILL, 1, 2, 0), nataqvoju_mill(&there, 1, 1, 2, 0, JUNK));
        RAW(2, nataqvoju_mill_write(MILL, 0, 4, 0, 0x2D), nataqvoju_mill(&there, 2, 0, 4, 0, 0x2D));
        RAW(2, nataqvoju_mill_write(MILL, 0, 4, 0, UINT64_MAX), nataqvoju_mill(&there, 2, 0, 4, 0, UINT64_MAX));
        RAW(3, nataqvoju_mill_wire(MILL, DRIVE, 1), nataqvoju_mill(&there, 3, DRIVE, 1, JUNK, JUNK));
        RAW(6, nataqvoju_mill_deliver(MILL), nataqvoju_mill(&there, 6, JUNK, JUNK, JUNK, JUNK));
        RAW(4, nataqvoju_mill_end(MILL, 0x29), nataqvoju_mill(&there, 4, 0x29, JUNK, JUNK, JUNK));
        RAW(4, nataqvoju_mill_end(MILL, PAUSE_VECTOR), nataqvoju_mill(&there, 4, PAUSE_VECTOR, JUNK, JUNK, JUNK));
        RAW(2, nataqvoju_mill_write(MILL, 1, 8, 0x10, 1), nataqvoju_mill(&there, 2, 1, 8, 0x10, 1));
        RAW(5, nataqvoju_mill_advance(MILL, UINT32_MAX), nataqvoju_mill(&there, 5, UINT32_MAX, JUNK, JUNK, JUNK));
        RAW(9, nataqvoju_mill_resume(MILL), nataqvoju_mill(&there, 9, JUNK, JUNK, JUNK, JUNK));
        RAW(8, nataqvoju_mill_tell(MILL, 3), nataqvoju_mill(&there, 8, 3, JUNK, JUNK, JUNK));
        RAW(8, nataqvoju_mill_tell(MILL, JUNK), nataqvoju_mill(&there, 8, JUNK, JUNK, JUNK, JUNK));
        RAW(7, nataqvoju_mill_reset(MILL), nataqvoju_mill(&there, 7, JUNK, JUNK, JUNK, JUNK));
        must(shows(0, 0, 0, 0), "the reset was the last", word);
        counted();
    }
    /* a vector is the low eight bits of its number, ticks the low 32 */
    go_to(NATAQVOJU_TAKEN);
    check(done(nataqvoju_mill(MILL, NATAQVOJU_MILL_END, 0x12F, 0, 0, 0)) &&
              shows(1, PAUSE, NATAQVOJU_TAKEN, PAUSE_VECTOR), "end 0x12f is end 0x2f");
    check(done(nataqvoju_mill(MILL, NATAQVOJU_MILL_END, UINT64_C(0xFFFFFFFFFFFFFF2E), 0, 0, 0)) &&
              shows(1, PAUSE, NATAQVOJU_PAUSED, PAUSE_VECTOR), "end 0xffffffffffffff2e is end 0x2e");
    must(done(nataqvoju_mill_write(MILL, NATAQVOJU_TIMERS, 8, NATAQVOJU_CONFIGURATION, 1)), "enabled", 0);
    must(done(nataqvoju_mill(MILL, NATAQVOJU_MILL_ADVANCE, UINT64_C(0x100000005), 0, 0, 0)), "2^32 + 5 ticks", 0);
    must(done(nataqvoju_mill(MILL, NATAQVOJU_MILL_ADVANCE, UINT64_C(0x700000000), 0, 0, 0)), "7 times 2^32 ticks", 0);
    check(nataqvoju_mill_read(MILL, NATAQVOJU_TIMERS, 8, NATAQVOJU_COUNTER).value == 5, "are five ticks");
}

static const uint64_t unknown[] = {0, 10, 11, 255, 256 + 1, 256 + 7, UINT64_C(0x100000001), UINT64_MAX};
enum { UNKNOWN = sizeof unknown / sizeof *unknown };

static void of_unknown_kinds(void) {
    unsigned word, k;
    for (word = 0; word < 4; word++) {
        go_to(word);
        memcpy(&kept, &lent, sizeof lent);
        for (k = 0; k < UNKNOWN; k++)
            must(refused(nataqvoju_mill(MILL, unknown[k], 24, 2, 0, 0), 7), "kind", unknown[k]);
        counted();
    }
}

/* ---- mills that are not well formed ---- */

static int refuses_all(const NataqvojuMill *mill) {
    NataqvojuMill fresh;
    int ok = 1;
    unsigned k;
    lend(mill);
    ok &= refused(nataqvoju_mill_read(MILL, NATAQVOJU_CONTROLLER, 4, NATAQVOJU_DATA), 5);
    ok &= refused(nataqvoju_mill_read(MILL, 7, 3, 1), 5);
    ok &= refused(nataqvoju_mill_write(MILL, NATAQVOJU_CONTROLLER, 4, NATAQVOJU_INDEX, 1), 5);
    ok &= refused(nataqvoju_mill_write(MILL, NATAQVOJU_TIMERS, 4, 0x10C, UINT64_MAX), 5);
    ok &= refused(nataqvoju_mill_wire(MILL, PAUSE, 1), 5);
    ok &= refused(nataqvoju_mill_wire(MILL, 24, 2), 5);
    ok &= refused(nataqvoju_mill_end(MILL, PAUSE_VECTOR), 5);
    ok &= refused(nataqvoju_mill_advance(MILL, 0), 5);
    ok &= refused(nataqvoju_mill_deliver(MILL), 5);
    ok &= refused(nataqvoju_mill_tell(MILL, PAUSE), 5);
    ok &= refused(nataqvoju_mill_tell(MILL, DRIVE), 5);
    ok &= refused(nataqvoju_mill_tell(MILL, 24), 5);
    ok &= refused(nataqvoju_mill_resume(MILL), 5);
    for (k = 0; k < UNKNOWN; k++) ok &= refused(nataqvoju_mill(MILL, unknown[k], 0, 0, 0, 0), 5);
    /* and a reset takes it */
    memset(&fresh, 0, sizeof fresh);
    nataqvoju_reset(&fresh.board);
    return ok & (done(nataqvoju_mill_reset(MILL)) && guarded() && memcmp(MILL, &fresh, sizeof fresh) == 0);
}

static int refuses_none(const NataqvojuMill *mill) {
    lend(mill);
    return nataqvoju_mill_read(MILL, NATAQVOJU_CONTROLLER, 4, NATAQVOJU_DATA).number == 0 && unchanged();
}

static NataqvojuMill good;

static NataqvojuMill with(unsigned told, unsigned pin, unsigned word, unsigned vector) {
    NataqvojuMill mill = good;
    mill.screen.told = (uint16_t)told;
    mill.screen.pin = (uint16_t)pin;
    mill.screen.word = (uint16_t)word;
    mill.screen.vector = (uint16_t)vector;
    return mill;
}

static void broken(const char *what, unsigned told, unsigned pin, unsigned word, unsigned vector) {
    NataqvojuMill mill = with(told, pin, word, vector);
    must(refuses_all(&mill), what, word);
}

static void fine(const char *what, unsigned told, unsigned pin, unsigned word, unsigned vector) {
    NataqvojuMill mill = with(told, pin, word, vector);
    must(refuses_none(&mill), what, word);
}

static void of_ill_formed(void) {
    unsigned k, word;
    start();
    good = *MILL;
    /* no pin told: all zeros, and nothing else */
    fine("untold", 0, 0, 0, 0);
    for (k = 1; k < 24; k++) broken("untold, a pin", 0, k, 0, 0);
    counted();
    for (k = 1; k < 4; k++) broken("untold, a word", 0, 0, k, 0);
    counted();
    for (k = 0; k < 16; k++) broken("untold, a vector", 0, 0, 0, 1u << k);
    counted();
    for (word = 0; word < 4; word++) {
        unsigned vector = word >= NATAQVOJU_TAKEN ? PAUSE_VECTOR : 0;
        for (k = 1; k < 16; k++) broken("told", 1u << k, PAUSE, word, vector);
        broken("told 3", 3, PAUSE, word, vector);
        counted();
        for (k = 0; k < 24; k++) fine("every pin", 1, k, word, vector);
        broken("pin 24", 1, 24, word, vector);
        for (k = 5; k < 16; k++) broken("a wide pin", 1, 1u << k, word, vector);
        broken("a pin and a high bit", 1, 0x8000 | PAUSE, word, vector);
        counted();
        if (word >= NATAQVOJU_TAKEN)
            for (k = 0; k < 256; k++) fine("every vector", 1, PAUSE, word, k);
        else
            for (k = 0; k < 8; k++) broken("a vector with no delivery", 1, PAUSE, word, 1u << k);
        for (k = 8; k < 16; k++) broken("a wide vector", 1, PAUSE, word, 1u << k);
        counted();
    }
    broken("word 4", 1, PAUSE, 4, 0);
    for (k = 2; k < 16; k++) broken("a wide word", 1, PAUSE, 1u << k | 1, 0);
    counted();
    /* running while the pin holds an edge; another pin may, and every other word may */
    start();
    must(press(), "pressed", 0);
    good = *MILL;
    broken("running, with an edge held", 1, PAUSE, NATAQVOJU_RUNNING, 0);
    for (k = 0; k < 24; k++)
        if (k != PAUSE) fine("running, another pin's edge", 1, k, NATAQVOJU_RUNNING, 0);
    fine("untold, an edge held", 0, 0, 0, 0);
    fine("asked, with an edge held", 1, PAUSE, NATAQVOJU_ASKED, 0);
    fine("taken, with an edge held", 1, PAUSE, NATAQVOJU_TAKEN, 0);
    fine("paused, with an edge held", 1, PAUSE, NATAQVOJU_PAUSED, 255);
    counted();
    /* a board that is none, below a screen that is one */
    for (word = 0; word < 4; word++) {
        go_to(word);
        good = *MILL;
        good.board.outside[3] = 2;
        must(refuses_all(&good), "the board's outside level", word);
        good.board.outside[3] = 0;
        good.board.timers.tick_period = 0;
        must(refuses_all(&good), "the board's tick period", word);
        good.board.timers.tick_period = 1;
        good.board.timers.masks[1] = 2;
        must(refuses_all(&good), "a route that isn't in its mask", word);
        good.board.timers.masks[1] = 1;
        good.board.controller.entries.held[DRIVE] = 1;
        must(refuses_all(&good), "an edge on a level pin", word);
        counted();
    }
}

/* ---- beside the board's own calls: the same answers, and the same board ---- */

static uint64_t seed = 0x9E3779B97F4A7C15u;

static uint64_t next(void) {
    seed ^= seed << 13;
    seed ^= seed >> 7;
    seed ^= seed << 17;
    return seed;
}

static int alike(NataqvojuMill *m, NataqvojuBoard *b) {
    uint64_t r = next(), x = next(), width = r >> 8 & 1 ? 8 : 4, offset = (r >> 16 & 127) * 4 / width * width;
    NataqvojuNumbers of_mill, of_board;
    switch (r % 9) {
    case 0: of_mill = nataqvoju_mill_read(m, 1, width, offset), of_board = nataqvoju_read(b, 1, width, offset); break;
    case 1: of_mill = nataqvoju_mill_read(m, 0, 4, 16), of_board = nataqvoju_read(b, 0, 4, 16); break;
    case 2: of_mill = nataqvoju_mill_write(m, 0, 4, 0, x & 63), of_board = nataqvoju_write(b, 0, 4, 0, x & 63); break;
    case 3:
        x &= 0x1A8FF;
        of_mill = nataqvoju_mill_write(m, 0, 4, 16, x), of_board = nataqvoju_write(b, 0, 4, 16, x);
        break;
    case 4:
        x = r >> 24 & 1 ? x >> (64 - 8 * width) : x & 0x3FFF;
        of_mill = nataqvoju_mill_write(m, 1, width, offset, x), of_board = nataqvoju_write(b, 1, width, offset, x);
        break;
    case 5:
        of_mill = nataqvoju_mill_wire(m, x % 25, r >> 32 & 1), of_board = nataqvoju_wire(b, x % 25, r >> 32 & 1);
        break;
    case 6: of_mill = nataqvoju_mill_end(m, (uint8_t)x), of_board = nataqvoju_end(b, (uint8_t)x); break;
    case 7:
        x = r >> 24 & 1 ? x : x & 31;
        of_mill = nataqvoju_mill_advance(m, (uint32_t)x), of_board = nataqvoju_advance(b, (uint32_t)x);
        break;
    default: of_mill = nataqvoju_mill_deliver(m), of_board = nataqvoju_deliver(b); break;
    }
    return same(of_mill, of_board) && memcmp(&m->board, b, sizeof *b) == 0 && of_mill.number != 5;
}

static void beside_the_board(void) {
    unsigned long words[4] = {0, 0, 0, 0};
    int s, i;
    for (s = 0; s < 100; s++) {
        NataqvojuMill mill;
        NataqvojuBoard board;
        nataqvoju_mill_reset(&mill);
        /* all entries unmasked, or the key would seldom hold an edge */
        for (i = 0; i < 24; i++) {
            nataqvoju_mill_write(&mill, NATAQVOJU_CONTROLLER, 4, NATAQVOJU_INDEX, NATAQVOJU_ENTRY + 2 * (unsigned)i);
            nataqvoju_mill_write(&mill, NATAQVOJU_CONTROLLER, 4, NATAQVOJU_DATA, 0x20 + (unsigned)i);
        }
        board = mill.board;
        for (i = 0; i < 500; i++) {
            uint64_t r = next();
            must(alike(&mill, &board), "the board's answer", (unsigned)i);
            /* the screen's own calls leave the board as it is; random ends seldom have the key's vector */
            if (r % 64 == 0) nataqvoju_mill_tell(&mill, r >> 8 & 31);
            if (r % 16 == 1) nataqvoju_mill_resume(&mill);
            if (mill.screen.word == NATAQVOJU_TAKEN && r % 4 == 3) {
                nataqvoju_mill_end(&mill, (uint8_t)mill.screen.vector);
                nataqvoju_end(&board, (uint8_t)mill.screen.vector);
            }
            words[mill.screen.word]++;
        }
    }
    counted();
    check(words[0] > 100 && words[1] > 100 && words[2] > 100 && words[3] > 100, "each word came");
}

int main(void) {
    of_words();
    of_screen_calls();
    of_settings();
    of_kinds();
    of_unknown_kinds();
    of_ill_formed();
    beside_the_board();
    printf("%lu passed, %lu failed\n", passed, failed);
    return failed != 0 || passed == 0;
}
