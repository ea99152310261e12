/* nataqvoju.h: the board, for a monitor that keeps it in its own memory.
 *
 * The board is an Intel 82093AA interrupt controller (24 pins), an HPET timer block (three timers) and the wires between
 * them. The monitor owns a NataqvojuBoard, lends it to a call by its address, and the call changes it where it lies.
 * There is no other state: nothing is allocated, nothing is kept between calls, no file, clock or lock is touched.
 *
 *     NataqvojuBoard board;
 *     nataqvoju_reset(&board);
 *     nataqvoju_write(&board, NATAQVOJU_CONTROLLER, 4, NATAQVOJU_INDEX, 0x10);
 *     nataqvoju_write(&board, NATAQVOJU_CONTROLLER, 4, NATAQVOJU_DATA, 0x20);
 *     nataqvoju_wire(&board, 0, 1);
 *     NataqvojuNumbers n = nataqvoju_deliver(&board);       n.delivered == 1, n.pin == 0, n.vector == 0x20
 *
 * What is promised (proved, for every argument and for every byte pattern of the 304 bytes):
 *   - the board after a call, and the numbers that come back, are exactly those of the board's own call by value;
 *   - a refused call leaves every byte of the board as it was, and gives value 0, counts 0 and no delivery;
 *   - memory that is not a well-formed board is answered with 5 by every call but a reset, which takes any memory;
 *   - every call turns a well-formed board into one, ends, and reads and writes no other memory of the caller's, but
 *     that a reset by a settings record reads the record.
 * What is measured and not proved: how long a call takes (docs/BENCHMARKS.md). No call walks ticks or firings one by one,
 * but for the plain engine's advance.
 * What is the caller's to see to:
 *   - `board` is not null, is aligned to 8 bytes and points to 304 bytes that may be read and written (by a read call:
 *     read);
 *   - nothing else writes those bytes during a call, and nothing else reads them but another read call: one caller at a time
 *     for each board (different boards are independent, and may be used by different threads at once). The caller's own lock,
 *     if it needs one, goes around the call;
 *   - these declarations, and the C compiler that reads them, follow the platform's C calling convention (x86-64 System V).
 *
 * Layout: no byte is padding, every field is an unsigned number, little-endian as the machine is. So a board is saved,
 * compared, sent and restored as 304 plain bytes. docs/MONITOR.md has the rest.
 *
 * The board's calls are in libnataqvoju.a. A monitor that shows whether the machine is paused lends a NataqvojuMill
 * instead, a board with its pause screen, to the functions of libnataqvoju_mill.a (below, "the mill"). What is said
 * above of a board holds of a mill and its 312 bytes too, but that a read of a mill has to be the only call on it.
 *
 * A test bench that wants a second opinion lends the same board to the plain engine, the one function of
 * libnataqvoju_plain.a, which walks every tick (below, "the plain engine").
 *
 * A program that gets what can be got from a damaged log calls the one function of libnataqvoju_salvage.a, which needs
 * no board (below, "salvage").
 */
#ifndef NATAQVOJU_H
#define NATAQVOJU_H

#include <stddef.h>
#include <stdint.h>

#ifdef __cplusplus
extern "C" {
#endif

/* ---- the state: 304 bytes, alignment 8 ---- */

/* One timer. Flags are 0 or 1. A level-type timer's line is active high: with its interrupt enabled and the block enabled,
 * it holds the wire of its pin high as long as its status is 1. */
typedef struct {
    uint64_t comparator;     /* below 2^32 in 32-bit mode */
    uint64_t period;         /* below 2^32 in 32-bit mode */
    uint16_t route;          /* the pin that it is routed to, one of its mask */
    uint8_t level_type;      /* bit 1 of its configuration: 1 level, 0 edge */
    uint8_t interrupt;       /* bit 2: interrupt enable */
    uint8_t periodic;        /* bit 3 */
    uint8_t set_comparator;  /* bit 6: 0 unless it is periodic */
    uint8_t narrow;          /* bit 8: 32-bit mode */
    uint8_t status;          /* its bit of the status register: 0 if it is edge type */
} NataqvojuTimer;

/* The block, with what the settings say of it. No call but a reset changes vendor, tick_period and masks. */
typedef struct {
    uint64_t counter;     /* the main counter */
    uint32_t tick_period; /* a tick's length in femtoseconds, 1 to 100,000,000 */
    uint32_t vendor;      /* below 2^16 */
    uint32_t masks[3];    /* for each timer the pins that it can be routed to, pin n at bit n: nonzero, below 2^24 */
    uint32_t enabled;     /* 0 or 1 */
    NataqvojuTimer timer[3];
} NataqvojuTimers;

/* The 24 redirection entries, each with its pin's wire and held edge. */
typedef struct {
    uint32_t low[24];        /* 16:0 as documented, bit 12 never stored, bit 14 only if 15 is 1 */
    uint8_t destination[24]; /* bits 31:24 of the high word */
    uint8_t level[24];       /* the level of the pin's wire, as the wire rule gives it: 0 or 1 */
    uint8_t held[24];        /* an edge is held: 0 or 1, and 0 on a level pin */
} NataqvojuEntries;

typedef struct {
    uint32_t id;    /* at most 15 */
    uint32_t index; /* at most 255 */
    NataqvojuEntries entries;
} NataqvojuController;

/* Zero bytes are no board: a tick has a length, and a mask has a pin. A reset makes a board out of any memory. */
typedef struct {
    NataqvojuTimers timers;
    NataqvojuController controller;
    uint8_t outside[24]; /* the levels of the outside wires: 0 or 1 */
} NataqvojuBoard;

/* ---- what comes back: 32 bytes ---- */

/* What a call doesn't give is 0. A delivery step with no eligible pin is done, with `delivered` 0. */
typedef struct {
    uint64_t value;      /* a done read's value */
    uint32_t number;     /* 0 done, or why the call is refused */
    uint32_t delivered;  /* 1: a delivery step gave the pin, vector, destination and logical below; its trigger mode:
                            nataqvoju_is_level */
    uint32_t fired[3];   /* a done advance: how often each timer fired */
    uint8_t pin;
    uint8_t vector;
    uint8_t destination;
    uint8_t logical;     /* bit 11 of the entry */
} NataqvojuNumbers;

/* NataqvojuNumbers.number, and NataqvojuSalvaged.number. A board or a mill that is not well formed is tested for first.
 * An access then tests for the window, width and alignment, the offset, the value; a wire change for the pin, then the
 * level; a telling for the pin, then its entry; a reset with settings, which takes any memory, for the record's length,
 * its mark, its form and its numbers. The board's other calls give 0 to 5 only, a salvage 0 and 12. */
enum {
    NATAQVOJU_DONE = 0,
    NATAQVOJU_NO_PLACE = 1,      /* the window, or the offset in it, doesn't exist */
    NATAQVOJU_BAD_WIDTH = 2,     /* width or alignment isn't allowed */
    NATAQVOJU_NO_PIN = 3,        /* pin above 23 */
    NATAQVOJU_BAD_VALUE = 4,     /* wire level above 1, or a 4-byte write with a value above 4,294,967,295 */
    NATAQVOJU_BAD_STATE = 5,     /* the lent memory is not a well-formed board, or mill */
    NATAQVOJU_BAD_MARK = 6,      /* a settings record doesn't begin with 5A C3 */
    NATAQVOJU_NO_KIND = 7,       /* the mill has no call of this kind */
    NATAQVOJU_BAD_LENGTH = 8,    /* a settings record hasn't 22 bytes */
    NATAQVOJU_NO_FORM = 9,       /* a settings record's form isn't 1 */
    NATAQVOJU_OUT_OF_RANGE = 10, /* a number of the settings is out of range */
    NATAQVOJU_NO_ROOM = 12,      /* the records or the list of a salvage don't fit */
    NATAQVOJU_NOT_EDGE = 14      /* the pause pin that is told has a level entry */
};

/* ---- windows and registers ---- */

enum {
    NATAQVOJU_CONTROLLER = 0, /* width 4 */
    NATAQVOJU_TIMERS = 1      /* width 8 or 4, offset a multiple of the width, below 0x400 */
};

enum { /* of the controller's window */
    NATAQVOJU_INDEX = 0x00,
    NATAQVOJU_DATA = 0x10
};

enum { /* what the index chooses; entry n's low word is at 0x10 + 2n, its high word one above */
    NATAQVOJU_ID = 0x00,
    NATAQVOJU_VERSION = 0x01,
    NATAQVOJU_ARBITRATION = 0x02,
    NATAQVOJU_ENTRY = 0x10
};

/* A timer register has 8 bytes. Width 8 takes it whole, width 4 one half of it: the low half at its own offset, the
 * high half 4 above.
 *   - A half read gives that half.
 *   - A half write is a write of the whole register, in which the other half is what the register reads now; for the
 *     status it counts as zeros. So the high half of a configuration or of the status changes nothing.
 *   - For a comparator, the half is replaced in whatever the whole write would set: the comparator, the period, or
 *     (periodic, with bit 6) both, each of which keeps its own other half. Bit 6 is then 0, whichever half that was,
 *     so the second half goes into the period alone. In 32-bit mode a high half stores 0.
 * Bit 6 in 64-bit mode is a trap: only the first half reaches the comparator. From reset, 10 written low half first
 * leaves it at 0xFFFFFFFF0000000A (58,000 years away, at a tick of 100 ns). Written high half first it is
 * 0x00000000FFFFFFFF: the first firing comes after seven minutes, and then one every period. Two ways that work for a
 * periodic timer in halves (docs/MONITOR.md has a third):
 *   - in 32-bit mode: bits 8, 6 and 3, the low half first, then the high half;
 *   - in 64-bit mode: the comparator's halves as one-shot, then bit 3 without bit 6, then the period's halves. */
enum { /* of the timers' window; timer n's configuration is at 0x100 + 0x20n, its comparator 8 above */
    NATAQVOJU_CAPABILITIES = 0x000, /* tick period << 32 | vendor << 16 | 0x2201 */
    NATAQVOJU_CONFIGURATION = 0x010,
    NATAQVOJU_STATUS = 0x020,
    NATAQVOJU_COUNTER = 0x0F0,
    NATAQVOJU_TIMER = 0x100,
    NATAQVOJU_TIMER_STEP = 0x020,
    NATAQVOJU_COMPARATOR = 0x008,
    NATAQVOJU_HIGH_HALF = 0x004 /* from a register to its high half, of width 4 */
};

/* ---- the calls ---- */

/* The reset state, whatever was there: also the way to make a board out of fresh memory. Always done. Outside wires are low
 * after it: a monitor whose lines stay high through a reset wires them again. The settings are document 01's, also on a
 * board that had others: vendor 0x8086, 100,000,000 femtoseconds, all 24 pins for each timer, id 0. */
NataqvojuNumbers nataqvoju_reset(NataqvojuBoard *board);

/* A settings record: 22 bytes, numbers little-endian. `./nataqvoju settings make` writes one.
 *    0  the mark 5A C3
 *    2  the form, 1
 *    3  vendor, two bytes: any
 *    5  a tick's length in femtoseconds, four bytes: 1 to 100,000,000
 *    9  for each timer the pins that it can be routed to, pin n at bit n, three times four bytes: nonzero, below 2^24
 *   21  the controller's id, one byte: at most 15 */
enum { NATAQVOJU_SETTINGS_LENGTH = 22 };

/* The reset state with the settings of a record, whatever was there. Refused, in this order, with 8 for any length but
 * 22, with 6 for another mark, 9 for another form, 10 for a number out of range; never with 5. Refused, nothing is
 * reset: every byte of the board is as it was, also of memory that is no board. What the settings do:
 *   - the capabilities show the vendor and a tick's length, bits 63:32 of a timer's configuration its mask;
 *   - a timer's route is its mask's lowest pin. A route that is written and not in the mask keeps the old one, and the
 *     other bits are taken;
 *   - the controller's id is the settings'. A write to that register changes the register and nothing else.
 * They stay until the next reset, which has its own record, or document 01's settings if it has none.
 * What is the caller's to see to, beside what is said of `board` above: `record` is not null, not even where the length
 * is 0, and points to `length` bytes, which are only read; they don't overlap the board, and nothing else writes them
 * during the call. */
NataqvojuNumbers nataqvoju_reset_settings(NataqvojuBoard *board, const uint8_t *record, size_t length);

/* A register read: value. The board stays as it is. Refused with 5, 1, 2. */
NataqvojuNumbers nataqvoju_read(const NataqvojuBoard *board, uint64_t window, uint64_t width, uint64_t offset);

/* A register write. Refused with 5, 1, 2, 4. */
NataqvojuNumbers nataqvoju_write(NataqvojuBoard *board, uint64_t window, uint64_t width, uint64_t offset, uint64_t value);

/* The outside wire of a pin goes to a level. Refused with 5, 3, 4. */
NataqvojuNumbers nataqvoju_wire(NataqvojuBoard *board, uint64_t pin, uint64_t level);

/* End of interrupt: every level entry whose present vector this is loses its remote IRR. Refused with 5. */
NataqvojuNumbers nataqvoju_end(NataqvojuBoard *board, uint8_t vector);

/* So many ticks of the timer block at once: fired. Refused with 5. */
NataqvojuNumbers nataqvoju_advance(NataqvojuBoard *board, uint32_t ticks);

/* A delivery step: the lowest eligible pin, if there is one. Refused with 5. */
NataqvojuNumbers nataqvoju_deliver(NataqvojuBoard *board);

/* ---- what a monitor reads off a well-formed board ---- */

/* The trigger mode of a pin, which the message of its delivery has to name: 1 level, 0 edge. It is bit 15 of the pin's low
 * word, which a delivery step leaves as it is. A pin above 23 gives 0. */
static inline int nataqvoju_is_level(const NataqvojuBoard *board, unsigned pin) {
    return pin < 24 && (board->controller.entries.low[pin] >> 15 & 1) != 0;
}

/* In how many ticks a timer fires next: an advance by fewer fires none, by so many exactly the timers that are due, each once.
 * It may be more than UINT32_MAX, the most that one advance takes. 0 if none fires, since the block is disabled, or only in
 * 2^64 ticks. For each timer that is (comparator - counter) modulo 2^64, or 2^32 in 32-bit mode, where 0 stands for a whole
 * turn: what is compared below is one less, which has no such case. */
static inline uint64_t nataqvoju_next_firing(const NataqvojuBoard *board) {
    uint64_t least = UINT64_MAX;
    int m;
    for (m = 0; m < 3 && board->timers.enabled; m++) {
        const NataqvojuTimer *timer = &board->timers.timer[m];
        uint64_t before = timer->comparator - board->timers.counter - 1;
        if (timer->narrow) before &= UINT32_MAX;
        if (before < least) least = before;
    }
    return least + 1;
}

/* ---- the mill, of libnataqvoju_mill.a: a board with its pause screen, 312 bytes, alignment 8 ---- */

/* The screen is told which pin is the pause key, and from then on says how far a pause has come. */
typedef struct {
    uint16_t told;   /* 1 once a pin is told; 0 before, and after a reset */
    uint16_t pin;    /* the pause pin, at most 23; 0 if none is told */
    uint16_t word;   /* what the screen shows, NATAQVOJU_RUNNING to NATAQVOJU_PAUSED; 0 if no pin is told */
    uint16_t vector; /* taken and paused: the vector that was delivered, at most 255; else 0 */
} NataqvojuScreen;

/* A mill is well formed if its board is, if the screen's numbers are as above, and if a told pin holds no edge while
 * the word is running (it would have to be asked). Any other memory gets 5. */
typedef struct {
    NataqvojuBoard board;
    NataqvojuScreen screen;
} NataqvojuMill;

/* NataqvojuScreen.word. With a told pin it goes from each to the next, and in no other way:
 *   asked   the pin holds an edge after a call. It stays asked if that edge is lost without a delivery;
 *   taken   a delivery step gives the pin, whatever its entry is by then. The vector is remembered;
 *   paused  an end of interrupt with that vector is done, the first after the delivery.
 * A resume in paused, and a telling in any word, begin again: asked if the pin holds an edge, masked or not, else
 * running. A reset leaves no pin told, and running. So paused means that the motion program has taken the pause and
 * ended its interrupt, whatever was written to the entry in between. */
enum {
    NATAQVOJU_RUNNING = 0,
    NATAQVOJU_ASKED = 1,
    NATAQVOJU_TAKEN = 2,
    NATAQVOJU_PAUSED = 3
};

/* The mill's calls, as kinds of one function: a log's six, then those that no log has. A reset with settings is the one
 * call that has no kind, but a function of its own. */
enum {
    NATAQVOJU_MILL_READ = 1,    /* a window, b width, c offset */
    NATAQVOJU_MILL_WRITE = 2,   /* a window, b width, c offset, d value */
    NATAQVOJU_MILL_WIRE = 3,    /* a pin, b level */
    NATAQVOJU_MILL_END = 4,     /* a vector: its low eight bits */
    NATAQVOJU_MILL_ADVANCE = 5, /* a ticks: its low 32 bits */
    NATAQVOJU_MILL_DELIVER = 6,
    NATAQVOJU_MILL_RESET = 7,
    NATAQVOJU_MILL_TELL = 8,    /* a pin */
    NATAQVOJU_MILL_RESUME = 9
};

/* Any call of the mill, by its kind; the functions below name them. Kinds 1 to 7 do to the board what its own calls do,
 * with the same numbers and refusals, and then the screen follows. Numbers that a kind doesn't name are ignored. A mill
 * that is not well formed gets 5 whatever the kind, but for a reset; then a kind that is not in the list gets 7. A
 * refused call leaves every byte of the mill as it was. */
NataqvojuNumbers nataqvoju_mill(NataqvojuMill *mill, uint64_t kind, uint64_t a, uint64_t b, uint64_t c, uint64_t d);

/* The reset state of the board with the settings of a record, no pin told, whatever was there. The answers are those of
 * nataqvoju_reset_settings. Refused, every byte of the mill is as it was, its screen's too. */
NataqvojuNumbers nataqvoju_mill_reset_settings(NataqvojuMill *mill, const uint8_t *record, size_t length);

/* The reset state of the board, no pin told, whatever was there. Always done. The pause key has to be told again. The
 * settings are document 01's, as after nataqvoju_reset. */
static inline NataqvojuNumbers nataqvoju_mill_reset(NataqvojuMill *mill) {
    return nataqvoju_mill(mill, NATAQVOJU_MILL_RESET, 0, 0, 0, 0);
}

/* A register read: value. Every byte of the mill is as it was, but may be written on the way: unlike the board's read,
 * this one takes no constant memory, and nothing else may be done with the mill meanwhile. Refused with 5, 1, 2. */
static inline NataqvojuNumbers nataqvoju_mill_read(NataqvojuMill *mill, uint64_t window, uint64_t width,
                                                   uint64_t offset) {
    return nataqvoju_mill(mill, NATAQVOJU_MILL_READ, window, width, offset, 0);
}

/* A register write. Refused with 5, 1, 2, 4. */
static inline NataqvojuNumbers nataqvoju_mill_write(NataqvojuMill *mill, uint64_t window, uint64_t width,
                                                    uint64_t offset, uint64_t value) {
    return nataqvoju_mill(mill, NATAQVOJU_MILL_WRITE, window, width, offset, value);
}

/* The outside wire of a pin goes to a level. Refused with 5, 3, 4. */
static inline NataqvojuNumbers nataqvoju_mill_wire(NataqvojuMill *mill, uint64_t pin, uint64_t level) {
    return nataqvoju_mill(mill, NATAQVOJU_MILL_WIRE, pin, level, 0, 0);
}

/* End of interrupt. Refused with 5. */
static inline NataqvojuNumbers nataqvoju_mill_end(NataqvojuMill *mill, uint8_t vector) {
    return nataqvoju_mill(mill, NATAQVOJU_MILL_END, vector, 0, 0, 0);
}

/* So many ticks of the timer block at once: fired. Refused with 5. */
static inline NataqvojuNumbers nataqvoju_mill_advance(NataqvojuMill *mill, uint32_t ticks) {
    return nataqvoju_mill(mill, NATAQVOJU_MILL_ADVANCE, ticks, 0, 0, 0);
}

/* A delivery step: the lowest eligible pin, if there is one. Refused with 5. */
static inline NataqvojuNumbers nataqvoju_mill_deliver(NataqvojuMill *mill) {
    return nataqvoju_mill(mill, NATAQVOJU_MILL_DELIVER, 0, 0, 0, 0);
}

/* This pin is the pause key, also if another was told before. Refused with 5, 3, 14: its entry has to be an edge entry
 * now, as every entry is after a reset; what the motion program writes to it later is not refused. */
static inline NataqvojuNumbers nataqvoju_mill_tell(NataqvojuMill *mill, uint64_t pin) {
    return nataqvoju_mill(mill, NATAQVOJU_MILL_TELL, pin, 0, 0, 0);
}

/* The work goes on after a pause. In another word than paused it is done and changes nothing. Refused with 5. */
static inline NataqvojuNumbers nataqvoju_mill_resume(NataqvojuMill *mill) {
    return nataqvoju_mill(mill, NATAQVOJU_MILL_RESUME, 0, 0, 0, 0);
}

/* ---- the plain engine, of libnataqvoju_plain.a: the same board, done a second time in the most obvious way ---- */

/* For a test bench that doesn't take the board's calls on trust. It makes each call on two boards, by the functions above
 * and by nataqvoju_plain, and compares the numbers and the 304 bytes. Each is proved to do what one and the same
 * definition says, for every call on any memory; they share no code. An advance walks every tick, which takes a while:
 * docs/BENCHMARKS.md says how long. A long one can be made in portions, whose counts are added up. It is not for a
 * monitor at work.
 *
 * The kinds are the first seven of the mill's. */
enum {
    NATAQVOJU_PLAIN_READ = 1,    /* a window, b width, c offset */
    NATAQVOJU_PLAIN_WRITE = 2,   /* a window, b width, c offset, d value */
    NATAQVOJU_PLAIN_WIRE = 3,    /* a pin, b level */
    NATAQVOJU_PLAIN_END = 4,     /* a vector: its low eight bits */
    NATAQVOJU_PLAIN_ADVANCE = 5, /* a ticks: its low 32 bits */
    NATAQVOJU_PLAIN_DELIVER = 6,
    NATAQVOJU_PLAIN_RESET = 7
};

/* Any call of the plain engine, by its kind; the functions below name them. Numbers that a kind doesn't name are
 * ignored. A board that is not well formed gets 5 whatever the kind, but for a reset; then a kind that is not in the
 * list gets 7. A refused call leaves every byte of the board as it was. */
NataqvojuNumbers nataqvoju_plain(NataqvojuBoard *board, uint64_t kind, uint64_t a, uint64_t b, uint64_t c, uint64_t d);

/* The reset state with document 01's settings, whatever was there. Always done. The plain engine serves a board with
 * other settings as well: nataqvoju_reset_settings makes one. */
static inline NataqvojuNumbers nataqvoju_plain_reset(NataqvojuBoard *board) {
    return nataqvoju_plain(board, NATAQVOJU_PLAIN_RESET, 0, 0, 0, 0);
}

/* A register read: value. Every byte of the board is as it was, but may be written on the way: unlike nataqvoju_read,
 * this one takes no constant memory, and nothing else may be done with the board meanwhile. Refused with 5, 1, 2. */
static inline NataqvojuNumbers nataqvoju_plain_read(NataqvojuBoard *board, uint64_t window, uint64_t width,
                                                    uint64_t offset) {
    return nataqvoju_plain(board, NATAQVOJU_PLAIN_READ, window, width, offset, 0);
}

/* A register write. Refused with 5, 1, 2, 4. */
static inline NataqvojuNumbers nataqvoju_plain_write(NataqvojuBoard *board, uint64_t window, uint64_t width,
                                                     uint64_t offset, uint64_t value) {
    return nataqvoju_plain(board, NATAQVOJU_PLAIN_WRITE, window, width, offset, value);
}

/* The outside wire of a pin goes to a level. Refused with 5, 3, 4. */
static inline NataqvojuNumbers nataqvoju_plain_wire(NataqvojuBoard *board, uint64_t pin, uint64_t level) {
    return nataqvoju_plain(board, NATAQVOJU_PLAIN_WIRE, pin, level, 0, 0);
}

/* End of interrupt. Refused with 5. */
static inline NataqvojuNumbers nataqvoju_plain_end(NataqvojuBoard *board, uint8_t vector) {
    return nataqvoju_plain(board, NATAQVOJU_PLAIN_END, vector, 0, 0, 0);
}

/* So many ticks of the timer block, one after the other: fired. Refused with 5. */
static inline NataqvojuNumbers nataqvoju_plain_advance(NataqvojuBoard *board, uint32_t ticks) {
    return nataqvoju_plain(board, NATAQVOJU_PLAIN_ADVANCE, ticks, 0, 0, 0);
}

/* A delivery step: the lowest eligible pin, if there is one. Refused with 5. */
static inline NataqvojuNumbers nataqvoju_plain_deliver(NataqvojuBoard *board) {
    return nataqvoju_plain(board, NATAQVOJU_PLAIN_DELIVER, 0, 0, 0, 0);
}

/* ---- salvage, of libnataqvoju_salvage.a: what can be got from a damaged log ---- */

/* What comes back: 32 bytes. */
typedef struct {
    uint64_t number;    /* 0 done; 12 the records or the list don't fit, and the other three are 0 */
    uint64_t records;   /* how many records were kept */
    uint64_t bytes;     /* how many bytes they have */
    uint64_t stretches; /* how many stretches were skipped: the list has two numbers for each */
} NataqvojuSalvaged;

/* From the left: where a whole record stands (its mark 7E B5, a kind from 1 to 6, its full body) it is kept, and the
 * next place is the one after it; where none stands, one byte is skipped. What a record's call would be answered does
 * not matter. Bytes inside damage may happen to look like a record, and are then kept too.
 *   - The kept records are copied to the start of `kept`, one after the other.
 *   - Each skipped stretch, as long as it runs, goes into `list` from its start: the offset in `log`, then the length.
 *   - What lies behind them in a longer buffer stays as it came.
 *   - Refused with 12, exactly when `kept` has fewer bytes than the records or `list` fewer numbers than two for each
 *     stretch: then both buffers are as they came.
 * Lengths count elements: bytes of `log` and `kept`, numbers of `list`. The log may have any length, and is only read.
 * The records never need more than `log_length` bytes, the list never more than 2 * ((log_length + 3) / 4) numbers; a
 * buffer for what is really needed will do.
 * What is the caller's to see to: no pointer is null, not even where its length is 0; `list` is aligned to 8; each
 * points to as many elements as its length says; the two buffers overlap neither each other nor the log; and during the
 * call nothing else writes the three, or reads the buffers. */
NataqvojuSalvaged nataqvoju_salvage(const uint8_t *log, size_t log_length, uint8_t *kept, size_t kept_length,
                                    uint64_t *list, size_t list_length);

/* ---- the layout, checked where this header is compiled ---- */

#if defined(__cplusplus)
#define NATAQVOJU_CHECK(fact) static_assert(fact, #fact)
#define NATAQVOJU_ALIGNED(type, to) NATAQVOJU_CHECK(alignof(type) == (to))
#else
#define NATAQVOJU_CHECK(fact) _Static_assert(fact, #fact)
#define NATAQVOJU_ALIGNED(type, to) NATAQVOJU_CHECK(_Alignof(type) == (to))
#endif
#define NATAQVOJU_AT(type, field, place) NATAQVOJU_CHECK(offsetof(type, field) == (place))

NATAQVOJU_AT(NataqvojuTimer, comparator, 0);
NATAQVOJU_AT(NataqvojuTimer, period, 8);
NATAQVOJU_AT(NataqvojuTimer, route, 16);
NATAQVOJU_AT(NataqvojuTimer, level_type, 18);
NATAQVOJU_AT(NataqvojuTimer, interrupt, 19);
NATAQVOJU_AT(NataqvojuTimer, periodic, 20);
NATAQVOJU_AT(NataqvojuTimer, set_comparator, 21);
NATAQVOJU_AT(NataqvojuTimer, narrow, 22);
NATAQVOJU_AT(NataqvojuTimer, status, 23);
NATAQVOJU_CHECK(sizeof(NataqvojuTimer) == 24);
NATAQVOJU_ALIGNED(NataqvojuTimer, 8);

NATAQVOJU_AT(NataqvojuTimers, counter, 0);
NATAQVOJU_AT(NataqvojuTimers, tick_period, 8);
NATAQVOJU_AT(NataqvojuTimers, vendor, 12);
NATAQVOJU_AT(NataqvojuTimers, masks, 16);
NATAQVOJU_AT(NataqvojuTimers, enabled, 28);
NATAQVOJU_AT(NataqvojuTimers, timer, 32);
NATAQVOJU_CHECK(sizeof(NataqvojuTimers) == 104);
NATAQVOJU_ALIGNED(NataqvojuTimers, 8);

NATAQVOJU_AT(NataqvojuEntries, low, 0);
NATAQVOJU_AT(NataqvojuEntries, destination, 96);
NATAQVOJU_AT(NataqvojuEntries, level, 120);
NATAQVOJU_AT(NataqvojuEntries, held, 144);
NATAQVOJU_CHECK(sizeof(NataqvojuEntries) == 168);
NATAQVOJU_ALIGNED(NataqvojuEntries, 4);

NATAQVOJU_AT(NataqvojuController, id, 0);
NATAQVOJU_AT(NataqvojuController, index, 4);
NATAQVOJU_AT(NataqvojuController, entries, 8);
NATAQVOJU_CHECK(sizeof(NataqvojuController) == 176);
NATAQVOJU_ALIGNED(NataqvojuController, 4);

NATAQVOJU_AT(NataqvojuBoard, timers, 0);
NATAQVOJU_AT(NataqvojuBoard, controller, 104);
NATAQVOJU_AT(NataqvojuBoard, outside, 280);
NATAQVOJU_CHECK(sizeof(NataqvojuBoard) == 304);
NATAQVOJU_ALIGNED(NataqvojuBoard, 8);

NATAQVOJU_AT(NataqvojuNumbers, value, 0);
NATAQVOJU_AT(NataqvojuNumbers, number, 8);
NATAQVOJU_AT(NataqvojuNumbers, delivered, 12);
NATAQVOJU_AT(NataqvojuNumbers, fired, 16);
NATAQVOJU_AT(NataqvojuNumbers, pin, 28);
NATAQVOJU_AT(NataqvojuNumbers, vector, 29);
NATAQVOJU_AT(NataqvojuNumbers, destination, 30);
NATAQVOJU_AT(NataqvojuNumbers, logical, 31);
NATAQVOJU_CHECK(sizeof(NataqvojuNumbers) == 32);
NATAQVOJU_ALIGNED(NataqvojuNumbers, 8);

NATAQVOJU_AT(NataqvojuScreen, told, 0);
NATAQVOJU_AT(NataqvojuScreen, pin, 2);
NATAQVOJU_AT(NataqvojuScreen, word, 4);
NATAQVOJU_AT(NataqvojuScreen, vector, 6);
NATAQVOJU_CHECK(sizeof(NataqvojuScreen) == 8);
NATAQVOJU_ALIGNED(NataqvojuScreen, 2);

NATAQVOJU_AT(NataqvojuMill, board, 0);
NATAQVOJU_AT(NataqvojuMill, screen, 304);
NATAQVOJU_CHECK(sizeof(NataqvojuMill) == 312);
NATAQVOJU_ALIGNED(NataqvojuMill, 8);

NATAQVOJU_AT(NataqvojuSalvaged, number, 0);
NATAQVOJU_AT(NataqvojuSalvaged, records, 8);
NATAQVOJU_AT(NataqvojuSalvaged, bytes, 16);
NATAQVOJU_AT(NataqvojuSalvaged, stretches, 24);
NATAQVOJU_CHECK(sizeof(NataqvojuSalvaged) == 32);
NATAQVOJU_ALIGNED(NataqvojuSalvaged, 8);
NATAQVOJU_CHECK(sizeof(size_t) == 8);

#undef NATAQVOJU_AT
#undef NATAQVOJU_ALIGNED
#undef NATAQVOJU_CHECK

#ifdef __cplusplus
}
#endif

#endif
