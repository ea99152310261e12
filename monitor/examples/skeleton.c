/* skeleton.c: what a monitor does around the board's calls, in C. It keeps time, delivers, wires its lines again after a
 * reset, names the trigger mode, and saves and restores the board as bytes. Its clock and its processor are made up: a
 * number that the story below moves, and lines on the screen. What it must print stands in skeleton.out, worked out by hand.
 *     gcc -O2 -I FOLDER_OF_NATAQVOJU_H skeleton.c FOLDER_OF_THE_LIBRARY/libnataqvoju.a -o skeleton
 *     ./skeleton [FILE]        the saved board is written to FILE, if one is named */
#include <inttypes.h>
#include <stdio.h>
#include <string.h>

#include "nataqvoju.h"

enum { PINS = 24, DOOR = 5 };

typedef struct {
    NataqvojuBoard board;
    uint8_t line[PINS]; /* the outside lines as they are, whatever becomes of the board */
    uint64_t tick;      /* the clock's tick up to which the board has been advanced */
    uint64_t alarm;     /* the clock's tick at which it has to be advanced, or 0 */
} Monitor;

static uint64_t clock_now; /* ticks of 100 ns */

static void on_end(Monitor *m, uint8_t vector);
static uint64_t on_read(Monitor *m, uint64_t window, uint64_t width, uint64_t offset);
static void on_write(Monitor *m, uint64_t window, uint64_t width, uint64_t offset, uint64_t value);

/* ---- time ---- */

/* before the board is asked anything */
static void catch_up(Monitor *m) {
    while (m->tick < clock_now) {
        uint64_t behind = clock_now - m->tick;
        uint32_t part = behind < UINT32_MAX ? (uint32_t)behind : UINT32_MAX;
        nataqvoju_advance(&m->board, part);
        m->tick += part;
    }
}

/* after it: no firing is overslept */
static void set_alarm(Monitor *m) {
    uint64_t ticks = nataqvoju_next_firing(&m->board);
    m->alarm = ticks != 0 && ticks <= UINT64_MAX - m->tick ? m->tick + ticks : 0;
}

/* ---- deliveries ---- */

/* The message to the processor. This one serves the timer's interrupt, vector 0x36, at once: its end comes from inside the
 * delivery loop. */
static void send(Monitor *m, NataqvojuNumbers n) {
    printf("%6" PRIu64 ": pin %u, vector 0x%02x, %s\n", clock_now, n.pin, n.vector,
           nataqvoju_is_level(&m->board, n.pin) ? "level" : "edge");
    if (n.vector == 0x36) {
        printf("%6" PRIu64 ": status 0x%" PRIx64 ", cleared, end 0x36\n", clock_now,
               on_read(m, NATAQVOJU_TIMERS, 8, NATAQVOJU_STATUS));
        on_write(m, NATAQVOJU_TIMERS, 8, NATAQVOJU_STATUS, 2);
        on_end(m, 0x36);
    }
}

static void deliver_all(Monitor *m) {
    for (;;) {
        NataqvojuNumbers n = nataqvoju_deliver(&m->board);
        if (!n.delivered) break;
        send(m, n);
    }
}

static void settle(Monitor *m) {
    deliver_all(m);
    set_alarm(m);
}

/* ---- what comes from outside ---- */

static uint64_t on_read(Monitor *m, uint64_t window, uint64_t width, uint64_t offset) {
    uint64_t value;
    catch_up(m);
    value = nataqvoju_read(&m->board, window, width, offset).value;
    settle(m);
    return value;
}

static void on_write(Monitor *m, uint64_t window, uint64_t width, uint64_t offset, uint64_t value) {
    catch_up(m);
    nataqvoju_write(&m->board, window, width, offset, value);
    settle(m);
}

static void on_line(Monitor *m, unsigned pin, uint8_t level) {
    m->line[pin] = level;
    catch_up(m);
    nataqvoju_wire(&m->board, pin, level);
    settle(m);
}

static void on_end(Monitor *m, uint8_t vector) {
    catch_up(m);
    nataqvoju_end(&m->board, vector);
    settle(m);
}

static void on_alarm(Monitor *m) {
    catch_up(m);
    settle(m);
}

/* The lines don't fall because the chip is reset. */
static void on_reset(Monitor *m) {
    unsigned p;
    nataqvoju_reset(&m->board);
    m->tick = clock_now;
    for (p = 0; p < PINS; p++)
        if (m->line[p]) nataqvoju_wire(&m->board, p, 1);
    settle(m);
}

/* ---- save and restore: a version mark, the board's bytes, the lines ---- */

static const uint8_t mark[8] = {'b', 'o', 'a', 'r', 'd', ' ', '2', '\n'};
enum { SAVED = sizeof mark + sizeof(NataqvojuBoard) + PINS };

static void save(Monitor *m, uint8_t bytes[SAVED]) {
    catch_up(m);
    memcpy(bytes, mark, sizeof mark);
    memcpy(bytes + sizeof mark, &m->board, sizeof m->board);
    memcpy(bytes + sizeof mark + sizeof m->board, m->line, PINS);
}

/* The clock of the saved board is this monitor's now. 0, and the monitor as it was, if the bytes are not what was saved, as far
 * as can be told. */
static int restore(Monitor *m, const uint8_t bytes[SAVED]) {
    NataqvojuBoard board;
    if (memcmp(bytes, mark, sizeof mark) != 0) return 0;
    memcpy(&board, bytes + sizeof mark, sizeof board);
    /* bytes that are no board get 5 from any call but a reset: ask now, not in the middle of the work */
    if (nataqvoju_read(&board, NATAQVOJU_CONTROLLER, 4, NATAQVOJU_INDEX).number != NATAQVOJU_DONE) return 0;
    m->board = board;
    memcpy(m->line, bytes + sizeof mark + sizeof board, PINS);
    m->tick = clock_now;
    settle(m);
    return 1;
}

/* ---- the story ---- */

static void entry(Monitor *m, unsigned pin, uint32_t low) {
    on_write(m, NATAQVOJU_CONTROLLER, 4, NATAQVOJU_INDEX, NATAQVOJU_ENTRY + 2 * pin);
    on_write(m, NATAQVOJU_CONTROLLER, 4, NATAQVOJU_DATA, low);
}

static void timer(Monitor *m, unsigned n, uint64_t configuration, uint64_t comparator) {
    unsigned at = NATAQVOJU_TIMER + NATAQVOJU_TIMER_STEP * n;
    on_write(m, NATAQVOJU_TIMERS, 8, at, configuration);
    on_write(m, NATAQVOJU_TIMERS, 8, at + NATAQVOJU_COMPARATOR, comparator);
}

/* edge pin 4 with a pulse every 1,000 ticks; level pin 6 with one level interrupt after 2,500; the door on level pin 5 */
static void set_up(Monitor *m) {
    entry(m, 4, 0x34);
    entry(m, DOOR, 0x8035);
    entry(m, 6, 0x8036);
    timer(m, 0, 4 << 9 | 0x40 | 0x08 | 0x04, 1000);
    timer(m, 1, 6 << 9 | 0x04 | 0x02, 2500);
    on_write(m, NATAQVOJU_TIMERS, 8, NATAQVOJU_CONFIGURATION, 1);
}

/* the clock goes on, and the alarms come as they are due */
static void until(Monitor *m, uint64_t then) {
    while (m->alarm != 0 && m->alarm <= then) {
        clock_now = m->alarm;
        on_alarm(m);
    }
    clock_now = then;
}

static int same(const Monitor *a, const Monitor *b) { return memcmp(&a->board, &b->board, sizeof a->board) == 0; }

int main(int argc, char **argv) {
    Monitor m, other;
    uint8_t saved[SAVED];
    memset(&m, 0, sizeof m);
    memset(&other, 0, sizeof other);

    on_reset(&m);
    puts("-- set up at 100");
    clock_now = 100;
    set_up(&m);
    until(&m, 1500);
    puts("-- the door opens at 1500, and its interrupt ends at 1700");
    on_line(&m, DOOR, 1);
    until(&m, 1700);
    on_end(&m, 0x35);
    until(&m, 2000);

    puts("-- saved at 2000");
    save(&m, saved);
    if (argc > 1) {
        FILE *file = fopen(argv[1], "wb");
        if (!file || fwrite(saved, 1, SAVED, file) != SAVED || fclose(file) != 0) {
            perror(argv[1]);
            return 1;
        }
    }
    until(&m, 3500);

    puts("-- restored, and the same once more");
    clock_now = 2000;
    if (!restore(&other, saved)) return 1;
    until(&other, 3500);
    printf("the boards: %s\n", same(&m, &other) ? "same bytes" : "OTHER BYTES");
    saved[sizeof mark + offsetof(NataqvojuBoard, outside)] = 2;
    printf("damaged in a byte: %s\n", restore(&other, saved) ? "TAKEN" : "not taken");

    puts("-- a reset at 3500, with the door still open");
    on_reset(&m);
    printf("alarm: %s\n", m.alarm ? "SET" : "none");
    set_up(&m);
    until(&m, 4600);
    return 0;
}
