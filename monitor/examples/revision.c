/* revision.c: a monitor that resets its board with the settings of one revision. It loads the record, as revision B of
 * the board has it or from a file that is named, shows what the registers say of it, and what becomes of routes, of
 * another id, of a record that is refused and of a reset without settings.
 * What it must print of revision B's record stands in revision.out, worked out by hand. It is compiled in any folder,
 * by
 *     gcc -O2 -I FOLDER_OF_NATAQVOJU_H revision.c FOLDER_OF_THE_LIBRARY/libnataqvoju.a -o revision
 *     ./revision [FILE] */
#include <inttypes.h>
#include <stdio.h>
#include <string.h>

#include "nataqvoju.h"

/* one byte more than a record has: so a file that is too long is seen */
enum { ROOM = NATAQVOJU_SETTINGS_LENGTH + 1 };

static const uint8_t revision_b[] = {
    0x5A, 0xC3, 1,          /* the mark, and form 1 */
    0x86, 0x80,             /* vendor 0x8086 */
    0x7F, 0xB1, 0x29, 0x04, /* 69,841,279 femtoseconds: 14.31818 MHz */
    0x00, 0x00, 0xF0, 0x00, /* each timer can be routed to pins 20 to 23 */
    0x00, 0x00, 0xF0, 0x00,
    0x00, 0x00, 0xF0, 0x00,
    2,                      /* the controller's id */
};

/* the record's bytes, and how many there are: what was really read, and not what it should have been */
static size_t load(const char *path, uint8_t record[ROOM]) {
    size_t length = 0;
    FILE *file;
    if (!path) {
        memcpy(record, revision_b, sizeof revision_b);
        return sizeof revision_b;
    }
    file = fopen(path, "rb");
    if (file) {
        length = fread(record, 1, ROOM, file);
        fclose(file);
    }
    return length;
}

static int done(const char *what, NataqvojuNumbers n) {
    if (n.number == NATAQVOJU_DONE)
        printf("%s: ok\n", what);
    else
        printf("%s: refused %" PRIu32 "\n", what, n.number);
    return n.number == NATAQVOJU_DONE;
}

static uint64_t timers(const NataqvojuBoard *b, unsigned offset) {
    return nataqvoju_read(b, NATAQVOJU_TIMERS, 8, offset).value;
}

static void show(NataqvojuBoard *b) {
    uint64_t capabilities = timers(b, NATAQVOJU_CAPABILITIES);
    unsigned m;
    printf("capabilities: 0x%016" PRIx64 "\n", capabilities);
    printf("a tick: %" PRIu64 " femtoseconds\n", capabilities >> 32);
    printf("vendor: 0x%04" PRIx64 "\n", capabilities >> 16 & 0xFFFF);
    for (m = 0; m < 3; m++)
        printf("timer %u: 0x%016" PRIx64 ", pin %u\n", m, timers(b, NATAQVOJU_TIMER + NATAQVOJU_TIMER_STEP * m),
               b->timers.timer[m].route);
    nataqvoju_write(b, NATAQVOJU_CONTROLLER, 4, NATAQVOJU_INDEX, NATAQVOJU_ID);
    printf("id: 0x%08" PRIx64 "\n", nataqvoju_read(b, NATAQVOJU_CONTROLLER, 4, NATAQVOJU_DATA).value);
}

static void route(NataqvojuBoard *b, unsigned pin) {
    nataqvoju_write(b, NATAQVOJU_TIMERS, 8, NATAQVOJU_TIMER, (uint64_t)pin << 9 | 0x04);
    printf("timer 0 to pin %u, interrupt on: 0x%016" PRIx64 "\n", pin, timers(b, NATAQVOJU_TIMER));
}

int main(int count, char **words) {
    NataqvojuBoard board, saved;
    uint8_t record[ROOM];
    size_t length = load(count > 1 ? words[1] : NULL, record);

    printf("-- a record of %zu bytes, and memory that was never a board\n", length);
    memset(&board, 0, sizeof board);
    done("a delivery step", nataqvoju_deliver(&board));
    /* refused, nothing is reset: there is no board to go on with */
    if (!done("reset with settings", nataqvoju_reset_settings(&board, record, length))) return 1;
    show(&board);

    puts("-- routes: 4 isn't in the mask, 22 is");
    route(&board, 4);
    route(&board, 22);

    puts("-- another id: the register alone");
    nataqvoju_write(&board, NATAQVOJU_CONTROLLER, 4, NATAQVOJU_DATA, 9u << 24);
    printf("id: 0x%08" PRIx64 "\n", nataqvoju_read(&board, NATAQVOJU_CONTROLLER, 4, NATAQVOJU_DATA).value);

    puts("-- records that are refused");
    saved = board;
    done("a byte short", nataqvoju_reset_settings(&board, record, NATAQVOJU_SETTINGS_LENGTH - 1));
    record[0] = 0x7E;
    done("another mark", nataqvoju_reset_settings(&board, record, NATAQVOJU_SETTINGS_LENGTH));
    record[0] = 0x5A;
    record[2] = 2;
    done("form 2", nataqvoju_reset_settings(&board, record, NATAQVOJU_SETTINGS_LENGTH));
    record[2] = 1;
    record[21] = 16;
    done("id 16", nataqvoju_reset_settings(&board, record, NATAQVOJU_SETTINGS_LENGTH));
    printf("the board: %s\n", memcmp(&board, &saved, sizeof board) == 0 ? "same bytes" : "OTHER BYTES");

    puts("-- a reset without settings");
    done("reset", nataqvoju_reset(&board));
    show(&board);
    return 0;
}
