/* The times of the proved lent calls beside those of plain C (chip.c), as native code in one program. Every call goes through a pointer
 * into another object, so that neither side's is inlined. The sides take turns in small batches, and the best batch counts; a checksum of
 * the answers holds them together. Both sides' times have the loop, the call through the pointer and the checksum in them. First a long run holds the two sides to each other (alike.c). */
#define _POSIX_C_SOURCE 199309L
#include <stdio.h>
#include <time.h>

#include "calls.h"

uint16_t plain_reset(ins2651 *device);
uint16_t plain_read(ins2651 *device, uint8_t address);
uint16_t plain_write(ins2651 *device, uint8_t address, uint8_t value);
uint16_t plain_pins(ins2651 *device, uint8_t dsr, uint8_t dcd, uint8_t cts);
uint16_t plain_transmit(ins2651 *device);
uint16_t plain_receive(ins2651 *device, uint8_t level);
uint16_t plain_tick(ins2651 *device, uint8_t level);
uint16_t plain_outputs(ins2651 *device);
uint16_t plain_peek(ins2651 *device);
uint16_t plain_in_range(ins2651 *device);
ins2651_rxc plain_stamp(ins2651 *device);
ins2651_txc plain_start(ins2651 *device);
ins2651_txc plain_transmit_tally(ins2651 *device);
ins2651_rxc plain_receive_tally(ins2651 *device);

const calls proved = {ins2651_reset,   ins2651_read,  ins2651_write,          ins2651_pins,         ins2651_transmit,
                      ins2651_receive, ins2651_tick,  ins2651_outputs,        ins2651_peek,         ins2651_in_range,
                      ins2651_stamp,   ins2651_start, ins2651_transmit_tally, ins2651_receive_tally};
const calls plain = {plain_reset,   plain_read,  plain_write,          plain_pins,         plain_transmit,
                     plain_receive, plain_tick,  plain_outputs,        plain_peek,         plain_in_range,
                     plain_stamp,   plain_start, plain_transmit_tally, plain_receive_tally};

/* The calls on one device, which a frame and a character of 64 ticks a bit outlast, and those between two looks at the clock. */
enum { STRETCH = 512, BATCH = 8 * STRETCH };

static const double SECONDS_A_ROW = 1;
static const double GOAL = 2;

/* == the devices that the batches begin with == */

static ins2651 set_up(const calls *by, uint8_t mode1) {
    ins2651 device = INS2651_RESET;
    by->write(&device, INS2651_MODE, mode1);
    by->write(&device, INS2651_MODE, 0);
    by->write(&device, INS2651_COMMAND, INS2651_COMMAND_TRANSMIT | INS2651_COMMAND_RECEIVE | INS2651_COMMAND_DTR);
    by->pins(&device, 0, 0, 0);
    by->receive(&device, 1);
    return device;
}

static ins2651 idle(const calls *by) { return set_up(by, INS2651_MODE1(8, INS2651_PARITY_EVEN, INS2651_STOP_1, 64)); }

/* Behind the look at the start, with a frame and a character under way. */
static ins2651 under_way(const calls *by) {
    ins2651 device = idle(by);
    by->write(&device, INS2651_DATA, 0x55);
    for (int i = 0; i < 40; i++) {
        by->transmit(&device);
        by->receive(&device, 0);
    }
    return device;
}

/* == batches: each answers a checksum == */

typedef uint32_t batch(const calls *by, const ins2651 *begun);

static uint32_t summed(uint32_t sum, uint32_t answer) { return 31 * sum + answer; }

#define BATCH_OF(name, call) \
    static uint32_t name(const calls *by, const ins2651 *begun) { \
        uint32_t sum = 0; \
        for (unsigned from = 0; from < BATCH; from += STRETCH) { \
            ins2651 device = *begun; \
            for (unsigned i = 0; i < STRETCH; i++) sum = summed(sum, by->call); \
        } \
        return sum; \
    }
BATCH_OF(transmits, transmit(&device))
BATCH_OF(marks, receive(&device, 1))
BATCH_OF(levels, receive(&device, i >> 6 & 1))
BATCH_OF(mark_ticks, tick(&device, 1))
BATCH_OF(level_ticks, tick(&device, i >> 6 & 1))
BATCH_OF(status_reads, read(&device, INS2651_STATUS))
BATCH_OF(data_reads, read(&device, INS2651_DATA))
BATCH_OF(mode_reads, read(&device, INS2651_MODE))
BATCH_OF(command_reads, read(&device, INS2651_COMMAND))
BATCH_OF(data_writes, write(&device, INS2651_DATA, (uint8_t)i))
BATCH_OF(mode_writes, write(&device, INS2651_MODE, 127))
BATCH_OF(command_writes, write(&device, INS2651_COMMAND, 39))
BATCH_OF(pin_calls, pins(&device, 0, 0, 0))
BATCH_OF(outputs, outputs(&device))
BATCH_OF(peeks, peek(&device))
BATCH_OF(range_looks, in_range(&device))
BATCH_OF(stamps, stamp(&device).ticks)
BATCH_OF(starts, start(&device).ticks)
BATCH_OF(transmit_tallies, transmit_tally(&device).ticks)
BATCH_OF(receive_tallies, receive_tally(&device).ticks)
BATCH_OF(resets, reset(&device))

/* == joined ticks == */

/* Two devices whose line is full: at a frame's end each host reads a character and writes the next one. */
typedef struct line {
    ins2651 a, b;
    unsigned left; /* the ticks before that */
    uint32_t sum;
} line;

static line begin_line(const calls *by, unsigned factor) {
    uint8_t mode1 = INS2651_MODE1(8, INS2651_PARITY_EVEN, INS2651_STOP_1, factor);
    line l = {set_up(by, mode1), set_up(by, mode1), 0, 0};
    return l;
}

static void attend(const calls *by, line *l, unsigned length, unsigned i) {
    if (l->left-- > 0) return;
    l->left = length - 1;
    l->sum = summed(l->sum, by->read(&l->a, INS2651_DATA));
    l->sum = summed(l->sum, by->read(&l->b, INS2651_DATA));
    by->write(&l->a, INS2651_DATA, (uint8_t)(7 * i + 1));
    by->write(&l->b, INS2651_DATA, (uint8_t)(13 * i + 85));
}

static uint32_t ended(const calls *by, line *l) {
    l->sum = summed(l->sum, by->stamp(&l->a).ticks);
    l->sum = summed(l->sum, by->stamp(&l->b).ticks);
    l->sum = summed(l->sum, by->read(&l->a, INS2651_STATUS));
    return summed(l->sum, by->read(&l->b, INS2651_STATUS));
}

/* A frame has 11 bits; a length of 0 is a line that stays idle. */
static uint32_t four_calls(const calls *by, unsigned factor, unsigned length) {
    line l = begin_line(by, factor);
    for (unsigned i = 0; i < BATCH; i++) {
        if (length) attend(by, &l, length, i);
        uint16_t from_a = by->transmit(&l.a), from_b = by->transmit(&l.b);
        by->receive(&l.a, (uint8_t)from_b);
        by->receive(&l.b, (uint8_t)from_a);
    }
    return ended(by, &l);
}

static uint32_t two_calls(const calls *by, unsigned factor, unsigned length) {
    line l = begin_line(by, factor);
    uint16_t from_a = by->transmit(&l.a), from_b = by->transmit(&l.b);
    for (unsigned i = 0; i < BATCH; i++) {
        if (length) attend(by, &l, length, i);
        uint16_t next = by->tick(&l.a, (uint8_t)from_b);
        from_b = by->tick(&l.b, (uint8_t)from_a);
        from_a = next;
    }
    return ended(by, &l);
}

#define LINE_OF(name, ticks, factor, length) \
    static uint32_t name(const calls *by, const ins2651 *begun) { return (void)begun, ticks(by, factor, length); }
LINE_OF(four_idle, four_calls, 16, 0)
LINE_OF(four_full16, four_calls, 16, 176)
LINE_OF(four_full1, four_calls, 1, 11)
LINE_OF(two_idle, two_calls, 16, 0)
LINE_OF(two_full16, two_calls, 16, 176)
LINE_OF(two_full1, two_calls, 1, 11)

/* == rows == */

typedef struct row {
    const char *title;
    batch *run;
    ins2651 (*begun)(const calls *);
    int has_goal; /* not a reset, the mode and the command, which a program sets up with, nor the sums of several calls */
} row;

static const row rows[] = {
    {"transmit, idle", transmits, idle, 1},
    {"transmit, frame under way", transmits, under_way, 1},
    {"receive, idle", marks, idle, 1},
    {"receive, character under way", levels, under_way, 1},
    {"status read, idle", status_reads, idle, 1},
    {"status read, both under way", status_reads, under_way, 1},
    {"data read, idle", data_reads, idle, 1},
    {"data read, both under way", data_reads, under_way, 1},
    {"data write, idle", data_writes, idle, 1},
    {"data write, both under way", data_writes, under_way, 1},
    {"pins, idle", pin_calls, idle, 1},
    {"pins, both under way", pin_calls, under_way, 1},
    {"outputs, idle", outputs, idle, 1},
    {"outputs, both under way", outputs, under_way, 1},
    {"peek, idle", peeks, idle, 1},
    {"peek, both under way", peeks, under_way, 1},
    {"in_range, idle", range_looks, idle, 1},
    {"in_range, both under way", range_looks, under_way, 1},
    {"stamp, idle", stamps, idle, 1},
    {"stamp, both under way", stamps, under_way, 1},
    {"start, both under way", starts, under_way, 1},
    {"transmit_tally, both under way", transmit_tallies, under_way, 1},
    {"receive_tally, both under way", receive_tallies, under_way, 1},
    {"reset", resets, under_way, 0},
    {"mode read", mode_reads, idle, 0},
    {"mode write", mode_writes, idle, 0},
    {"command read", command_reads, idle, 0},
    {"command write", command_writes, idle, 0},
    {"tick, idle", mark_ticks, idle, 1},
    {"tick, both under way", level_ticks, under_way, 1},
    {"joined by 4 calls, idle", four_idle, idle, 0},
    {"joined by 4 calls, full, 16", four_full16, idle, 0},
    {"joined by 4 calls, full, 1", four_full1, idle, 0},
    {"joined by 2 ticks, idle", two_idle, idle, 0},
    {"joined by 2 ticks, full, 16", two_full16, idle, 0},
    {"joined by 2 ticks, full, 1", two_full1, idle, 0},
};

static double now(void) {
    struct timespec t;
    clock_gettime(CLOCK_MONOTONIC, &t);
    return (double)t.tv_sec + 1e-9 * (double)t.tv_nsec;
}

/* The best time of one side so far, and its checksum. */
typedef struct side {
    const calls *by;
    ins2651 begun;
    double best;
    uint32_t sum;
} side;

static void take_turn(side *s, batch *run) {
    double from = now();
    s->sum = run(s->by, &s->begun);
    double took = now() - from;
    if (took < s->best) s->best = took;
}

/* Whether the checksums are the same. */
static int measure(const row *r) {
    side a = {&proved, r->begun(&proved), 1e9, 0}, b = {&plain, r->begun(&plain), 1e9, 0};
    for (double until = now() + SECONDS_A_ROW; now() < until;) {
        take_turn(&a, r->run);
        take_turn(&b, r->run);
    }
    double ratio = a.best / b.best;
    const char *mark = r->has_goal && ratio > GOAL ? ">" : " ";
    printf("%-30s %9.2f %9.2f  %s%7.2f\n", r->title, 1e9 * a.best / BATCH, 1e9 * b.best / BATCH, mark, ratio);
    fflush(stdout);
    if (a.sum != b.sum) printf("times: the answers of '%s' differ\n", r->title);
    return a.sum == b.sum;
}

int main(void) {
    if (!answer_alike()) return 1;
    printf("%-30s %9s %9s  %8s\n", "ns a call, or a joined tick", "proved", "plain C", "ratio");
    for (size_t i = 0; i < sizeof rows / sizeof *rows; i++)
        if (!measure(&rows[i])) return 1;
    return 0;
}
