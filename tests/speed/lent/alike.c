/* A pseudo-random run of all fourteen calls, made by the proved ones and by the plain ones on devices of their own: the answers are the
 * same, and after each call all fields of the devices. Bytes are spoilt now and then, so that the edges of the range are met
 * (docs/RANGES.md), and tallies are put to where they wrap soon. */
#include <stdio.h>
#include <string.h>

#include "calls.h"

enum { STEPS = 6000000 };

static uint64_t state = 1;

/* SplitMix64: a number below n. */
static unsigned below(unsigned n) {
    uint64_t mixed = state += 0x9e3779b97f4a7c15u;
    mixed = (mixed ^ (mixed >> 30)) * 0xbf58476d1ce4e5b9u;
    mixed = (mixed ^ (mixed >> 27)) * 0x94d049bb133111ebu;
    return (unsigned)((mixed >> 32) * n >> 32);
}

static uint8_t byte(void) { return (uint8_t)below(256); }

enum { RESET, READ, WRITE, PINS, TRANSMIT, RECEIVE, TICK, OUTPUTS, PEEK, IN_RANGE, STAMP, START, TRANSMIT_TALLY, RECEIVE_TALLY, CALLS };
static const char *const names[CALLS] = {"reset",   "read", "write",    "pins",  "transmit", "receive",        "tick",
                                         "outputs", "peek", "in_range", "stamp", "start",    "transmit_tally", "receive_tally"};

typedef struct call {
    unsigned which;
    uint8_t bytes[3];
} call;

static uint32_t make(const calls *by, ins2651 *device, const call *c) {
    const uint8_t *n = c->bytes;
    switch (c->which) {
    case RESET: return by->reset(device);
    case READ: return by->read(device, n[0]);
    case WRITE: return by->write(device, n[0], n[1]);
    case PINS: return by->pins(device, n[0], n[1], n[2]);
    case TRANSMIT: return by->transmit(device);
    case RECEIVE: return by->receive(device, n[0]);
    case TICK: return by->tick(device, n[0]);
    case OUTPUTS: return by->outputs(device);
    case PEEK: return by->peek(device);
    case IN_RANGE: return by->in_range(device);
    case STAMP: return by->stamp(device).ticks;
    case START: return by->start(device).ticks;
    case TRANSMIT_TALLY: return by->transmit_tally(device).ticks;
    default: return by->receive_tally(device).ticks;
    }
}

/* == the devices of both sides == */

typedef struct pair {
    ins2651 proved, plain;
    int differed;
} pair;

static int same(const ins2651 *a, const ins2651 *b) {
    const unsigned char *x = (const unsigned char *)a, *y = (const unsigned char *)b;
    return !memcmp(x, y, 23) && !memcmp(x + 24, y + 24, 21) && !memcmp(x + 48, y + 48, 14); /* all but the padding */
}

static void print_device(const char *title, const ins2651 *device) {
    const unsigned char *bytes = (const unsigned char *)device;
    printf("%-8s", title);
    for (size_t i = 0; i < sizeof *device; i++) printf("%02x", bytes[i]);
    printf("\n");
}

/* A call on each; the proved answer. */
static uint32_t both(pair *p, const call *c) {
    ins2651 before = p->proved;
    uint32_t wanted = make(&proved, &p->proved, c), answer = make(&plain, &p->plain, c);
    if (wanted == answer && same(&p->proved, &p->plain)) return wanted;
    printf("alike: %s with %u %u %u: proved %u, plain %u\n", names[c->which], c->bytes[0], c->bytes[1], c->bytes[2], wanted, answer);
    print_device("before", &before);
    print_device("proved", &p->proved);
    print_device("plain", &p->plain);
    p->differed = 1;
    return wanted;
}

/* == what is drawn == */

/* An address or a level, seldom a wrong one. */
static uint8_t small(unsigned least_wrong) { return below(32) ? (uint8_t)below(least_wrong) : byte(); }

/* Any call. Half of the values written are a mode 1 or a command that is taken. */
static call any_call(void) {
    call c = {below(CALLS), {small(2), small(2), small(2)}};
    if (c.which == READ || c.which == WRITE) c.bytes[0] = small(4);
    if (c.which == WRITE && below(2)) c.bytes[1] = c.bytes[0] == INS2651_COMMAND ? 37 : byte() | 65;
    else if (c.which == WRITE) c.bytes[1] = byte();
    return c;
}

/* A number that is at an edge of some field, or any. */
static uint8_t edge(void) {
    static const uint8_t edges[] = {0, 1, 2, 3, 4, 5, 6, 7, 8, 9, 10, 11, 15, 16, 24, 31, 32, 63, 64, 65, 96, 127, 128, 255};
    return below(4) ? edges[below(sizeof edges)] : byte();
}

/* A call on a copy of the devices in which one or two bytes are spoilt; whether that was out of range. */
static int probe(pair *p) {
    pair spoilt = *p;
    for (unsigned left = 1 + below(2); left; left--) {
        size_t at = below(sizeof spoilt.proved);
        ((unsigned char *)&spoilt.proved)[at] = ((unsigned char *)&spoilt.plain)[at] = edge();
    }
    call look = {IN_RANGE, {0, 0, 0}}, c = any_call();
    int out = !both(&spoilt, &look);
    both(&spoilt, &c);
    p->differed |= spoilt.differed;
    return out;
}

/* The tallies so few ticks before they wrap that a character sees it. */
static void other_tallies(pair *p) {
    p->proved.sender.tally.ticks = p->plain.sender.tally.ticks = -below(1000);
    p->proved.receiver.tally.ticks = p->plain.receiver.tally.ticks = -below(1000);
}

static void garbage(pair *p) {
    for (size_t i = 0; i < sizeof p->proved; i++) ((unsigned char *)&p->proved)[i] = byte();
    p->plain = p->proved;
}

/* Both modes, a command and low pins, after a command read, which puts the pointers back. */
static void set_up(pair *p) {
    uint8_t factor = (uint8_t)(1 + below(3)), stop = (uint8_t)(1 + below(3));
    uint8_t mode1 = (uint8_t)(stop << 6 | below(16) << 2 | factor);
    const call all[] = {{READ, {3, 0, 0}}, {WRITE, {2, mode1, 0}}, {WRITE, {2, byte(), 0}}, {WRITE, {3, 39, 0}}, {PINS, {0, 0, 0}}};
    for (size_t i = 0; i < sizeof all / sizeof *all; i++) both(p, &all[i]);
}

/* A tick of the devices, by one call or by two. They hear what they send, but for a few levels. */
static void tick(pair *p, uint8_t *level) {
    uint8_t heard = below(64) ? *level : (uint8_t)below(2);
    if (below(2)) {
        call c = {TICK, {heard, 0, 0}};
        *level = INS2651_VALUE(both(p, &c));
    } else {
        call receive = {RECEIVE, {heard, 0, 0}}, transmit = {TRANSMIT, {0, 0, 0}};
        both(p, &receive);
        *level = INS2651_VALUE(both(p, &transmit));
    }
}

int answer_alike(void) {
    pair p = {INS2651_RESET, INS2651_RESET, 0};
    uint8_t level = 1;
    unsigned long probes = 0, out = 0;
    for (unsigned long step = 0; step < STEPS && !p.differed; step++) {
        if (!below(256)) set_up(&p);
        if (!below(20000)) garbage(&p);
        if (!below(5000)) other_tallies(&p);
        if (!below(24)) {
            call write = {WRITE, {0, byte(), 0}};
            both(&p, &write);
        }
        if (!below(128)) {
            call c = any_call();
            both(&p, &c);
        }
        tick(&p, &level);
        if (!below(4)) {
            probes++;
            out += (unsigned long)probe(&p);
        }
    }
    if (!p.differed) printf("alike: %u steps; %lu calls on devices with spoilt bytes, %lu out of range\n", STEPS, probes, out);
    return !p.differed;
}
