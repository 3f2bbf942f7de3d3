/* What the tests of the headers share: each failure is printed and counted. It is C11 and C++17. */
#ifndef HELD_H
#define HELD_H

#include <stdio.h>
#include <string.h>

#include "ins2651.h"

static int failures = 0;

static void holds(int fact, const char *what) {
    if (fact) return;
    printf("header: %s\n", what);
    failures++;
}

/* Field by field: each byte but the padding, as the header has their places. */
static int same(const ins2651 *a, const ins2651 *b) {
    const unsigned char *x = (const unsigned char *)a;
    const unsigned char *y = (const unsigned char *)b;
    for (size_t i = 0; i < sizeof *a; i++) {
        int padding = i == 23 || (i >= 45 && i <= 47) || i >= 62;
        if (!padding && x[i] != y[i]) return 0;
    }
    return 1;
}

/* The status byte that the other fields mean, as document 01 has its bits. */
static inline uint8_t meant(const ins2651 *chip) {
    int may_write = (chip->registers.command & INS2651_COMMAND_TRANSMIT) && !chip->sender.full;
    return (uint8_t)((chip->pins.dsr ? 0 : INS2651_STATUS_DSR) | (chip->pins.dcd ? 0 : INS2651_STATUS_DCD)
        | (chip->flags.framing ? INS2651_STATUS_FRAMING : 0) | (chip->flags.overrun ? INS2651_STATUS_OVERRUN : 0)
        | (chip->flags.parity ? INS2651_STATUS_PARITY : 0) | (chip->flags.empty || chip->flags.change ? INS2651_STATUS_TXEMT : 0)
        | (chip->receiver.unread ? INS2651_STATUS_RXRDY : 0) | (may_write ? INS2651_STATUS_TXRDY : 0));
}

/* A joined tick by the chip's own calls, and the levels sent: 2 times b's plus a's. Not every test has two chips: it is inline. */
static inline int joined_tick(ins2651 *a, ins2651 *b) {
    int from_a = ins2651_transmit(a), from_b = ins2651_transmit(b);
    ins2651_receive(a, (uint8_t)from_b);
    ins2651_receive(b, (uint8_t)from_a);
    return 2 * from_b + from_a;
}

#endif
