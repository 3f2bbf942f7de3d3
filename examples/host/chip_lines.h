/* The calls of one device as lines, which driver.c lists: what it and pair_driver.c share. */
#ifndef CHIP_LINES_H
#define CHIP_LINES_H

#include "lines.h"

static void print_number(uint32_t number) { printf("%lu\n", (unsigned long)number); }

/* One line on a device; 0 where it is no call. */
static int does_on(ins2651 *device, const char *line) {
    uint8_t n[3];
    if (is(line, "transmit", 0, n)) printf("%d\n", ins2651_transmit(device));
    else if (is(line, "receive", 1, n)) printf("%d\n", ins2651_receive(device, n[0]));
    else if (is(line, "tick", 1, n)) print_refusal_and_value(ins2651_tick(device, n[0]));
    else if (is(line, "read", 1, n)) print_refusal_and_value(ins2651_read(device, n[0]));
    else if (is(line, "write", 2, n)) printf("%d\n", ins2651_write(device, n[0], n[1]));
    else if (is(line, "pins", 3, n)) printf("%d\n", ins2651_pins(device, n[0], n[1], n[2]));
    else if (is(line, "outputs", 0, n)) print_outputs(ins2651_outputs(device));
    else if (is(line, "peek", 0, n)) printf("%d\n", ins2651_peek(device));
    else if (is(line, "in_range", 0, n)) printf("%d\n", ins2651_in_range(device));
    else if (is(line, "stamp", 0, n)) print_number(ins2651_stamp(device).ticks);
    else if (is(line, "start", 0, n)) print_number(ins2651_start(device).ticks);
    else if (is(line, "transmit_tally", 0, n)) print_number(ins2651_transmit_tally(device).ticks);
    else if (is(line, "receive_tally", 0, n)) print_number(ins2651_receive_tally(device).ticks);
    else if (is(line, "reset", 0, n)) printf("%d\n", ins2651_reset(device));
    else if (is(line, "bytes", 0, n)) print_bytes(device);
    else if (set_bytes(behind(line, "device", 0, n), device)) printf("0\n");
    else return 0;
    return 1;
}

#endif
