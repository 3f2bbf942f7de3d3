/* Two chips on a line, to copy: the line is at mark for eight hours, then a sends the character A to b. The hours are done by long runs,
 * which do their ticks at once. */
#include <stdio.h>

#include "ins2651_pair.h"

enum { TICKS_A_SECOND = 9600 * 16 }; /* 9,600 baud, 16 ticks a bit */

/* 8 bits, even parity, 1 stop bit, 16 ticks a bit; transmit and receive on; DSR, DCD and CTS low. */
static void set_up(ins2651 *chip) {
    ins2651_write(chip, INS2651_MODE, INS2651_MODE1(8, INS2651_PARITY_EVEN, INS2651_STOP_1, 16));
    ins2651_write(chip, INS2651_COMMAND, INS2651_COMMAND_TRANSMIT | INS2651_COMMAND_RECEIVE);
    ins2651_pins(chip, 0, 0, 0);
}

/* Any number of joined ticks, in runs that are not too long; answers how many runs. */
static int pass(ins2651_pair *line, uint64_t ticks) {
    int runs = 0;
    while (ticks > 0) {
        uint32_t n = ticks < INS2651_RUN_LIMIT ? (uint32_t)ticks : INS2651_RUN_LIMIT;
        ins2651_joined_run(line, n);
        ticks -= n;
        runs++;
    }
    return runs;
}

int main(void) {
    ins2651_pair line = INS2651_PAIR_RESET;
    set_up(&line.a);
    set_up(&line.b);

    const uint64_t eight_hours = (uint64_t)8 * 60 * 60 * TICKS_A_SECOND;
    int runs = pass(&line, eight_hours);
    printf("eight hours of mark: %llu joined ticks in %d runs\n", (unsigned long long)eight_hours, runs);

    ins2651_write(&line.a, INS2651_DATA, 'A');
    ins2651_joined_run(&line, 168); /* D ticks: the stop bit is not sampled yet */
    printf("after 168 ticks: unread %d\n", (ins2651_peek(&line.b) & INS2651_STATUS_RXRDY) != 0);
    ins2651_joined_tick(&line); /* 1+D */
    int flags = ins2651_peek(&line.b) & (INS2651_STATUS_PARITY | INS2651_STATUS_OVERRUN | INS2651_STATUS_FRAMING);
    printf("after 169 ticks: %d, error flags %d\n", INS2651_VALUE(ins2651_read(&line.b, INS2651_DATA)), flags);

    /* A run that is too long is refused, and nothing moves. */
    uint16_t refusal = ins2651_joined_run(&line, INS2651_RUN_LIMIT + 1);
    if (refusal == INS2651_RUN_TOO_LONG) printf("a run of 65536 is refused with %d\n", refusal);
    return 0;
}
