/* Two chips on a line, to copy: a sends a word to b, and the host waits for each character. It counts no ticks: a wait ends with the tick
 * that brings the character, whatever the format makes of it. */
#include <stdio.h>

#include "ins2651_pair.h"

/* 8 bits, even parity, 1 stop bit, 16 ticks a bit; transmit and receive on; DSR, DCD and CTS low. */
static void set_up(ins2651 *chip) {
    ins2651_write(chip, INS2651_MODE, INS2651_MODE1(8, INS2651_PARITY_EVEN, INS2651_STOP_1, 16));
    ins2651_write(chip, INS2651_COMMAND, INS2651_COMMAND_TRANSMIT | INS2651_COMMAND_RECEIVE);
    ins2651_pins(chip, 0, 0, 0);
}

/* Waits for a character at b and says what came. */
static void await(ins2651_pair *line) {
    unsigned ticks = INS2651_WAIT_COUNT(ins2651_joined_wait(line, INS2651_UNIT_B, INS2651_WAIT_LIMIT));
    /* the status, and not the count, tells whether one came: the last tick of the limit may bring it */
    if (ins2651_peek(&line->b) & INS2651_STATUS_RXRDY)
        printf("after %u ticks: %c\n", ticks, INS2651_VALUE(ins2651_read(&line->b, INS2651_DATA)));
    else
        printf("none in %u ticks\n", ticks);
}

int main(void) {
    ins2651_pair line = INS2651_PAIR_RESET;
    set_up(&line.a);
    set_up(&line.b);
    ins2651_joined_tick(&line); /* b hears mark, from which a start bit falls */

    for (const char *next = "HELLO"; *next; next++) {
        ins2651_write(&line.a, INS2651_DATA, (uint8_t)*next);
        await(&line);
    }
    await(&line); /* nothing is sent */

    /* A wait that is too long is refused, and nothing moves. */
    uint16_t refusal = INS2651_WAIT_REFUSAL(ins2651_joined_wait(&line, INS2651_UNIT_B, INS2651_WAIT_LIMIT + 1));
    if (refusal == INS2651_WAIT_TOO_LONG) printf("a wait with a limit of 65536 is refused with %d\n", refusal);
    return 0;
}
