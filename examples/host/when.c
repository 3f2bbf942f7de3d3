/* Two chips on a line, to copy: when a began to send each character, by its transmit clock, and when each came to b, by b's receive clock. A
 * quiet line counts all the same. The ticks of the two clocks are two types, so that one is not handed over as the other. */
#include <stdio.h>

#include "ins2651_pair.h"

/* 8 bits, even parity, 1 stop bit, 16 ticks a bit; transmit and receive on; DSR, DCD and CTS low. */
static void set_up(ins2651 *chip) {
    ins2651_write(chip, INS2651_MODE, INS2651_MODE1(8, INS2651_PARITY_EVEN, INS2651_STOP_1, 16));
    ins2651_write(chip, INS2651_COMMAND, INS2651_COMMAND_TRANSMIT | INS2651_COMMAND_RECEIVE);
    ins2651_pins(chip, 0, 0, 0);
}

static void tell(char character, ins2651_txc begun, ins2651_rxc came) {
    printf("%c: sent from tick %lu of a's transmit clock on, there with tick %lu of b's receive clock\n", character,
           (unsigned long)begun.ticks, (unsigned long)came.ticks);
}

int main(void) {
    ins2651_pair line = INS2651_PAIR_RESET;
    set_up(&line.a);
    set_up(&line.b);
    ins2651_joined_tick(&line);      /* b hears mark, from which a start bit falls */
    ins2651_joined_run(&line, 1000); /* nothing is sent, and every tick counts */

    for (const char *next = "KG"; *next; next++) {
        ins2651_write(&line.a, INS2651_DATA, (uint8_t)*next);
        ins2651_joined_wait(&line, INS2651_UNIT_B, INS2651_WAIT_LIMIT);
        char character = (char)INS2651_VALUE(ins2651_read(&line.b, INS2651_DATA)); /* the stamp stays with it */
        tell(character, ins2651_start(&line.a), ins2651_stamp(&line.b));
    }
    printf("since reset: %lu transmit ticks of a, %lu receive ticks of b\n",
           (unsigned long)ins2651_transmit_tally(&line.a).ticks, (unsigned long)ins2651_receive_tally(&line.b).ticks);
    return 0;
}
