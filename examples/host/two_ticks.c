/* Two chips on a line, to copy: a sends the character A to b, and a loop does both ticks of a chip in one call. */
#include <stdio.h>

#include "ins2651.h"

/* 8 bits, no parity, 2 stop bits, 16 ticks a bit; transmit and receive on; DSR, DCD and CTS low. */
static void set_up(ins2651 *chip) {
    ins2651_write(chip, INS2651_MODE, INS2651_MODE1(8, INS2651_PARITY_NONE, INS2651_STOP_2, 16));
    ins2651_write(chip, INS2651_MODE, INS2651_MODE2_TRANSMIT_INTERNAL | INS2651_MODE2_RECEIVE_INTERNAL);
    ins2651_write(chip, INS2651_COMMAND, INS2651_COMMAND_TRANSMIT | INS2651_COMMAND_RECEIVE);
    ins2651_pins(chip, 0, 0, 0);
}

int main(void) {
    ins2651 a = INS2651_RESET;
    ins2651 b = INS2651_RESET;
    set_up(&a);
    set_up(&b);
    /* One transmit tick of each comes first; then each round ends a joined tick and begins the next. */
    uint8_t level_a = (uint8_t)ins2651_transmit(&a);
    uint8_t level_b = (uint8_t)ins2651_transmit(&b);
    /* The transmit tick of this round is done: the frame begins with the next, one round later than with the four calls of
     * two_chips.c. */
    ins2651_write(&a, INS2651_DATA, 'A');
    int rounds = 0;
    while (!(ins2651_peek(&b) & INS2651_STATUS_RXRDY)) {
        uint8_t sent = level_a;
        level_a = INS2651_VALUE(ins2651_tick(&a, level_b));
        level_b = INS2651_VALUE(ins2651_tick(&b, sent));
        rounds++;
    }
    int flags = ins2651_peek(&b) & (INS2651_STATUS_PARITY | INS2651_STATUS_OVERRUN | INS2651_STATUS_FRAMING);
    printf("after %d rounds: %d, error flags %d\n", rounds, INS2651_VALUE(ins2651_read(&b, INS2651_DATA)), flags);
    return 0;
}
