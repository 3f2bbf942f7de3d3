/* Two chips on a line, to copy: a sends the character A to b. */
#include <stdio.h>

#include "ins2651.h"

/* 8 bits, no parity, 2 stop bits, 16 ticks a bit; transmit and receive on; DSR, DCD and CTS low. */
static void set_up(ins2651 *chip) {
    ins2651_write(chip, INS2651_MODE, INS2651_MODE1(8, INS2651_PARITY_NONE, INS2651_STOP_2, 16));
    ins2651_write(chip, INS2651_MODE, INS2651_MODE2_TRANSMIT_INTERNAL | INS2651_MODE2_RECEIVE_INTERNAL);
    ins2651_write(chip, INS2651_COMMAND, INS2651_COMMAND_TRANSMIT | INS2651_COMMAND_RECEIVE);
    ins2651_pins(chip, 0, 0, 0);
}

/* Both transmit, then both receive: each hears what the other sends in this very tick. */
static void joined_tick(ins2651 *a, ins2651 *b) {
    uint8_t level_a = (uint8_t)ins2651_transmit(a);
    uint8_t level_b = (uint8_t)ins2651_transmit(b);
    ins2651_receive(b, level_a);
    ins2651_receive(a, level_b);
}

static int status(ins2651 *chip) {
    return INS2651_VALUE(ins2651_read(chip, INS2651_STATUS));
}

int main(void) {
    ins2651 a = INS2651_RESET;
    ins2651 b = INS2651_RESET;
    set_up(&a);
    set_up(&b);
    /* A receiver waits for a 1 before it looks for a start bit. Without this tick b would miss the start, take a later 0 for it
     * and read 208, with no error flag. */
    joined_tick(&a, &b);
    ins2651_write(&a, INS2651_DATA, 'A');
    int ticks = 0;
    while (!(status(&b) & INS2651_STATUS_RXRDY)) {
        joined_tick(&a, &b);
        ticks++;
    }
    int flags = status(&b) & (INS2651_STATUS_PARITY | INS2651_STATUS_OVERRUN | INS2651_STATUS_FRAMING);
    printf("after %d ticks: %d, error flags %d\n", ticks, INS2651_VALUE(ins2651_read(&b, INS2651_DATA)), flags);
    return 0;
}
