/* Drives one device from text: a call on each line of standard input, its answer on a line of standard output. A line is answered
 * when it is entered, so another program can drive it through two pipes.
 *
 *     reset                 0
 *     read ADDRESS          REFUSAL VALUE
 *     write ADDRESS VALUE   REFUSAL
 *     pins DSR DCD CTS      REFUSAL
 *     transmit              LEVEL
 *     receive LEVEL         REFUSAL
 *     tick LEVEL            REFUSAL LEVEL   the level sent
 *     outputs               TXRDY RXRDY TXEMT DTR RTS
 *     peek                  STATUS
 *     in_range              0 or 1
 *     stamp                 TALLY   the receive tally that the character of address 0 came with
 *     start                 TALLY   the transmit tally that the last frame began with
 *     transmit_tally        TALLY   transmit ticks since reset
 *     receive_tally         TALLY   receive ticks since reset
 *     device HEX            0       the device's 64 bytes are set, by exactly 128 digits 0-9, a-f
 *     bytes                 HEX     the device's 64 bytes, its padding as 00
 *
 * Numbers are decimal, 0 to 255, tallies 0 to 4294967295. The device begins as one just reset. A line of another form, or of more than
 * 150 bytes, ends the program with status 2, and so do an input that cannot be read and an answer that cannot be written. */
#include "ins2651.h"
#include "chip_lines.h"

static ins2651 device = INS2651_RESET;

static int does(const char *line) {
    return does_on(&device, line);
}

int main(void) {
    return drive("driver", does);
}
