/* The first program to copy: one chip that hears itself. It sends 255 and reads it back. */
#include <stdio.h>

#include "ins2651.h"

int main(void) {
    ins2651 chip = INS2651_RESET;
    ins2651_write(&chip, INS2651_MODE, INS2651_MODE1(8, INS2651_PARITY_NONE, INS2651_STOP_2, 16)); /* mode 1 is 206 */
    ins2651_write(&chip, INS2651_MODE, INS2651_MODE2_TRANSMIT_INTERNAL | INS2651_MODE2_RECEIVE_INTERNAL);
    ins2651_write(&chip, INS2651_COMMAND,
                  INS2651_COMMAND_TRANSMIT | INS2651_COMMAND_RECEIVE | INS2651_COMMAND_DTR | INS2651_COMMAND_RTS);
    ins2651_pins(&chip, 0, 0, 0); /* DSR, DCD and CTS low */
    ins2651_receive(&chip, 1);    /* the line at mark */
    ins2651_write(&chip, INS2651_DATA, 255);
    int ticks = 0;
    while (!(ins2651_read(&chip, INS2651_STATUS) & INS2651_STATUS_RXRDY)) { /* until a character is unread */
        ins2651_receive(&chip, (uint8_t)ins2651_transmit(&chip));
        ticks++;
    }
    printf("after %d ticks: %d\n", ticks, INS2651_VALUE(ins2651_read(&chip, INS2651_DATA)));
    if (INS2651_REFUSAL(ins2651_read(&chip, 4)) == INS2651_NO_SUCH_ADDRESS)
        printf("address 4 is refused\n");
    return 0;
}
