/* The board, to copy: a program that echoes what its users type, by polling the board as the manual's own test program does: it selects
 * one user after the other and looks at his status. Users 1 and 6 type at the same time; each sees his own text, and the other six see
 * nothing. */
#include <stdio.h>

#include "interfacer3.h"

/* The manual's set-up: 8 bits, no parity, 2 stop bits; internal clocks; transmit, receive, DTR and RTS on. */
enum { MODE1 = 0xCE, MODE2 = 0x7E, COMMAND = 0x27 };

/* == the program on the board's side == */

static void set_up(interfacer3 *board) {
    for (uint8_t user = 0; user < INTERFACER3_CHANNELS; user++) {
        i3_out(board, INTERFACER3_USER, INTERFACER3_SELECT(0, user));
        i3_out(board, INTERFACER3_MODE, MODE1);
        i3_out(board, INTERFACER3_MODE, MODE2);
        i3_out(board, INTERFACER3_COMMAND, COMMAND);
    }
    i3_out(board, INTERFACER3_TRANSMIT_INTERRUPTS, 0xFF); /* every interrupt is enabled, though a program that polls asks for none */
    i3_out(board, INTERFACER3_RECEIVE_INTERRUPTS, 0xFF);
}

/* Whoever has typed gets his character back. The manual's program waits until it may be sent; here the line ticks in the same loop, so that
 * the character waits in its register. */
static void echo(interfacer3 *board) {
    const int typed_and_ready = INS2651_STATUS_RXRDY | INS2651_STATUS_TXRDY;
    for (uint8_t user = 0; user < INTERFACER3_CHANNELS; user++) {
        i3_out(board, INTERFACER3_USER, INTERFACER3_SELECT(0, user));
        int status = INTERFACER3_VALUE(i3_in(board, INTERFACER3_STATUS));
        if ((status & typed_and_ready) != typed_and_ready) continue;
        i3_out(board, INTERFACER3_DATA, INTERFACER3_VALUE(i3_in(board, INTERFACER3_DATA)));
    }
}

/* == the terminals: a chip each, at the far end of a channel's line == */

enum { WIDTH = 80 };

typedef struct {
    ins2651 chip;
    const char *typing; /* what is still to be typed */
    char screen[WIDTH + 1];
    int column;
} terminal;

static void plug_in(interfacer3 *board, uint8_t user, terminal *t) {
    t->chip = (ins2651)INS2651_RESET;
    ins2651_write(&t->chip, INS2651_MODE, MODE1);
    ins2651_write(&t->chip, INS2651_MODE, MODE2);
    ins2651_write(&t->chip, INS2651_COMMAND, COMMAND);
    ins2651_pins(&t->chip, 0, 0, 0);
    i3_pins(board, user, 0, 0, 0); /* the cable makes DSR, DCD and CTS low at both ends */
}

static void use(terminal *t) {
    int status = INS2651_VALUE(ins2651_read(&t->chip, INS2651_STATUS));
    if (*t->typing && (status & INS2651_STATUS_TXRDY)) ins2651_write(&t->chip, INS2651_DATA, (uint8_t)*t->typing++);
    if ((status & INS2651_STATUS_RXRDY) && t->column < WIDTH) t->screen[t->column++] = (char)ins2651_read(&t->chip, INS2651_DATA);
}

/* A joined tick of a line: both ends transmit, then each hears the other. */
static void line_tick(interfacer3 *board, uint8_t user, terminal *t) {
    uint8_t from_board = INTERFACER3_VALUE(i3_transmit(board, user));
    uint8_t from_terminal = (uint8_t)ins2651_transmit(&t->chip);
    ins2651_receive(&t->chip, from_board);
    i3_receive(board, user, from_terminal);
}

int main(void) {
    interfacer3 board = INTERFACER3_RESET(0);
    terminal terminals[INTERFACER3_CHANNELS] = {0};
    for (uint8_t user = 0; user < INTERFACER3_CHANNELS; user++) {
        terminals[user].typing = user == 1 ? "weigh cell 4" : user == 6 ? "tare" : "";
        plug_in(&board, user, &terminals[user]);
    }
    set_up(&board);
    for (int tick = 0; tick < 3000; tick++) {
        for (uint8_t user = 0; user < INTERFACER3_CHANNELS; user++) {
            line_tick(&board, user, &terminals[user]); /* the first is at mark, and nothing is typed before it */
            use(&terminals[user]);
        }
        echo(&board);
    }
    for (int user = 0; user < INTERFACER3_CHANNELS; user++)
        printf("user %d sees %d characters: '%s'\n", user, terminals[user].column, terminals[user].screen);
    return 0;
}
