/* The proved Interfacer 3 for C, a board of eight INS2651: crates/board says what each call does, for any bytes in the board and in the
 * channels lent to it. `tools/cc FILE.c` builds a program with it; docs/USING.md, "The board from C", has an example.
 *
 * - Most programs keep an `interfacer3`, a board and its eight channels side by side, and use the calls from i3_in to i3_interrupts.
 * - Those from interfacer3_in to interfacer3_interrupts take the board, the channels and their count: for channels that stand elsewhere.
 * - Each channel is an `ins2651`, and the calls of ins2651.h may be made on it too.
 * - No global state: a call reads and changes the board and the channels lent to it, and nothing else.
 * - One board, with all its channels, may be used by one thread at a time.
 * - The archive, target/staticlib/libboard.a, has no undefined symbols, and links beside the others in any order. It is x86-64 code, which
 *   `tools/cc` has proved and built (`rt lib` in crates/board_c).
 * - Arguments are bytes, as in ins2651.h: C cuts a larger number before the call, and -Wconversion shows such a place. */
#ifndef INTERFACER3_H
#define INTERFACER3_H

#include "ins2651.h"

#ifdef __cplusplus
extern "C" {
#endif

/* The channels of a board. */
enum { INTERFACER3_CHANNELS = 8 };

/* Ports. There is no port 6. */
enum {
    INTERFACER3_DATA = 0,  /* 0 to 3: the registers of the selected channel, as in ins2651.h */
    INTERFACER3_STATUS = 1,
    INTERFACER3_MODE = 2,
    INTERFACER3_COMMAND = 3,
    INTERFACER3_TRANSMIT_INTERRUPTS = 4,  /* read: a 1 for each channel that may be written, masked or not; write: their mask */
    INTERFACER3_RECEIVE_INTERRUPTS = 5,   /* read: a 1 for each channel with a character unread, masked or not; write: their mask */
    INTERFACER3_USER = 7                  /* write: the user select, INTERFACER3_SELECT; every board takes it, selected or not */
};

/* The user select of a channel of a board, which is the user's number, 0 to 31. Of the board's number the low two bits count, of the
 * channel the low three. It is a constant where its arguments are. */
#define INTERFACER3_SELECT(number, channel) ((uint8_t)(((number) & 3) << 3 | ((channel) & 7)))

/* Refusals: 10, 8, 9 in this order, then the channel's own, which ins2651.h names. A refused call leaves the board and all channels as
 * they were. A reset and the interrupts are refused with 10 alone, outputs with 10 and 8, ticks and pins with 10, 8 and the channel's
 * own: none of these asks what is selected. */
enum {
    INTERFACER3_NO_SUCH_PORT = 8,  /* a port or a channel above 7, any access to port 6, a read of port 7 */
    INTERFACER3_NOT_SELECTED = 9,  /* an access to ports 0 to 5 while another board is selected */
    INTERFACER3_WRONG_ROOM = 10    /* a count of channels other than eight; no i3_ call is refused so */
};

/* An answer of 16 bits is 256 times the refusal, plus the value read, the level sent or the levels of the outputs, which is 0 where it is
 * refused. Calls that have no value answer so too: unlike ins2651_write's, their answer is 256 times the refusal. */
#define INTERFACER3_REFUSAL(answer) ((uint8_t)((answer) >> 8))
#define INTERFACER3_VALUE(answer) ((uint8_t)((answer) & 255))

/* The answer of the interrupts, of 32 bits, is 65536 times the refusal, plus 256 times the receive byte, plus the transmit byte: bit k of
 * each is 1 where that line of channel k is asserted, which is low on the bus. Both bytes are 0 where it is refused. */
#define INTERFACER3_LINES_REFUSAL(answer) ((uint8_t)((answer) >> 16))
#define INTERFACER3_RECEIVE_LINES(answer) ((uint8_t)((answer) >> 8 & 255))
#define INTERFACER3_TRANSMIT_LINES(answer) ((uint8_t)((answer) & 255))

/* A board without its channels: any bytes will do. */
typedef struct interfacer3_board {
    uint8_t number;         /* as its switches are set; one above 3 is never selected */
    uint8_t select;         /* the user select: bits 2-0 the channel, bits 4-3 the number of the board that is selected */
    uint8_t transmit_mask;  /* a 1 enables the transmit interrupt of that channel */
    uint8_t receive_mask;   /* a 1 enables the receive interrupt of that channel */
} interfacer3_board;

/* A board and its channels. One of zeros is board 0 with channels that are out of range, and taken as just reset: begin with
 * INTERFACER3_RESET, or set the number and call i3_reset, which leaves it. */
typedef struct interfacer3 {
    interfacer3_board board;
    ins2651 channel[INTERFACER3_CHANNELS];
} interfacer3;

/* The initialisers of a board just reset, with this number, alone and with its channels. */
#define INTERFACER3_BOARD_RESET(number) {(number), 0, 0, 0}
#define INTERFACER3_RESET(number) \
    { INTERFACER3_BOARD_RESET(number), \
      {INS2651_RESET, INS2651_RESET, INS2651_RESET, INS2651_RESET, INS2651_RESET, INS2651_RESET, INS2651_RESET, INS2651_RESET} }

/* The layout is the archive's. */
#define INTERFACER3_AT(type, field, offset, size) \
    INS2651_HOLDS(offsetof(type, field) == (offset) && sizeof(((type *)0)->field) == (size))
INS2651_HOLDS(sizeof(interfacer3_board) == 4);
INTERFACER3_AT(interfacer3_board, number, 0, 1);
INTERFACER3_AT(interfacer3_board, select, 1, 1);
INTERFACER3_AT(interfacer3_board, transmit_mask, 2, 1);
INTERFACER3_AT(interfacer3_board, receive_mask, 3, 1);
INTERFACER3_AT(interfacer3, channel, sizeof(interfacer3_board), INTERFACER3_CHANNELS * sizeof(ins2651));
#undef INTERFACER3_AT

/* The calls. `room` points to the channels, and `channels` is their count; the board must not lie among them. Any count but eight is refused
 * with 10, and nothing is looked at. */

/* Reads a port of the board; answers its value. Reading 4 and 5 changes nothing. */
uint16_t interfacer3_in(interfacer3_board *board, ins2651 *room, size_t channels, uint8_t port);

/* Writes a port of the board. */
uint16_t interfacer3_out(interfacer3_board *board, ins2651 *room, size_t channels, uint8_t port, uint8_t value);

/* Resets all channels; the user select and both masks are 0, so that user 0 is selected and no interrupt enabled. The number stays. */
uint16_t interfacer3_reset(interfacer3_board *board, ins2651 *room, size_t channels);

/* The pins, ticks and outputs of any channel, whatever is selected: as ins2651_pins, ins2651_transmit, which answers the level sent,
 * ins2651_receive, and ins2651_outputs, which answers the levels by the bits INS2651_TXRDY to INS2651_RTS. */
uint16_t interfacer3_pins(interfacer3_board *board, ins2651 *room, size_t channels, uint8_t channel, uint8_t dsr, uint8_t dcd, uint8_t cts);
uint16_t interfacer3_transmit(interfacer3_board *board, ins2651 *room, size_t channels, uint8_t channel);
uint16_t interfacer3_receive(interfacer3_board *board, ins2651 *room, size_t channels, uint8_t channel, uint8_t level);
uint16_t interfacer3_outputs(interfacer3_board *board, ins2651 *room, size_t channels, uint8_t channel);

/* Answers which interrupt lines are asserted, status and mask bit by bit, whatever is selected; board and channels stay as they are. */
uint32_t interfacer3_interrupts(interfacer3_board *board, ins2651 *room, size_t channels);

/* The same calls on a board and its channels. */
static inline uint16_t i3_in(interfacer3 *i3, uint8_t port) {
    return interfacer3_in(&i3->board, i3->channel, INTERFACER3_CHANNELS, port);
}
static inline uint16_t i3_out(interfacer3 *i3, uint8_t port, uint8_t value) {
    return interfacer3_out(&i3->board, i3->channel, INTERFACER3_CHANNELS, port, value);
}
static inline uint16_t i3_reset(interfacer3 *i3) {
    return interfacer3_reset(&i3->board, i3->channel, INTERFACER3_CHANNELS);
}
static inline uint16_t i3_pins(interfacer3 *i3, uint8_t channel, uint8_t dsr, uint8_t dcd, uint8_t cts) {
    return interfacer3_pins(&i3->board, i3->channel, INTERFACER3_CHANNELS, channel, dsr, dcd, cts);
}
static inline uint16_t i3_transmit(interfacer3 *i3, uint8_t channel) {
    return interfacer3_transmit(&i3->board, i3->channel, INTERFACER3_CHANNELS, channel);
}
static inline uint16_t i3_receive(interfacer3 *i3, uint8_t channel, uint8_t level) {
    return interfacer3_receive(&i3->board, i3->channel, INTERFACER3_CHANNELS, channel, level);
}
static inline uint16_t i3_outputs(interfacer3 *i3, uint8_t channel) {
    return interfacer3_outputs(&i3->board, i3->channel, INTERFACER3_CHANNELS, channel);
}
static inline uint32_t i3_interrupts(interfacer3 *i3) {
    return interfacer3_interrupts(&i3->board, i3->channel, INTERFACER3_CHANNELS);
}

#ifdef __cplusplus
}
#endif

#endif
