/* What include/interfacer3.h says, held to what the board does. Each failure is printed and makes the status 1. It is C11 and C++17. */
#include <stdio.h>
#include <string.h>

#include "interfacer3.h"
#include "interfacer3.h" /* it may be included twice */

#include "held.h"

enum { CHANNELS = INTERFACER3_CHANNELS };

/* Whether two boards are alike, and so are their channels but for one of them; any other number leaves out none. */
static int same_but(const interfacer3 *a, const interfacer3 *b, int channel) {
    for (int k = 0; k < CHANNELS; k++)
        if (k != channel && !same(&a->channel[k], &b->channel[k])) return 0;
    return memcmp(&a->board, &b->board, sizeof a->board) == 0;
}

static int same_boards(const interfacer3 *a, const interfacer3 *b) { return same_but(a, b, CHANNELS); }

/* An answer of 16 bits that is this refusal and no value. */
static int refuses(uint16_t answer, int refusal) { return INTERFACER3_REFUSAL(answer) == refusal && INTERFACER3_VALUE(answer) == 0; }

static void selects(interfacer3 *i3, int number, int channel) {
    holds(i3_out(i3, INTERFACER3_USER, INTERFACER3_SELECT(number, channel)) == INS2651_DONE, "a user select is taken");
}

/* Board 0, its channels set up alike with a tick a bit, their pins low. Their change-marks are read away, and user 0 is selected. */
static interfacer3 set_up(uint8_t command) {
    interfacer3 i3 = INTERFACER3_RESET(0);
    for (uint8_t k = 0; k < CHANNELS; k++) {
        selects(&i3, 0, k);
        i3_out(&i3, INTERFACER3_MODE, INS2651_MODE1(8, INS2651_PARITY_NONE, INS2651_STOP_1, 1));
        i3_out(&i3, INTERFACER3_COMMAND, command);
        i3_pins(&i3, k, 0, 0, 0);
        i3_in(&i3, INTERFACER3_STATUS);
    }
    selects(&i3, 0, 0);
    return i3;
}

/* == the beginnings == */

static void beginnings(void) {
    struct interfacer3 begun = INTERFACER3_RESET(2);
    struct interfacer3_board board = INTERFACER3_BOARD_RESET(2);
    interfacer3 i3;
    memset(&i3, 0xAA, sizeof i3);
    i3.board.number = 2;
    holds(!same_boards(&i3, &begun), "boards that are not alike");
    holds(i3_reset(&i3) == INS2651_DONE && same_boards(&i3, &begun), "INTERFACER3_RESET is what i3_reset makes, which leaves the number");
    holds(memcmp(&board, &begun.board, sizeof board) == 0, "INTERFACER3_BOARD_RESET is its board");
    holds(i3_interrupts(&i3) == 0 && begun.board.transmit_mask == 0 && begun.board.receive_mask == 0, "a reset inhibits every interrupt");
}

/* == the user select == */

enum { USER_18 = INTERFACER3_SELECT(2, 2) }; /* a constant */

/* Four boards on one bus, and one whose number is none: whoever is selected, one board answers, and by that channel. */
static void one_board_is_selected(void) {
    for (int user = 0; user < 32; user++)
        for (uint8_t number = 0; number <= 4; number++) {
            interfacer3 i3 = INTERFACER3_RESET(0);
            i3.board.number = number;
            i3.channel[user % 8].receiver.holding = 42;
            selects(&i3, user / 8, user % 8);
            uint16_t answer = i3_in(&i3, INTERFACER3_DATA);
            int right = user / 8 == number ? answer == 42 : refuses(answer, INTERFACER3_NOT_SELECTED);
            holds(right, "INTERFACER3_SELECT selects the channel of the board with that number, and of no other");
        }
}

static void user_select(void) {
    interfacer3 i3 = INTERFACER3_RESET(3);
    holds(USER_18 == 0x12 && INTERFACER3_SELECT(0, 5) == 5, "document 000's users 18 and 5");
    holds(sizeof(INTERFACER3_SELECT(0, 0)) == 1, "INTERFACER3_SELECT is a byte");
    holds(INTERFACER3_SELECT(4 + 2, 8 + 3) == INTERFACER3_SELECT(2, 3), "INTERFACER3_SELECT drops higher bits");
    for (int value = 0; value <= 255; value++) {
        holds(i3_out(&i3, INTERFACER3_USER, (uint8_t)value) == INS2651_DONE, "every board takes a user select");
        holds(i3.board.select == value % 32, "the field of the user select, without bits 7 to 5");
    }
    i3_reset(&i3);
    holds(i3.board.select == 0 && i3.board.number == 3, "a reset selects user 0 and leaves the number");
}

/* == the ports == */

static void ports_of_a_channel(void) {
    interfacer3 i3 = set_up(INS2651_COMMAND_TRANSMIT);
    selects(&i3, 0, 5);
    interfacer3 before = i3;
    ins2651 *chip = &i3.channel[5];
    holds(i3_out(&i3, INTERFACER3_DATA, 65) == INS2651_DONE && chip->sender.holding == 65, "INTERFACER3_DATA is written");
    holds(i3_out(&i3, INTERFACER3_STATUS, 7) == INS2651_DONE && chip->registers.syn1 == 7, "INTERFACER3_STATUS is written: SYN1");
    holds(i3_out(&i3, INTERFACER3_MODE, 126) == INS2651_DONE && chip->registers.mode2 == 126, "INTERFACER3_MODE is written: mode 2");
    holds(i3_out(&i3, INTERFACER3_COMMAND, 38) == INS2651_DONE && chip->registers.command == 38, "INTERFACER3_COMMAND is written");
    chip->receiver.holding = 255;
    holds(INTERFACER3_VALUE(i3_in(&i3, INTERFACER3_DATA)) == 255, "INTERFACER3_DATA is read");
    holds(i3_in(&i3, INTERFACER3_STATUS) == (INS2651_STATUS_DSR | INS2651_STATUS_DCD), "INTERFACER3_STATUS is read");
    holds(i3_in(&i3, INTERFACER3_COMMAND) == 38, "INTERFACER3_COMMAND is read");
    holds(i3_in(&i3, INTERFACER3_MODE) == 77 && i3_in(&i3, INTERFACER3_MODE) == 126, "INTERFACER3_MODE is read");
    holds(same_but(&i3, &before, 5), "the ports 0 to 3 change the selected channel alone");
}

/* == the interrupts == */

/* The channels of `may` may be written, and those of `hold` have a character unread. */
static interfacer3 waiting(int may, int hold) {
    interfacer3 i3 = set_up(0);
    for (uint8_t k = 0; k < CHANNELS; k++) {
        i3.channel[k].registers.command = may >> k & 1 ? INS2651_COMMAND_TRANSMIT : 0;
        i3.channel[k].receiver.unread = hold >> k & 1;
        i3.channel[k].status = meant(&i3.channel[k]);
    }
    return i3;
}

static void interrupt_status(void) {
    interfacer3 i3 = waiting(0x52, 0x8C); /* users 1, 4 and 6; users 2, 3 and 7 */
    for (uint8_t k = 0; k < CHANNELS; k++)
        i3_pins(&i3, k, 1, 1, 1); /* a change, which is no interrupt, and whose mark a read of its status would clear */
    interfacer3 before = i3;
    holds(i3_in(&i3, INTERFACER3_TRANSMIT_INTERRUPTS) == 0x52, "INTERFACER3_TRANSMIT_INTERRUPTS, with every interrupt masked");
    holds(i3_in(&i3, INTERFACER3_RECEIVE_INTERRUPTS) == 0x8C, "INTERFACER3_RECEIVE_INTERRUPTS, with every interrupt masked");
    holds(i3_interrupts(&i3) == 0, "no line is asserted with every interrupt masked");
    holds(same_boards(&i3, &before), "a look at the interrupts changes nothing");
}

/* One byte of a channel that may be written, and of one that holds a character, is out of range: the pointer to the modes. */
static void interrupts_out_of_range(void) {
    interfacer3 i3 = waiting(0x52, 0x8C);
    i3.board.transmit_mask = i3.board.receive_mask = 0xFF;
    holds(i3_interrupts(&i3) == 0x8C52, "every line that is pending is asserted with every interrupt enabled");
    i3.channel[4].registers.modes = 2;
    i3.channel[2].registers.modes = 2;
    interfacer3 before = i3;
    holds(i3_in(&i3, INTERFACER3_TRANSMIT_INTERRUPTS) == 0x42, "INTERFACER3_TRANSMIT_INTERRUPTS: out of range counts as just reset");
    holds(i3_in(&i3, INTERFACER3_RECEIVE_INTERRUPTS) == 0x88, "INTERFACER3_RECEIVE_INTERRUPTS: out of range counts as just reset");
    holds(i3_interrupts(&i3) == 0x8842, "i3_interrupts: out of range counts as just reset");
    holds(same_boards(&i3, &before), "a look at the interrupts leaves a channel out of range as it is");
}

/* The status byte of every channel is wrong in the bit of an interrupt: it says so where none is, and not where one is. */
static void interrupts_of_wrong_status_bytes(void) {
    for (int bit = 0; bit < 2; bit++) {
        interfacer3 i3 = waiting(0x52, 0x8C);
        i3.board.transmit_mask = i3.board.receive_mask = 0xFF;
        for (int k = 0; k < CHANNELS; k++) i3.channel[k].status = (uint8_t)(i3.channel[k].status ^ 1 << bit);
        interfacer3 before = i3;
        holds(i3_in(&i3, INTERFACER3_TRANSMIT_INTERRUPTS) == 0, "INTERFACER3_TRANSMIT_INTERRUPTS: a wrong status byte counts as just reset");
        holds(i3_in(&i3, INTERFACER3_RECEIVE_INTERRUPTS) == 0, "INTERFACER3_RECEIVE_INTERRUPTS: a wrong status byte counts as just reset");
        holds(i3_interrupts(&i3) == 0 && i3_outputs(&i3, 4) == 31, "lines and outputs: a wrong status byte counts as just reset");
        holds(refuses(i3_pins(&i3, 4, 0, 0, 2), INS2651_NO_SUCH_LEVEL), "refused pins of a channel with a wrong status byte");
        holds(same_boards(&i3, &before), "looks and refused calls leave wrong status bytes as they are");
        interfacer3 reset = INTERFACER3_RESET(0);
        holds(i3_in(&i3, INTERFACER3_STATUS) == 0 && same(&i3.channel[0], &reset.channel[0]), "a status read takes it as one just reset");
        holds(same_but(&i3, &before, 0), "and no other channel");
    }
}

/* The byte of the channel that a call is about is kept, and no other is touched. */
static void status_bytes_are_kept(void) {
    interfacer3 i3 = set_up(INS2651_COMMAND_TRANSMIT | INS2651_COMMAND_RECEIVE);
    selects(&i3, 0, 2);
    i3_out(&i3, INTERFACER3_DATA, 65);
    for (int tick = 0; tick < 40; tick++) {
        i3_receive(&i3, 2, (uint8_t)(tick % 7 != 1));
        i3_transmit(&i3, 2);
        if (tick % 11 == 10) i3_pins(&i3, 2, 1, (uint8_t)(tick / 11 % 2), 0);
        if (tick % 13 == 12) i3_in(&i3, INTERFACER3_STATUS);
        if (tick % 17 == 16) i3_in(&i3, INTERFACER3_DATA);
        for (int k = 0; k < CHANNELS; k++) holds(i3.channel[k].status == meant(&i3.channel[k]), "every call keeps the status bytes");
    }
    i3_out(&i3, INTERFACER3_COMMAND, 0);
    holds(i3.channel[2].status == meant(&i3.channel[2]), "a command keeps the status byte");
    i3_reset(&i3);
    for (int k = 0; k < CHANNELS; k++) holds(i3.channel[k].status == 0, "a reset keeps the status bytes");
}

static void masks(void) {
    static const uint8_t values[] = {0xFF, 0x52, 0x00, 0x8C, 0x10};
    interfacer3 i3 = waiting(0x52, 0x8C);
    for (int t = 0; t < 5; t++)
        for (int r = 0; r < 5; r++) {
            holds(i3_out(&i3, INTERFACER3_TRANSMIT_INTERRUPTS, values[t]) == INS2651_DONE, "the transmit mask is written");
            holds(i3_out(&i3, INTERFACER3_RECEIVE_INTERRUPTS, values[r]) == INS2651_DONE, "the receive mask is written");
            holds(i3.board.transmit_mask == values[t] && i3.board.receive_mask == values[r], "the fields of the masks");
            uint32_t answer = i3_interrupts(&i3);
            holds(INTERFACER3_TRANSMIT_LINES(answer) == (0x52 & values[t]), "INTERFACER3_TRANSMIT_LINES: a 1 in a mask enables");
            holds(INTERFACER3_RECEIVE_LINES(answer) == (0x8C & values[r]), "INTERFACER3_RECEIVE_LINES: a 1 in a mask enables");
            holds(INTERFACER3_LINES_REFUSAL(answer) == INS2651_DONE && answer < 65536, "INTERFACER3_LINES_REFUSAL of lines");
            holds(i3_in(&i3, INTERFACER3_TRANSMIT_INTERRUPTS) == 0x52, "the transmit status, whatever the mask says");
            holds(i3_in(&i3, INTERFACER3_RECEIVE_INTERRUPTS) == 0x8C, "the receive status, whatever the mask says");
        }
}

/* == pins, ticks and outputs of any channel, whatever is selected == */

static void ticks_of_any_channel(void) {
    interfacer3 i3 = set_up(INS2651_COMMAND_TRANSMIT | INS2651_COMMAND_RECEIVE);
    i3_receive(&i3, 6, 1); /* the mark */
    selects(&i3, 0, 2);
    i3_out(&i3, INTERFACER3_DATA, 65);
    selects(&i3, 3, 7); /* another board's */
    interfacer3 before = i3;
    for (int tick = 0; tick < 10; tick++) {
        uint16_t level = i3_transmit(&i3, 2);
        holds(level == ("0100000101"[tick] == '1'), "i3_transmit answers the level sent");
        holds(same_but(&i3, &before, 2), "i3_transmit changes its channel alone");
        before = i3;
        holds(i3_receive(&i3, 6, INTERFACER3_VALUE(level)) == INS2651_DONE, "a level that is received");
        holds(same_but(&i3, &before, 6), "i3_receive changes its channel alone");
        before = i3;
    }
    selects(&i3, 0, 6);
    holds(i3_in(&i3, INTERFACER3_RECEIVE_INTERRUPTS) == 0x40 && i3_in(&i3, INTERFACER3_DATA) == 65, "user 6 hears what user 2 sends");
}

static void pins_and_outputs(void) {
    interfacer3 i3 = INTERFACER3_RESET(0);
    interfacer3 before = i3;
    selects(&i3, 1, 0);
    before.board = i3.board;
    holds(i3_pins(&i3, 4, 0, 1, 1) == INS2651_DONE && i3.channel[4].pins.dsr == 0 && i3.channel[4].pins.dcd == 1, "i3_pins: DSR");
    holds(i3_pins(&i3, 4, 1, 0, 1) == INS2651_DONE && i3.channel[4].pins.dcd == 0 && i3.channel[4].pins.cts == 1, "i3_pins: DCD");
    holds(i3_pins(&i3, 4, 1, 1, 0) == INS2651_DONE && i3.channel[4].pins.cts == 0 && i3.channel[4].pins.dsr == 1, "i3_pins: CTS");
    holds(same_but(&i3, &before, 4), "i3_pins changes its channel alone");
    i3.channel[4].registers.command = INS2651_COMMAND_DTR; /* which has no bit in the status */
    before = i3;
    holds(i3_outputs(&i3, 4) == (INS2651_TXRDY | INS2651_RXRDY | INS2651_RTS), "i3_outputs: DTR low, and a change of the pins");
    holds(i3_outputs(&i3, 3) == 31 && same_boards(&i3, &before), "i3_outputs of another channel; it changes nothing");
}

/* == the refusals == */

/* Every call with this count of channels is refused before anything else is looked at. */
static void refuses_room(interfacer3_board *board, ins2651 *room, size_t channels) {
    for (int at = 0; at <= 255; at++) {
        uint8_t place = (uint8_t)at;
        int refused = refuses(interfacer3_in(board, room, channels, place), INTERFACER3_WRONG_ROOM)
            && refuses(interfacer3_out(board, room, channels, place, 64), INTERFACER3_WRONG_ROOM)
            && refuses(interfacer3_pins(board, room, channels, place, 2, 2, 2), INTERFACER3_WRONG_ROOM)
            && refuses(interfacer3_transmit(board, room, channels, place), INTERFACER3_WRONG_ROOM)
            && refuses(interfacer3_receive(board, room, channels, place, 2), INTERFACER3_WRONG_ROOM)
            && refuses(interfacer3_outputs(board, room, channels, place), INTERFACER3_WRONG_ROOM);
        holds(refused, "INTERFACER3_WRONG_ROOM comes before every other refusal");
    }
    holds(refuses(interfacer3_reset(board, room, channels), INTERFACER3_WRONG_ROOM), "INTERFACER3_WRONG_ROOM of a reset");
    uint32_t lines = interfacer3_interrupts(board, room, channels);
    holds(lines == (uint32_t)INTERFACER3_WRONG_ROOM << 16, "INTERFACER3_WRONG_ROOM of the interrupts");
}

/* Counts below eight, then nine, three whose low 8, 16 or 32 bits are eight, one whose count of bytes is that of eight in 64 bits, and the
 * largest. The room has eight channels, whatever is said of it, and none of them is to be touched. */
static void wrong_rooms(void) {
    static const size_t larger[] = {9, 0x108, 0x10008, 0x100000008, 0x4000000000000008, (size_t)-1};
    interfacer3 i3 = waiting(0xFF, 0xFF);
    i3.board.transmit_mask = i3.board.receive_mask = 0xFF;
    for (int number = 0; number < 2; number++) {
        selects(&i3, number, 3); /* this board, then another */
        interfacer3 before = i3;
        for (size_t channels = 0; channels < CHANNELS; channels++) refuses_room(&i3.board, i3.channel, channels);
        for (int k = 0; k < 6; k++) refuses_room(&i3.board, i3.channel, larger[k]);
        holds(same_boards(&i3, &before), "a wrong room: nothing moves");
    }
}

static void larger_rooms(void) {
    interfacer3_board board = INTERFACER3_BOARD_RESET(0);
    ins2651 room[9];
    memset(room, 0, sizeof room);
    holds(refuses(interfacer3_in(&board, room, 9, 0), INTERFACER3_WRONG_ROOM), "a room of nine");
    holds(refuses(interfacer3_out(&board, room, 9, INTERFACER3_USER, 3), INTERFACER3_WRONG_ROOM), "a user select in a room of nine");
    holds(refuses(interfacer3_reset(&board, room, 9), INTERFACER3_WRONG_ROOM), "a reset in a room of nine");
    holds(board.select == 0 && room[0].pins.dsr == 0 && room[8].pins.dsr == 0, "a room of nine: nothing moves");
    holds(interfacer3_reset(&board, room, 8) == INS2651_DONE && room[7].pins.dsr == 1 && room[8].pins.dsr == 0, "eight of nine are reset");
}

static void no_such_ports(void) {
    interfacer3 i3 = set_up(INS2651_COMMAND_TRANSMIT);
    selects(&i3, 1, 0); /* what is not there is told before what is not selected */
    interfacer3 before = i3;
    for (int at = 6; at <= 255; at++) {
        uint8_t place = (uint8_t)at;
        holds(refuses(i3_in(&i3, place), INTERFACER3_NO_SUCH_PORT), "INTERFACER3_NO_SUCH_PORT of a read");
        if (place == INTERFACER3_USER) continue;
        holds(refuses(i3_out(&i3, place, 64), INTERFACER3_NO_SUCH_PORT), "INTERFACER3_NO_SUCH_PORT of a write");
        if (place < CHANNELS) continue;
        int refused = refuses(i3_pins(&i3, place, 2, 2, 2), INTERFACER3_NO_SUCH_PORT)
            && refuses(i3_transmit(&i3, place), INTERFACER3_NO_SUCH_PORT)
            && refuses(i3_receive(&i3, place, 2), INTERFACER3_NO_SUCH_PORT)
            && refuses(i3_outputs(&i3, place), INTERFACER3_NO_SUCH_PORT);
        holds(refused, "INTERFACER3_NO_SUCH_PORT of a channel");
    }
    holds(same_boards(&i3, &before), "no such port: nothing moves");
}

static void not_selected(void) {
    interfacer3 i3 = set_up(INS2651_COMMAND_TRANSMIT);
    i3.board.number = 1; /* user 0 is selected */
    interfacer3 before = i3;
    for (uint8_t port = 0; port <= 5; port++) {
        holds(refuses(i3_in(&i3, port), INTERFACER3_NOT_SELECTED), "INTERFACER3_NOT_SELECTED of a read");
        holds(refuses(i3_out(&i3, port, 64), INTERFACER3_NOT_SELECTED), "INTERFACER3_NOT_SELECTED of a write");
    }
    holds(same_boards(&i3, &before), "not selected: nothing moves");
    i3.board.transmit_mask = 0x52;
    holds(i3_interrupts(&i3) == 0x52, "the interrupt lines of a board that is not selected");
}

static void refusals_of_a_channel(void) {
    interfacer3 i3 = INTERFACER3_RESET(0);
    interfacer3 before = i3;
    holds(refuses(i3_out(&i3, INTERFACER3_MODE, 1), INS2651_NO_STOP_LENGTH), "INS2651_NO_STOP_LENGTH");
    holds(refuses(i3_out(&i3, INTERFACER3_MODE, 64), INS2651_SYNCHRONOUS), "INS2651_SYNCHRONOUS");
    holds(refuses(i3_out(&i3, INTERFACER3_COMMAND, 64), INS2651_NOT_NORMAL_OPERATION), "INS2651_NOT_NORMAL_OPERATION");
    holds(refuses(i3_receive(&i3, 7, 2), INS2651_NO_SUCH_LEVEL), "INS2651_NO_SUCH_LEVEL of a tick");
    holds(refuses(i3_pins(&i3, 7, 1, 1, 2), INS2651_NO_SUCH_LEVEL), "INS2651_NO_SUCH_LEVEL of a pin");
    holds(same_boards(&i3, &before), "a channel's refusal: nothing moves");
}

int main(void) {
    beginnings();
    one_board_is_selected();
    user_select();
    ports_of_a_channel();
    interrupt_status();
    interrupts_out_of_range();
    interrupts_of_wrong_status_bytes();
    status_bytes_are_kept();
    masks();
    ticks_of_any_channel();
    pins_and_outputs();
    wrong_rooms();
    larger_rooms();
    no_such_ports();
    not_selected();
    refusals_of_a_channel();
    return failures != 0;
}
