/* Drives two boards from text, as driver.c drives one chip: a call on each line of standard input, its answer on a line of standard
 * output, when it is entered. Each board has a room of its own, with storage for nine devices.
 *
 *     use BOARD                        0                  the calls that follow are to board 0 or to board 1
 *     count CHANNELS                   0                  how many channels they lend from now on, 0 to 9, of this board
 *     board NUMBER SELECT TMASK RMASK  0                  sets the board's four fields
 *     fields                           NUMBER SELECT TMASK RMASK
 *     device PLACE HEX                 0                  the 64 bytes at a place 0 to 8 of the room are set, by exactly 128 digits 0-9, a-f
 *     bytes PLACE                      HEX                its 64 bytes, the padding as 00
 *     in PORT                          REFUSAL VALUE
 *     out PORT VALUE                   REFUSAL 0
 *     reset                            REFUSAL 0
 *     pins CHANNEL DSR DCD CTS         REFUSAL 0
 *     transmit CHANNEL                 REFUSAL LEVEL      the level sent
 *     receive CHANNEL LEVEL            REFUSAL 0
 *     outputs CHANNEL                  REFUSAL TXRDY RXRDY TXEMT DTR RTS
 *     interrupts                       REFUSAL RECEIVE TRANSMIT
 *
 * Every bit of an answer is shown, so that a wrong one is seen: each 0 above is the value answered, the refusal of the interrupts has all
 * bits from 16 on, and a further number follows RTS where a bit above those of the outputs is set.
 *
 * Numbers are decimal, 0 to 255. Both boards begin as just reset, board 0 with the number 0 and board 1 with the number 1, lent with eight
 * channels, and board 0 is used. A line of another form, or of more than 150 bytes, ends the program with status 2, and so do an input that
 * cannot be read and an answer that cannot be written. */
#include "interfacer3.h"
#include "lines.h"

enum { BOARDS = 2, PLACES = 9 }; /* a place more than a board has */

typedef struct {
    interfacer3_board board;
    ins2651 room[PLACES];
    size_t channels;
} unit;

static unit units[BOARDS];
static unit *used = &units[0];

static void print_refusal_and_outputs(unsigned answer) {
    printf("%u ", INTERFACER3_REFUSAL(answer));
    print_outputs(INTERFACER3_VALUE(answer));
}

/* INTERFACER3_LINES_REFUSAL would leave out bits 24 to 31. */
static void print_lines(uint32_t answer) {
    printf("%u %u %u\n", (unsigned)(answer >> 16), INTERFACER3_RECEIVE_LINES(answer), INTERFACER3_TRANSMIT_LINES(answer));
}

static void print_fields(const interfacer3_board *board) {
    printf("%d %d %d %d\n", board->number, board->select, board->transmit_mask, board->receive_mask);
}

/* A line that sets what the calls are made on; 0 where it is none. */
static int sets(const char *line) {
    uint8_t n[4];
    if (is(line, "use", 1, n) && n[0] < BOARDS) used = &units[n[0]];
    else if (is(line, "count", 1, n) && n[0] <= PLACES) used->channels = n[0];
    else if (is(line, "board", 4, n)) used->board = (interfacer3_board){n[0], n[1], n[2], n[3]};
    else {
        const char *rest = behind(line, "device", 1, n);
        return rest && n[0] < PLACES && set_bytes(rest, &used->room[n[0]]);
    }
    return 1;
}

/* One line; 0 where it is no call. */
static int does(const char *line) {
    interfacer3_board *board = &used->board;
    ins2651 *room = used->room;
    size_t channels = used->channels;
    uint8_t n[4];
    if (is(line, "transmit", 1, n)) print_refusal_and_value(interfacer3_transmit(board, room, channels, n[0]));
    else if (is(line, "receive", 2, n)) print_refusal_and_value(interfacer3_receive(board, room, channels, n[0], n[1]));
    else if (is(line, "in", 1, n)) print_refusal_and_value(interfacer3_in(board, room, channels, n[0]));
    else if (is(line, "out", 2, n)) print_refusal_and_value(interfacer3_out(board, room, channels, n[0], n[1]));
    else if (is(line, "pins", 4, n)) print_refusal_and_value(interfacer3_pins(board, room, channels, n[0], n[1], n[2], n[3]));
    else if (is(line, "outputs", 1, n)) print_refusal_and_outputs(interfacer3_outputs(board, room, channels, n[0]));
    else if (is(line, "interrupts", 0, n)) print_lines(interfacer3_interrupts(board, room, channels));
    else if (is(line, "reset", 0, n)) print_refusal_and_value(interfacer3_reset(board, room, channels));
    else if (is(line, "fields", 0, n)) print_fields(board);
    else if (is(line, "bytes", 1, n) && n[0] < PLACES) print_bytes(&room[n[0]]);
    else if (sets(line)) printf("0\n");
    else return 0;
    return 1;
}

int main(void) {
    for (uint8_t i = 0; i < BOARDS; i++) {
        units[i].board = (interfacer3_board)INTERFACER3_BOARD_RESET(i);
        for (int place = 0; place < PLACES; place++) units[i].room[place] = (ins2651)INS2651_RESET;
        units[i].channels = INTERFACER3_CHANNELS;
    }
    return drive("board_driver", does);
}
