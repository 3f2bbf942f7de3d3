/* What include/ins2651.h says, held to what the chip does. Each failure is printed and makes the status 1. It is C11 and C++17. */
#include <stdio.h>
#include <string.h>

#include "ins2651.h"
#include "ins2651.h" /* it may be included twice */

#include "held.h"

static int status(ins2651 *chip) { return INS2651_VALUE(ins2651_read(chip, INS2651_STATUS)); }

/* A device with this mode 1 and command, and its pins low. Its change-mark is read away. */
static ins2651 set_up(uint8_t mode1, uint8_t command) {
    ins2651 chip = INS2651_RESET;
    ins2651_write(&chip, INS2651_MODE, mode1);
    ins2651_write(&chip, INS2651_COMMAND, command);
    ins2651_pins(&chip, 0, 0, 0);
    status(&chip);
    return chip;
}

/* A receive tick for each digit. */
static void hears(ins2651 *chip, const char *levels) {
    for (; *levels; levels++) ins2651_receive(chip, *levels == '1');
}

/* == mode 1 == */

static const int lengths[] = {5, 6, 7, 8};
static const int parities[] = {INS2651_PARITY_NONE, INS2651_PARITY_ODD, INS2651_PARITY_EVEN};
static const int stops[] = {INS2651_STOP_1, INS2651_STOP_1_HALF, INS2651_STOP_2};
static const int factors[] = {1, 16, 64};

enum { WORKED = INS2651_MODE1(8, INS2651_PARITY_NONE, INS2651_STOP_2, 16) }; /* a constant */

static int stop_ticks(int stop, int factor) {
    if (stop == INS2651_STOP_1) return factor;
    return stop == INS2651_STOP_1_HALF ? 3 * factor / 2 : 2 * factor;
}

/* Whether the chip takes the byte, reads it back, and begins a frame with these parts. */
static int is_read_as_made(int length, int parity, int stop, int factor) {
    uint8_t mode1 = INS2651_MODE1(length, parity, stop, factor);
    ins2651 chip = INS2651_RESET;
    if (ins2651_write(&chip, INS2651_MODE, mode1) != INS2651_DONE) return 0;
    chip = set_up(mode1, INS2651_COMMAND_TRANSMIT);
    ins2651_write(&chip, INS2651_DATA, 0);
    ins2651_transmit(&chip);
    ins2651_read(&chip, INS2651_COMMAND); /* puts the mode pointer back to mode 1 */
    const ins2651_format *format = &chip.sender.frame.format;
    return ins2651_read(&chip, INS2651_MODE) == mode1 && format->length == length && format->factor == factor
        && format->parity == (parity != INS2651_PARITY_NONE) && format->even == (parity == INS2651_PARITY_EVEN)
        && format->stop == stop_ticks(stop, factor);
}

static void mode1_is_the_chips(void) {
    for (int l = 0; l < 4; l++)
        for (int p = 0; p < 3; p++)
            for (int s = 0; s < 3; s++)
                for (int f = 0; f < 3; f++)
                    if (!is_read_as_made(lengths[l], parities[p], stops[s], factors[f])) {
                        printf("header: INS2651_MODE1(%d, %d, %d, %d)\n", lengths[l], parities[p], stops[s], factors[f]);
                        failures++;
                    }
    holds(WORKED == 206, "document 01's 206");
    holds(sizeof(INS2651_MODE1(8, INS2651_PARITY_NONE, INS2651_STOP_2, 16)) == 1, "INS2651_MODE1 is a byte");
}

static int is_one_of(int value, const int *all, int count) {
    for (int i = 0; i < count; i++)
        if (all[i] == value) return 1;
    return 0;
}

/* A byte is refused exactly where its part was none. */
static void refused_where(int wrong, uint8_t mode1, const char *part, int value) {
    ins2651 chip = INS2651_RESET;
    if (ins2651_write(&chip, INS2651_MODE, mode1) == (wrong ? INS2651_SYNCHRONOUS : INS2651_DONE)) return;
    printf("header: INS2651_MODE1 with the %s %d\n", part, value);
    failures++;
}

static void other_parts_are_refused(void) {
    for (int v = -300; v <= 300; v++) {
        refused_where(!is_one_of(v, lengths, 4), INS2651_MODE1(v, INS2651_PARITY_ODD, INS2651_STOP_1, 16), "length", v);
        refused_where(!is_one_of(v, parities, 3), INS2651_MODE1(8, v, INS2651_STOP_1, 16), "parity", v);
        refused_where(!is_one_of(v, stops, 3), INS2651_MODE1(8, INS2651_PARITY_ODD, v, 16), "stop length", v);
        refused_where(!is_one_of(v, factors, 3), INS2651_MODE1(8, INS2651_PARITY_ODD, INS2651_STOP_1, v), "factor", v);
    }
}

/* == the other names == */

static void mode2_names(void) {
    uint8_t mode1 = INS2651_MODE1(8, INS2651_PARITY_NONE, INS2651_STOP_1, 64);
    ins2651 chip = set_up(mode1, INS2651_COMMAND_TRANSMIT | INS2651_COMMAND_RECEIVE);
    ins2651 other = chip;
    ins2651_write(&chip, INS2651_MODE, INS2651_MODE2_TRANSMIT_INTERNAL | 14);
    ins2651_write(&other, INS2651_MODE, INS2651_MODE2_RECEIVE_INTERNAL);
    ins2651_write(&chip, INS2651_DATA, 0);
    ins2651_write(&other, INS2651_DATA, 0);
    ins2651_transmit(&chip);
    ins2651_transmit(&other);
    hears(&chip, "10");
    hears(&other, "10");
    holds(chip.sender.frame.format.factor == 16 && chip.receiver.format.factor == 64, "INS2651_MODE2_TRANSMIT_INTERNAL");
    holds(other.sender.frame.format.factor == 64 && other.receiver.format.factor == 16, "INS2651_MODE2_RECEIVE_INTERNAL");
    ins2651_read(&chip, INS2651_MODE);
    holds((ins2651_read(&chip, INS2651_MODE) & INS2651_MODE2_RATE) == 14, "INS2651_MODE2_RATE");
}

static void status_of_the_sender(void) {
    ins2651 chip = set_up(INS2651_MODE1(5, INS2651_PARITY_NONE, INS2651_STOP_1, 1), INS2651_COMMAND_TRANSMIT);
    int pins = INS2651_STATUS_DSR | INS2651_STATUS_DCD;
    holds(status(&chip) == (pins | INS2651_STATUS_TXRDY), "INS2651_STATUS_TXRDY of a sender that may be written");
    holds(!(ins2651_outputs(&chip) & INS2651_TXRDY), "the output INS2651_TXRDY is low where the status bit is 1");
    ins2651_write(&chip, INS2651_DATA, 0);
    holds(status(&chip) == pins, "INS2651_STATUS_TXRDY of a sender that is full");
    for (int tick = 0; tick < 7; tick++) ins2651_transmit(&chip);
    holds(status(&chip) == (pins | INS2651_STATUS_TXRDY | INS2651_STATUS_TXEMT), "INS2651_STATUS_TXEMT of a sender that ran empty");
    holds(!(ins2651_outputs(&chip) & INS2651_TXEMT), "the output INS2651_TXEMT is low where the status bit is 1");
}

static void status_of_the_pins(void) {
    ins2651 chip = INS2651_RESET;
    ins2651_pins(&chip, 0, 1, 1);
    holds(chip.pins.dsr == 0 && chip.pins.dcd == 1 && chip.pins.cts == 1 && chip.flags.change == 1, "the fields of a low DSR");
    holds(status(&chip) == (INS2651_STATUS_DSR | INS2651_STATUS_TXEMT), "INS2651_STATUS_DSR, and its change");
    ins2651_pins(&chip, 1, 0, 1);
    holds(chip.pins.dsr == 1 && chip.pins.dcd == 0 && chip.pins.cts == 1, "the fields of a low DCD");
    holds(status(&chip) == (INS2651_STATUS_DCD | INS2651_STATUS_TXEMT), "INS2651_STATUS_DCD, and its change");
    holds(status(&chip) == INS2651_STATUS_DCD, "a status read clears the change");
}

/* A chip with all three error flags, which receives five bits with odd parity, and the status that it shows. */
static void receive_off_and_on(ins2651 chip, int seen) {
    ins2651_write(&chip, INS2651_COMMAND, INS2651_COMMAND_RECEIVE | INS2651_COMMAND_DTR);
    holds(status(&chip) == seen, "a command with INS2651_COMMAND_RECEIVE leaves the error flags");
    ins2651_write(&chip, INS2651_COMMAND, INS2651_COMMAND_DTR);
    holds(status(&chip) == (INS2651_STATUS_DSR | INS2651_STATUS_DCD), "one without it clears them, and INS2651_STATUS_RXRDY");
    /* no call brings a flag while receive is off; a device in range may have one, with the status byte that goes with it */
    chip.flags.framing = chip.flags.overrun = chip.flags.parity = 1;
    chip.status = meant(&chip);
    hears(&chip, "101");
    holds(chip.flags.framing == 1 && chip.flags.overrun == 1 && chip.flags.parity == 1, "ticks without it leave the error flags");
    ins2651_write(&chip, INS2651_COMMAND, INS2651_COMMAND_DTR);
    holds(status(&chip) == (INS2651_STATUS_DSR | INS2651_STATUS_DCD), "one without it clears them also where receive was off");
    ins2651_write(&chip, INS2651_COMMAND, INS2651_COMMAND_RECEIVE | INS2651_COMMAND_DTR);
    hears(&chip, "1" "01000001");
    holds(status(&chip) == (INS2651_STATUS_DSR | INS2651_STATUS_DCD | INS2651_STATUS_RXRDY), "a good character after that has no flag");
}

/* Five bits, odd parity, a tick a bit: the mark, then 0, five data bits, the parity, the stop. */
static void status_of_the_receiver(void) {
    ins2651 chip = set_up(INS2651_MODE1(5, INS2651_PARITY_ODD, INS2651_STOP_1, 1), INS2651_COMMAND_RECEIVE);
    int seen = INS2651_STATUS_DSR | INS2651_STATUS_DCD | INS2651_STATUS_RXRDY;
    hears(&chip, "1" "01000001");
    holds(status(&chip) == seen, "INS2651_STATUS_RXRDY of a good character");
    holds(!(ins2651_outputs(&chip) & INS2651_RXRDY), "the output INS2651_RXRDY is low where the status bit is 1");
    hears(&chip, "01000001");
    holds(status(&chip) == (seen |= INS2651_STATUS_OVERRUN), "INS2651_STATUS_OVERRUN of a second one");
    holds(chip.flags.overrun == 1 && chip.flags.parity == 0 && chip.flags.framing == 0, "the field of an overrun");
    hears(&chip, "01000011");
    holds(status(&chip) == (seen |= INS2651_STATUS_PARITY), "INS2651_STATUS_PARITY of a wrong parity");
    holds(chip.flags.parity == 1 && chip.flags.framing == 0, "the field of a wrong parity");
    hears(&chip, "01000000");
    holds(status(&chip) == (seen |= INS2651_STATUS_FRAMING), "INS2651_STATUS_FRAMING of a stop of 0");
    receive_off_and_on(chip, seen);
    ins2651_write(&chip, INS2651_COMMAND, INS2651_COMMAND_RECEIVE | INS2651_COMMAND_RESET_ERROR);
    holds(status(&chip) == (INS2651_STATUS_DSR | INS2651_STATUS_DCD | INS2651_STATUS_RXRDY), "INS2651_COMMAND_RESET_ERROR");
    holds(ins2651_read(&chip, INS2651_COMMAND) == INS2651_COMMAND_RECEIVE, "INS2651_COMMAND_RESET_ERROR reads back as 0");
    holds(INS2651_VALUE(ins2651_read(&chip, INS2651_DATA)) == 1, "the character received");
}

static void command_names(void) {
    ins2651 chip = set_up(INS2651_MODE1(8, INS2651_PARITY_NONE, INS2651_STOP_1, 1), 0);
    hears(&chip, "1" "0000000001");
    holds(!(status(&chip) & INS2651_STATUS_RXRDY), "nothing is heard without INS2651_COMMAND_RECEIVE");
    holds((ins2651_outputs(&chip) & (INS2651_DTR | INS2651_RTS)) == (INS2651_DTR | INS2651_RTS), "DTR and RTS of no command");
    ins2651_write(&chip, INS2651_COMMAND, INS2651_COMMAND_DTR);
    holds((ins2651_outputs(&chip) & (INS2651_DTR | INS2651_RTS)) == INS2651_RTS, "INS2651_COMMAND_DTR");
    ins2651_write(&chip, INS2651_COMMAND, INS2651_COMMAND_RTS);
    holds((ins2651_outputs(&chip) & (INS2651_DTR | INS2651_RTS)) == INS2651_DTR, "INS2651_COMMAND_RTS");
    holds(ins2651_transmit(&chip) == 1, "a line at mark");
    ins2651_write(&chip, INS2651_COMMAND, INS2651_COMMAND_TRANSMIT | INS2651_COMMAND_BREAK);
    holds(ins2651_transmit(&chip) == 0, "INS2651_COMMAND_BREAK");
}

/* Whether the bits make up all, none of them twice: with what is tested above, each name is its bit and no other. */
static int make_up(int all, const int *bits, int count) {
    int sum = 0, joined = 0;
    for (int i = 0; i < count; i++) {
        sum += bits[i];
        joined |= bits[i];
    }
    return sum == all && joined == all;
}

static void no_bit_has_two_names(void) {
    const int commands[] = {INS2651_COMMAND_TRANSMIT, INS2651_COMMAND_DTR, INS2651_COMMAND_RECEIVE, INS2651_COMMAND_BREAK,
                            INS2651_COMMAND_RESET_ERROR, INS2651_COMMAND_RTS};
    const int outputs[] = {INS2651_TXRDY, INS2651_RXRDY, INS2651_TXEMT, INS2651_DTR, INS2651_RTS};
    const int mode2[] = {INS2651_MODE2_RATE, INS2651_MODE2_RECEIVE_INTERNAL, INS2651_MODE2_TRANSMIT_INTERNAL};
    holds(make_up(63, commands, 6), "the command bits");
    holds(make_up(31, outputs, 5), "the outputs");
    holds(make_up(63, mode2, 3), "the parts of mode 2");
}

static void refusal_names(void) {
    ins2651 chip = INS2651_RESET;
    uint16_t answer = ins2651_read(&chip, 4);
    holds(INS2651_REFUSAL(answer) == INS2651_NO_SUCH_ADDRESS && INS2651_VALUE(answer) == 0, "INS2651_NO_SUCH_ADDRESS");
    holds(ins2651_receive(&chip, 2) == INS2651_NO_SUCH_LEVEL, "INS2651_NO_SUCH_LEVEL");
    holds(ins2651_write(&chip, INS2651_MODE, 1) == INS2651_NO_STOP_LENGTH, "INS2651_NO_STOP_LENGTH");
    holds(ins2651_write(&chip, INS2651_MODE, INS2651_STOP_1) == INS2651_SYNCHRONOUS, "INS2651_SYNCHRONOUS");
    holds(ins2651_write(&chip, INS2651_COMMAND, 64) == INS2651_NOT_NORMAL_OPERATION, "INS2651_NOT_NORMAL_OPERATION");
}

/* == a device's bytes == */

static void beginnings(void) {
    static struct ins2651 zeroed;
    ins2651 begun = INS2651_RESET;
    ins2651 chip;
    memset(&chip, 0xAA, sizeof chip);
    holds(!same(&chip, &begun) && !same(&zeroed, &begun), "devices that are not alike");
    holds(status(&chip) == 0 && same(&chip, &begun), "a device out of range is taken as one just reset");
    memset(&chip, 0xAA, sizeof chip);
    holds(ins2651_reset(&chip) == INS2651_DONE && same(&chip, &begun), "INS2651_RESET is what ins2651_reset makes");
    holds(begun.status == 0 && ins2651_in_range(&begun) == 1, "INS2651_RESET is in range, with the status byte 0");
    holds(ins2651_in_range(&zeroed) == 0, "a device of zeros is out of range: its pins are low, and its status byte is 0");
    zeroed.status = meant(&zeroed);
    holds(zeroed.status == 192 && ins2651_in_range(&zeroed) == 1, "a device of zeros with the status byte 192 is in range");
    holds(status(&zeroed) == (INS2651_STATUS_DSR | INS2651_STATUS_DCD), "its pins are low");
    memset(&zeroed, 0, sizeof zeroed);
    holds(status(&zeroed) == 0 && same(&zeroed, &begun), "a device of zeros is taken as one just reset");
}

/* == both ticks in one call, and the looks == */

/* Five bits, odd parity, a tick a bit; it has heard its mark, and has a character to send. */
static ins2651 about_to_send(uint8_t character) {
    ins2651 chip = set_up(INS2651_MODE1(5, INS2651_PARITY_ODD, INS2651_STOP_1, 1), INS2651_COMMAND_TRANSMIT | INS2651_COMMAND_RECEIVE);
    hears(&chip, "1");
    ins2651_write(&chip, INS2651_DATA, character);
    return chip;
}

static void tick_is_both_ticks(void) {
    ins2651 chip = about_to_send(21);
    ins2651 other = chip;
    for (const char *level = "01000001" "01000000" "111"; *level; level++) {
        holds(ins2651_receive(&other, *level == '1') == INS2651_DONE, "a level that is received");
        uint16_t sent = ins2651_transmit(&other);
        uint16_t answer = ins2651_tick(&chip, *level == '1');
        holds(INS2651_REFUSAL(answer) == INS2651_DONE && INS2651_VALUE(answer) == sent, "ins2651_tick answers the level sent");
        holds(same(&chip, &other), "ins2651_tick is ins2651_receive, then ins2651_transmit");
    }
    holds(chip.flags.framing == 1 && chip.flags.overrun == 1, "ins2651_tick hears");
}

static void refused_ticks(void) {
    ins2651 chip = about_to_send(21);
    ins2651 wrong;
    memset(&wrong, 0xAA, sizeof wrong);
    ins2651 before = chip, given = wrong;
    for (int level = 2; level <= 255; level++) {
        uint16_t answer = ins2651_tick(&chip, (uint8_t)level);
        holds(INS2651_REFUSAL(answer) == INS2651_NO_SUCH_LEVEL && INS2651_VALUE(answer) == 0, "what a refused ins2651_tick answers");
        holds(ins2651_tick(&wrong, (uint8_t)level) == answer, "what it answers for a device out of range");
    }
    holds(same(&chip, &before) && same(&wrong, &given), "a refused ins2651_tick does neither tick");
}

/* After one transmit tick of each, n rounds with each other's levels are n joined ticks and one more transmit tick of each. */
static void rounds_are_joined_ticks(void) {
    ins2651 a = about_to_send(21), b = about_to_send(10), c = a, d = b;
    uint16_t from_a = ins2651_transmit(&a), from_b = ins2651_transmit(&b);
    for (int n = 0; n <= 40; n++) {
        ins2651 e = c, f = d;
        holds(ins2651_transmit(&e) == from_a && ins2651_transmit(&f) == from_b, "the levels after rounds of ins2651_tick");
        holds(same(&a, &e) && same(&b, &f), "rounds of ins2651_tick are joined ticks");
        uint16_t next = ins2651_tick(&a, (uint8_t)from_b);
        from_b = ins2651_tick(&b, (uint8_t)from_a);
        from_a = next;
        joined_tick(&c, &d);
    }
    holds(INS2651_VALUE(ins2651_read(&a, INS2651_DATA)) == 10 && INS2651_VALUE(ins2651_read(&b, INS2651_DATA)) == 21, "both characters");
}

static void looks(void) {
    ins2651 chip = INS2651_RESET;
    ins2651_pins(&chip, 0, 1, 1);
    ins2651 before = chip;
    int seen = INS2651_STATUS_DSR | INS2651_STATUS_TXEMT;
    holds(ins2651_peek(&chip) == seen && ins2651_peek(&chip) == seen, "ins2651_peek answers the status");
    holds(ins2651_in_range(&chip) == 1 && same(&chip, &before), "ins2651_peek and ins2651_in_range leave the device, its change too");
    holds(status(&chip) == seen && ins2651_peek(&chip) == INS2651_STATUS_DSR, "a status read clears the change, and ins2651_peek shows it");
    memset(&chip, 0xAA, sizeof chip);
    before = chip;
    holds(ins2651_peek(&chip) == 0 && ins2651_in_range(&chip) == 0, "the looks at a device out of range");
    holds(same(&chip, &before), "the looks leave a device out of range as it is");
    memset(&chip, 0, sizeof chip);
    before = chip;
    holds(ins2651_peek(&chip) == 0 && ins2651_in_range(&chip) == 0 && same(&chip, &before), "the looks at a device of zeros");
}

/* == the status byte == */

/* A device that sends and hears, has all three error flags, both marks, an unread character and a waiting one. */
static ins2651 busy(void) {
    ins2651 chip = about_to_send(21);
    for (const char *level = "01000001" "01000011" "01000000"; *level; level++) ins2651_tick(&chip, *level == '1');
    ins2651_write(&chip, INS2651_DATA, 10);
    ins2651_pins(&chip, 1, 0, 0);
    return chip;
}

/* Each call on a copy: the byte that it leaves is what the fields mean, and a status read answers the one from before. */
static void byte_is_kept(const ins2651 *chip) {
    for (int which = 0; which < 12; which++) {
        ins2651 after = *chip;
        switch (which) {
        case 0: ins2651_reset(&after); break;
        case 1: ins2651_read(&after, INS2651_DATA); break;
        case 2: holds(ins2651_read(&after, INS2651_STATUS) == chip->status, "a status read answers the byte from before"); break;
        case 3: ins2651_write(&after, INS2651_DATA, 1); break;
        case 4: ins2651_write(&after, INS2651_COMMAND, INS2651_COMMAND_TRANSMIT); break;
        case 5: ins2651_write(&after, INS2651_COMMAND, INS2651_COMMAND_RECEIVE); break;
        case 6: ins2651_pins(&after, 0, 1, 0); break;
        case 7: ins2651_pins(&after, 1, 0, 0); break;
        case 8: ins2651_transmit(&after); break;
        case 9: ins2651_receive(&after, 0); break;
        case 10: ins2651_tick(&after, 1); break;
        default: ins2651_read(&after, 4); holds(after.status == chip->status, "a refused call leaves the status byte");
        }
        holds(after.status == meant(&after) && ins2651_in_range(&after) == 1, "every call keeps the status byte");
        holds(ins2651_peek(&after) == after.status, "ins2651_peek answers the status byte");
    }
}

static void status_byte_is_kept(void) {
    ins2651 chip = about_to_send(21);
    byte_is_kept(&chip);
    for (const char *level = "01000001" "01000011" "01000000" "111"; *level; level++) {
        ins2651_tick(&chip, *level == '1');
        byte_is_kept(&chip);
    }
    chip = busy();
    holds(chip.status == (INS2651_STATUS_DCD | INS2651_STATUS_FRAMING | INS2651_STATUS_OVERRUN | INS2651_STATUS_PARITY
        | INS2651_STATUS_TXEMT | INS2651_STATUS_RXRDY), "the status byte of a device with all of its flags");
    byte_is_kept(&chip);
}

/* A device in range but for one bit of its status byte. */
static void wrong_in_one_bit(const ins2651 *chip, int bit) {
    const ins2651 begun = INS2651_RESET;
    ins2651 given = *chip;
    given.status = (uint8_t)(given.status ^ 1 << bit);
    ins2651 after = given;
    holds(ins2651_in_range(&after) == 0 && ins2651_peek(&after) == 0, "a wrong bit in the status byte: out of range, the status is 0");
    holds(ins2651_outputs(&after) == 31 && ins2651_transmit_tally(&after).ticks == 0, "a wrong bit in the status byte: the other looks");
    holds(INS2651_REFUSAL(ins2651_read(&after, 4)) == INS2651_NO_SUCH_ADDRESS, "a refused read of such a device");
    holds(ins2651_write(&after, INS2651_COMMAND, 64) == INS2651_NOT_NORMAL_OPERATION, "a refused write of such a device");
    holds(ins2651_write(&after, INS2651_MODE, 1) == INS2651_NO_STOP_LENGTH, "a refused mode of such a device");
    holds(ins2651_pins(&after, 0, 0, 2) == INS2651_NO_SUCH_LEVEL, "refused pins of such a device");
    holds(ins2651_receive(&after, 2) == INS2651_NO_SUCH_LEVEL, "a refused receive tick of such a device");
    holds(INS2651_REFUSAL(ins2651_tick(&after, 2)) == INS2651_NO_SUCH_LEVEL, "a refused tick of such a device");
    holds(same(&after, &given), "looks and refused calls hand such a device back as given");
    holds(ins2651_read(&after, INS2651_STATUS) == 0 && same(&after, &begun), "a status read takes it as one just reset");
    after = given;
    ins2651 reset = begun;
    holds(ins2651_tick(&after, 0) == ins2651_tick(&reset, 0) && same(&after, &reset), "a tick takes it as one just reset");
    after = given;
    reset = begun;
    ins2651_pins(&after, 0, 0, 0);
    ins2651_pins(&reset, 0, 0, 0);
    holds(same(&after, &reset) && after.status == meant(&after), "pins take it as one just reset");
}

static void wrong_status_bytes(void) {
    const ins2651 begun = INS2651_RESET, chip = busy();
    for (int bit = 0; bit < 8; bit++) {
        wrong_in_one_bit(&begun, bit);
        wrong_in_one_bit(&chip, bit);
    }
    ins2651 behind = chip;
    behind.receiver.unread = 0; /* the status byte stays behind the field */
    holds(ins2651_in_range(&behind) == 0, "a field that the status byte does not follow");
    behind.status = meant(&behind);
    holds(ins2651_in_range(&behind) == 1, "a field that the status byte follows");
}

/* == the tallies and the stamps == */

/* The clock whose ticks a value counts: its type tells, so that neither is handed over as the other. */
enum { TXC = 1, RXC = 2 };
#ifdef __cplusplus
static int clock_of(ins2651_txc) { return TXC; }
static int clock_of(ins2651_rxc) { return RXC; }
#else
static int transmit_clock(ins2651_txc tally) { return (void)tally, TXC; }
static int receive_clock(ins2651_rxc tally) { return (void)tally, RXC; }
#define clock_of(tally) _Generic((tally), ins2651_txc: transmit_clock, ins2651_rxc: receive_clock)(tally)
#endif

static void clocks_are_two_types(void) {
    ins2651 chip = INS2651_RESET;
    holds(clock_of(ins2651_stamp(&chip)) == RXC && clock_of(ins2651_receive_tally(&chip)) == RXC, "ins2651_rxc is the receive clock's");
    holds(clock_of(ins2651_start(&chip)) == TXC && clock_of(ins2651_transmit_tally(&chip)) == TXC, "ins2651_txc is the transmit clock's");
    holds(clock_of(chip.receiver.stamp) == RXC && clock_of(chip.receiver.tally) == RXC, "the receiver's fields are of its clock");
    holds(clock_of(chip.sender.start) == TXC && clock_of(chip.sender.tally) == TXC, "the sender's fields are of its clock");
}

/* Whether the four looks answer these numbers, and leave the device. */
static int looks_are(ins2651 *chip, uint32_t stamp, uint32_t start, uint32_t transmits, uint32_t receives) {
    ins2651 before = *chip;
    return ins2651_stamp(chip).ticks == stamp && ins2651_start(chip).ticks == start && ins2651_transmit_tally(chip).ticks == transmits
        && ins2651_receive_tally(chip).ticks == receives && same(chip, &before);
}

static void ticks_are_counted(void) {
    ins2651 chip = INS2651_RESET;
    holds(looks_are(&chip, 0, 0, 0, 0), "the tallies and stamps of a device just reset");
    ins2651_transmit(&chip);
    hears(&chip, "101");
    holds(looks_are(&chip, 0, 0, 1, 3), "ticks count though no mode is set");
    ins2651_receive(&chip, 2);
    ins2651_tick(&chip, 255);
    holds(looks_are(&chip, 0, 0, 1, 3), "a refused tick counts nothing");
    ins2651_tick(&chip, 1);
    holds(looks_are(&chip, 0, 0, 2, 4), "ins2651_tick counts in both tallies");
    chip.sender.tally.ticks = chip.receiver.tally.ticks = UINT32_MAX;
    ins2651_tick(&chip, 1);
    holds(looks_are(&chip, 0, 0, 0, 0), "both tallies wrap");
    ins2651_tick(&chip, 1);
    ins2651_reset(&chip);
    holds(looks_are(&chip, 0, 0, 0, 0), "a reset puts the tallies to 0");
}

/* Five bits, odd parity, a tick a bit: a character has eight samples. */
static void characters_are_stamped(void) {
    ins2651 chip = set_up(INS2651_MODE1(5, INS2651_PARITY_ODD, INS2651_STOP_1, 1), INS2651_COMMAND_RECEIVE);
    hears(&chip, "1" "0100000");
    holds(looks_are(&chip, 0, 0, 0, 8), "no stamp before the stop sample");
    hears(&chip, "1" "11");
    holds(looks_are(&chip, 9, 0, 0, 11), "ins2651_stamp is the tally after the stop sample's tick");
    ins2651_read(&chip, INS2651_DATA);
    ins2651_read(&chip, INS2651_DATA);
    holds(looks_are(&chip, 9, 0, 0, 11), "a read and a second one leave the stamp");
    ins2651_write(&chip, INS2651_COMMAND, 0);
    hears(&chip, "00000");
    holds(looks_are(&chip, 9, 0, 0, 16), "an emptied register leaves the stamp, and ticks count while receive is off");
    ins2651_write(&chip, INS2651_COMMAND, INS2651_COMMAND_RECEIVE);
    hears(&chip, "1" "01000001" "01000001");
    holds(chip.flags.overrun == 1 && looks_are(&chip, 33, 0, 0, 33), "a character that overruns has its own stamp");
    chip.receiver.tally.ticks = UINT32_MAX - 3;
    hears(&chip, "01000001");
    holds(looks_are(&chip, 4, 0, 0, 4), "a stamp wraps with its tally");
    ins2651_reset(&chip);
    holds(looks_are(&chip, 0, 0, 0, 0), "a reset puts the stamp to 0");
}

/* Five bits, no parity, a tick a bit: a frame has seven ticks. */
static void frames_are_stamped(void) {
    ins2651 chip = set_up(INS2651_MODE1(5, INS2651_PARITY_NONE, INS2651_STOP_1, 1), INS2651_COMMAND_TRANSMIT | INS2651_COMMAND_BREAK);
    for (int tick = 0; tick < 3; tick++) ins2651_transmit(&chip);
    ins2651_write(&chip, INS2651_COMMAND, INS2651_COMMAND_TRANSMIT);
    ins2651_write(&chip, INS2651_DATA, 21);
    ins2651_transmit(&chip);
    holds(looks_are(&chip, 0, 0, 4, 0), "a break and its guard begin no frame");
    ins2651_transmit(&chip);
    holds(looks_are(&chip, 0, 5, 5, 0), "ins2651_start is the tally after the frame's first tick");
    for (int tick = 0; tick < 9; tick++) ins2651_transmit(&chip);
    holds(looks_are(&chip, 0, 5, 14, 0), "the frame's other ticks and mark leave it");
    ins2651_write(&chip, INS2651_DATA, 21);
    ins2651_transmit(&chip);
    holds(looks_are(&chip, 0, 15, 15, 0), "the next frame replaces it");
    ins2651_reset(&chip);
    holds(looks_are(&chip, 0, 0, 0, 0), "a reset puts it to 0");
}

static void tallies_out_of_range(void) {
    ins2651 chip;
    memset(&chip, 0xAA, sizeof chip);
    holds(looks_are(&chip, 0, 0, 0, 0), "the tallies and stamps of a device out of range are 0, and the looks leave it");
    ins2651_receive(&chip, 2);
    holds(chip.receiver.tally.ticks == 0xAAAAAAAA, "a refused call hands the tallies back as given");
    ins2651_transmit(&chip);
    holds(looks_are(&chip, 0, 0, 1, 0), "a call takes the tallies as those of a device just reset");
}

int main(void) {
    mode1_is_the_chips();
    other_parts_are_refused();
    mode2_names();
    status_of_the_sender();
    status_of_the_pins();
    status_of_the_receiver();
    command_names();
    no_bit_has_two_names();
    refusal_names();
    beginnings();
    tick_is_both_ticks();
    refused_ticks();
    rounds_are_joined_ticks();
    looks();
    status_byte_is_kept();
    wrong_status_bytes();
    clocks_are_two_types();
    ticks_are_counted();
    characters_are_stamped();
    frames_are_stamped();
    tallies_out_of_range();
    return failures != 0;
}
