/* What include/ins2651_pair.h says, held to what its calls do. Each failure is printed and makes the status 1. It is C11 and C++17. */
#include <stdio.h>
#include <string.h>

#include "ins2651_pair.h"
#include "ins2651_pair.h" /* it may be included twice */

#include "held.h"

static int same_pairs(const ins2651_pair *x, const ins2651_pair *y) { return same(&x->a, &y->a) && same(&x->b, &y->b); }

/* Transmit and receive on, pins low, a character under way to the other end and one waiting. */
static void begins_to_send(ins2651 *chip, uint8_t mode1, uint8_t first, uint8_t second) {
    ins2651_reset(chip);
    ins2651_write(chip, INS2651_MODE, mode1);
    ins2651_write(chip, INS2651_COMMAND, INS2651_COMMAND_TRANSMIT | INS2651_COMMAND_RECEIVE);
    ins2651_pins(chip, 0, 0, 0);
    ins2651_receive(chip, 1);
    ins2651_write(chip, INS2651_DATA, first);
    ins2651_transmit(chip);
    ins2651_receive(chip, 0); /* the other's start */
    ins2651_write(chip, INS2651_DATA, second);
}

/* Both ends send and hear, in the two formats. */
static ins2651_pair talking(uint8_t mode1_of_a, uint8_t mode1_of_b) {
    ins2651_pair pair;
    memset(&pair, 0, sizeof pair);
    begins_to_send(&pair.a, mode1_of_a, 21, 200);
    begins_to_send(&pair.b, mode1_of_b, 10, 97);
    return pair;
}

enum {
    A_TICK_A_BIT = INS2651_MODE1(8, INS2651_PARITY_ODD, INS2651_STOP_1, 1),
    SIXTEEN = INS2651_MODE1(7, INS2651_PARITY_EVEN, INS2651_STOP_1_HALF, 16),
    SIXTY_FOUR = INS2651_MODE1(5, INS2651_PARITY_NONE, INS2651_STOP_2, 64)
};
static const uint8_t modes[] = {A_TICK_A_BIT, SIXTEEN, SIXTY_FOUR};

/* == the beginnings == */

static void beginnings(void) {
    struct ins2651_pair begun = INS2651_PAIR_RESET;
    ins2651_pair pair = talking(A_TICK_A_BIT, SIXTEEN);
    holds(!same_pairs(&pair, &begun), "pairs that are not alike");
    ins2651_reset(&pair.a);
    holds(same(&pair.a, &begun.a) && !same(&pair.b, &begun.b), "a call on pair.a is one on that device alone");
    ins2651_reset(&pair.b);
    holds(same_pairs(&pair, &begun), "INS2651_PAIR_RESET is two devices just reset");
}

/* == the joined tick == */

static void ticks_are_the_chips_own(void) {
    int seen = 0;
    for (int m = 0; m < 9; m++) {
        ins2651_pair pair = talking(modes[m / 3], modes[m % 3]), other = pair;
        for (int tick = 0; tick < 400; tick++) {
            int levels = joined_tick(&other.a, &other.b);
            holds(ins2651_joined_tick(&pair) == levels, "ins2651_joined_tick answers 2 times b's level plus a's");
            holds(same_pairs(&pair, &other), "ins2651_joined_tick is both transmit ticks, then both receive ticks");
            seen |= 1 << levels;
        }
    }
    holds(seen == 15, "all four answers of ins2651_joined_tick were seen");
}

/* A break at one end alone. */
static void names_of_the_levels(void) {
    ins2651_pair pair = talking(A_TICK_A_BIT, A_TICK_A_BIT);
    ins2651_joined_run(&pair, 100); /* both are done with their characters */
    holds(ins2651_joined_tick(&pair) == (INS2651_LEVEL_A | INS2651_LEVEL_B), "both at mark");
    ins2651_write(&pair.a, INS2651_COMMAND, INS2651_COMMAND_TRANSMIT | INS2651_COMMAND_BREAK);
    holds(ins2651_joined_tick(&pair) == INS2651_LEVEL_B, "INS2651_LEVEL_B alone, with a break from a");
    ins2651_reset(&pair.a);
    ins2651_write(&pair.b, INS2651_COMMAND, INS2651_COMMAND_TRANSMIT | INS2651_COMMAND_BREAK);
    holds(ins2651_joined_tick(&pair) == INS2651_LEVEL_A, "INS2651_LEVEL_A alone, with a break from b");
}

/* == runs == */

/* Runs of each length up to a little more than both frames of the slower end, from one beginning, which is ticked beside them. */
static void runs_are_joined_ticks(void) {
    for (int m = 0; m < 9; m++) {
        const ins2651_pair begun = talking(modes[m / 3], modes[m % 3]);
        ins2651_pair ticked = begun;
        for (uint32_t n = 0; n < 1100; n++) {
            ins2651_pair pair = begun;
            holds(ins2651_joined_run(&pair, n) == INS2651_DONE, "a run that is done");
            holds(same_pairs(&pair, &ticked), "a run of n is n joined ticks");
            ins2651_joined_tick(&ticked);
        }
    }
}

static void characters_come_in_a_run(void) {
    ins2651_pair pair = talking(SIXTEEN, SIXTEEN);
    ins2651_joined_run(&pair, INS2651_RUN_LIMIT);
    holds(INS2651_VALUE(ins2651_read(&pair.a, INS2651_DATA)) == 97, "the second character comes from b");
    holds(INS2651_VALUE(ins2651_read(&pair.b, INS2651_DATA)) == 200 % 128, "the second character comes from a");
    int flags = ins2651_peek(&pair.b) & (INS2651_STATUS_PARITY | INS2651_STATUS_OVERRUN | INS2651_STATUS_FRAMING);
    holds(flags == INS2651_STATUS_OVERRUN, "the first of two characters in a run is overrun");
}

/* == the limit == */

static void the_limit(void) {
    ins2651_pair pair = talking(SIXTY_FOUR, A_TICK_A_BIT), ticked = pair;
    holds(INS2651_RUN_LIMIT == 65535, "INS2651_RUN_LIMIT is that of request P9");
    holds(ins2651_joined_run(&pair, INS2651_RUN_LIMIT) == INS2651_DONE, "a run of INS2651_RUN_LIMIT is done");
    for (int tick = 0; tick < INS2651_RUN_LIMIT; tick++) ins2651_joined_tick(&ticked);
    holds(same_pairs(&pair, &ticked), "a run of INS2651_RUN_LIMIT is as many joined ticks");
}

/* Just above the limit, numbers whose low 16 or 31 bits would be a run, and the largest. */
static const uint32_t too_many[] = {INS2651_RUN_LIMIT + 1, 65537,      65599,      131071,     131072,    0x10FFFF,
                                    0x1000001,             0x7FFFFFFF, 0x80000000, 0x80000001, 0xFFFF0000, UINT32_MAX};

static void refuses_too_many(const ins2651_pair *given) {
    for (size_t i = 0; i < sizeof too_many / sizeof *too_many; i++) {
        ins2651_pair pair = *given;
        holds(ins2651_joined_run(&pair, too_many[i]) == INS2651_RUN_TOO_LONG, "INS2651_RUN_TOO_LONG");
        holds(same_pairs(&pair, given), "a refused run leaves the pair");
    }
}

/* A run that is too long is refused of a pair in which a tick moves the tallies alone, too: just reset, idle and in break. */
static void refuses_at_rest(void) {
    ins2651_pair pair = INS2651_PAIR_RESET;
    refuses_too_many(&pair);
    pair = talking(SIXTEEN, SIXTEEN);
    ins2651_joined_run(&pair, INS2651_RUN_LIMIT);
    refuses_too_many(&pair);
    ins2651_write(&pair.a, INS2651_COMMAND, INS2651_COMMAND_TRANSMIT | INS2651_COMMAND_BREAK);
    ins2651_joined_run(&pair, INS2651_RUN_LIMIT);
    refuses_too_many(&pair);
}

/* == waits == */

/* Joined ticks one by one until a device of the pair holds an unread character, or the limit is used up; answers their count. */
static uint32_t ticks_until(ins2651_pair *pair, ins2651 *device, uint32_t limit) {
    uint32_t count = 0;
    while (count < limit && !(ins2651_peek(device) & INS2651_STATUS_RXRDY)) {
        ins2651_joined_tick(pair);
        count++;
    }
    return count;
}

/* A wait, with single joined ticks beside it; answers its count. */
static uint32_t waits(const ins2651_pair *given, uint32_t unit, uint32_t limit) {
    ins2651_pair pair = *given, ticked = *given;
    uint32_t answer = ins2651_joined_wait(&pair, unit, limit);
    uint32_t count = ticks_until(&ticked, unit == INS2651_UNIT_A ? &ticked.a : &ticked.b, limit);
    holds(INS2651_WAIT_REFUSAL(answer) == INS2651_DONE, "a wait that is done");
    holds(INS2651_WAIT_COUNT(answer) == count, "a wait counts the joined ticks that bring a character, or the limit");
    holds(same_pairs(&pair, &ticked), "a wait is as many joined ticks");
    return count;
}

/* Limits at and about the tick that brings a character, from one beginning; any number but 0 names b. */
static void waits_are_joined_ticks(void) {
    static const uint32_t units[] = {INS2651_UNIT_A, INS2651_UNIT_B, 2, 65536, UINT32_MAX};
    int came = 0;
    for (int m = 0; m < 9; m++) {
        const ins2651_pair begun = talking(modes[m / 3], modes[m % 3]);
        for (size_t u = 0; u < sizeof units / sizeof *units; u++) {
            uint32_t comes = waits(&begun, units[u], INS2651_WAIT_LIMIT);
            came += comes < INS2651_WAIT_LIMIT;
            for (uint32_t limit = comes - 1; limit <= comes + 1 && limit <= INS2651_WAIT_LIMIT; limit++) waits(&begun, units[u], limit);
            holds(waits(&begun, units[u], 1) == 1, "a wait with a limit of 1 that brings none");
            holds(waits(&begun, units[u], 0) == 0, "a wait with a limit of 0");
        }
    }
    holds(came == 40, "a character comes, but from a tick a bit to 64");
}

static int unread(ins2651 *device) { return (ins2651_peek(device) & INS2651_STATUS_RXRDY) != 0; }

/* Both characters for b are waited for, while those for a come unread; then none comes. */
static void characters_are_waited_for(void) {
    ins2651_pair pair = talking(SIXTEEN, SIXTEEN), before = pair;
    uint32_t comes = ins2651_joined_wait(&pair, INS2651_UNIT_B, INS2651_WAIT_LIMIT);
    holds(ins2651_joined_wait(&before, INS2651_UNIT_B, comes - 1) == comes - 1 && !unread(&before.b), "the limit, and none came");
    holds(ins2651_joined_wait(&before, INS2651_UNIT_B, 1) == 1 && unread(&before.b), "the limit, and one came in the last tick");
    waits(&pair, INS2651_UNIT_B, INS2651_WAIT_LIMIT);
    holds(ins2651_joined_wait(&pair, INS2651_UNIT_B, INS2651_WAIT_LIMIT) == 0, "no tick where a character is there");
    holds(INS2651_VALUE(ins2651_read(&pair.b, INS2651_DATA)) == 21, "the first character for b");
    holds(ins2651_joined_wait(&pair, INS2651_UNIT_B, INS2651_WAIT_LIMIT) < 1000, "the second one comes");
    holds(INS2651_VALUE(ins2651_read(&pair.b, INS2651_DATA)) == 200 % 128, "the second character for b");
    holds(ins2651_joined_wait(&pair, INS2651_UNIT_B, INS2651_WAIT_LIMIT) == INS2651_WAIT_LIMIT, "none comes: the limit is used up");
    holds(ins2651_joined_wait(&pair, INS2651_UNIT_B, 7) == 7 && !unread(&pair.b), "the limit of a pair that only counts");
    holds(INS2651_VALUE(ins2651_read(&pair.a, INS2651_DATA)) == 97, "the other device has the second of its characters");
    holds((ins2651_peek(&pair.a) & INS2651_STATUS_OVERRUN) != 0, "the first of two at the other device is overrun");
}

static void refuses_long_waits(const ins2651_pair *given) {
    for (size_t i = 0; i < sizeof too_many / sizeof *too_many; i++) {
        for (uint32_t unit = INS2651_UNIT_A; unit <= INS2651_UNIT_B; unit++) {
            ins2651_pair pair = *given;
            uint32_t answer = ins2651_joined_wait(&pair, unit, too_many[i]);
            holds(INS2651_WAIT_REFUSAL(answer) == INS2651_WAIT_TOO_LONG && INS2651_WAIT_COUNT(answer) == 0, "INS2651_WAIT_TOO_LONG");
            holds(same_pairs(&pair, given), "a refused wait leaves the pair");
        }
    }
}

/* A wait that is too long is refused whatever it would do: of a pair that moves, that only counts, and with a character there. */
static void refuses_waits(void) {
    holds(INS2651_WAIT_LIMIT == 65535 && INS2651_WAIT_TOO_LONG == 21, "the limit and the refusal are those of request P12");
    holds(INS2651_WAIT_REFUSAL((uint32_t)21 * 65536 + 7) == 21 && INS2651_WAIT_COUNT((uint32_t)21 * 65536 + 7) == 7, "an answer taken apart");
    holds(INS2651_WAIT_REFUSAL(UINT32_MAX) == 65535 && INS2651_WAIT_COUNT(UINT32_MAX) == 65535, "no bit of an answer is lost");
    ins2651_pair pair = INS2651_PAIR_RESET;
    refuses_long_waits(&pair);
    pair = talking(SIXTEEN, A_TICK_A_BIT);
    refuses_long_waits(&pair);
    ins2651_joined_run(&pair, INS2651_RUN_LIMIT);
    refuses_long_waits(&pair);
}

/* == devices out of range == */

/* The pair with one byte of a device, or of both, out of range: the mode pointer. */
static ins2651_pair spoilt(int a, int b) {
    ins2651_pair pair = talking(SIXTEEN, A_TICK_A_BIT);
    if (a) pair.a.registers.modes = 2;
    if (b) pair.b.registers.modes = 2;
    return pair;
}

/* The same by the status bytes, each wrong in one bit. */
static ins2651_pair wrongly_stated(int a, int b, int bit) {
    ins2651_pair pair = talking(SIXTEEN, A_TICK_A_BIT);
    if (a) pair.a.status = (uint8_t)(pair.a.status ^ 1 << bit);
    if (b) pair.b.status = (uint8_t)(pair.b.status ^ 1 << bit);
    return pair;
}

/* What is out of range counts as just reset, and only that. */
static ins2651_pair settled(int a, int b) {
    ins2651_pair pair = spoilt(0, 0);
    if (a) ins2651_reset(&pair.a);
    if (b) ins2651_reset(&pair.b);
    return pair;
}

static void out_of_range(void) {
    for (int which = 0; which < 4; which++) {
        int a = which & 1, b = which >> 1;
        ins2651_pair given = spoilt(a, b), pair = given, whole = settled(a, b);
        holds(ins2651_in_range(&pair.a) == !a && ins2651_in_range(&pair.b) == !b, "the devices that are out of range");
        holds(ins2651_joined_run(&pair, 0) == INS2651_DONE && same_pairs(&pair, &given), "a run of 0 leaves the pair, out of range too");
        refuses_too_many(&given);
        holds(ins2651_joined_tick(&pair) == joined_tick(&whole.a, &whole.b), "the levels of a tick: out of range counts as just reset");
        holds(same_pairs(&pair, &whole), "a tick: each device out of range is taken as just reset, and no other");
        for (uint32_t n = 1; n < 300; n++) {
            pair = given;
            holds(ins2651_joined_run(&pair, n) == INS2651_DONE, "a run that is done, out of range");
            holds(same_pairs(&pair, &whole), "a run: each device out of range is taken as just reset, and no other");
            joined_tick(&whole.a, &whole.b);
        }
    }
    ins2651_pair pair, begun = INS2651_PAIR_RESET;
    memset(&pair, 0xAA, sizeof pair);
    refuses_too_many(&pair);
    joined_tick(&begun.a, &begun.b); /* which moves the tallies of devices just reset */
    holds(ins2651_joined_run(&pair, 1) == INS2651_DONE && same_pairs(&pair, &begun), "a run of 1 on any bytes");
}

/* A unit out of range holds no character, and is taken as just reset by the first tick of a wait. */
static void waits_out_of_range(void) {
    for (int which = 0; which < 4; which++) {
        ins2651_pair given = spoilt(which & 1, which >> 1);
        given.b.receiver.unread = 1;
        given.b.status = meant(&given.b);
        refuses_long_waits(&given);
        for (uint32_t limit = 0; limit < 300; limit++) {
            waits(&given, INS2651_UNIT_A, limit);
            waits(&given, INS2651_UNIT_B, limit);
        }
    }
}

/* A status byte that is wrong in one bit: also in bit 1, where it says that a character is unread, and none is. */
static void wrong_status_bytes(void) {
    for (int which = 1; which < 4; which++)
        for (int bit = 0; bit < 8; bit++) {
            int a = which & 1, b = which >> 1;
            ins2651_pair given = wrongly_stated(a, b, bit), pair = given, whole = settled(a, b);
            holds(ins2651_in_range(&pair.a) == !a && ins2651_in_range(&pair.b) == !b, "the devices whose status bytes are wrong");
            holds(ins2651_joined_run(&pair, 0) == INS2651_DONE && same_pairs(&pair, &given), "a run of 0 leaves a wrong status byte");
            refuses_too_many(&given);
            refuses_long_waits(&given);
            for (uint32_t limit = 0; limit < 20; limit++) {
                waits(&given, INS2651_UNIT_A, limit);
                waits(&given, INS2651_UNIT_B, limit);
            }
            holds(ins2651_joined_tick(&pair) == joined_tick(&whole.a, &whole.b), "the levels of a tick: a wrong status byte counts as just reset");
            holds(same_pairs(&pair, &whole), "a tick: each device with a wrong status byte is taken as just reset, and no other");
            pair = given;
            holds(ins2651_joined_run(&pair, 1) == INS2651_DONE && same_pairs(&pair, &whole), "a run: the same");
        }
}

/* Ticks, runs and waits keep the status bytes of both devices. */
static void status_bytes_are_kept(void) {
    ins2651_pair pair = talking(A_TICK_A_BIT, SIXTEEN);
    int seen = 0;
    for (int tick = 0; tick < 300; tick++) {
        ins2651_joined_tick(&pair);
        holds(pair.a.status == meant(&pair.a) && pair.b.status == meant(&pair.b), "a joined tick keeps both status bytes");
        seen |= pair.a.status | pair.b.status;
    }
    holds(seen == 255, "all bits of the status were seen");
    for (int m = 0; m < 9; m++)
        for (uint32_t n = 1; n < 400; n += 7) {
            pair = talking(modes[m / 3], modes[m % 3]);
            ins2651_joined_run(&pair, n);
            holds(pair.a.status == meant(&pair.a) && pair.b.status == meant(&pair.b), "a run keeps both status bytes");
            ins2651_joined_wait(&pair, INS2651_UNIT_B, n);
            holds(pair.a.status == meant(&pair.a) && pair.b.status == meant(&pair.b), "a wait keeps both status bytes");
        }
}

/* == the tallies == */

/* Any number may stand in a tally: these wrap within the run. */
static ins2651_pair about_to_wrap(void) {
    ins2651_pair pair = talking(SIXTEEN, SIXTEEN);
    pair.a.sender.tally.ticks = UINT32_MAX - 10;
    pair.a.receiver.tally.ticks = UINT32_MAX - 700;
    pair.b.sender.tally.ticks = 5;
    pair.b.receiver.tally.ticks = UINT32_MAX - 100;
    return pair;
}

static int tallies_are(ins2651_pair *pair, uint32_t a_sends, uint32_t a_hears, uint32_t b_sends, uint32_t b_hears) {
    return ins2651_transmit_tally(&pair->a).ticks == a_sends && ins2651_receive_tally(&pair->a).ticks == a_hears
        && ins2651_transmit_tally(&pair->b).ticks == b_sends && ins2651_receive_tally(&pair->b).ticks == b_hears;
}

static void joined_ticks_are_counted(void) {
    ins2651_pair pair = about_to_wrap();
    ins2651_joined_run(&pair, INS2651_RUN_LIMIT + 1);
    ins2651_joined_run(&pair, 0);
    holds(tallies_are(&pair, UINT32_MAX - 10, UINT32_MAX - 700, 5, UINT32_MAX - 100), "a run that is refused or of no tick counts nothing");
    ins2651_joined_tick(&pair);
    holds(tallies_are(&pair, UINT32_MAX - 9, UINT32_MAX - 699, 6, UINT32_MAX - 99), "a joined tick is one in each of the four tallies");
    ins2651_joined_run(&pair, 1000);
    holds(tallies_are(&pair, 990, 300, 1006, 900), "a run of n is n in each of the four tallies, modulo 2^32");
    ins2651_joined_run(&pair, INS2651_RUN_LIMIT);
    holds(tallies_are(&pair, 66525, 65835, 66541, 66435), "the longest run");
    uint16_t count = INS2651_WAIT_COUNT(ins2651_joined_wait(&pair, INS2651_UNIT_A, 12));
    holds(count == 0 && tallies_are(&pair, 66525, 65835, 66541, 66435), "a wait that finds a character counts nothing");
    ins2651_read(&pair.a, INS2651_DATA);
    count = INS2651_WAIT_COUNT(ins2651_joined_wait(&pair, INS2651_UNIT_A, 12));
    holds(count == 12 && tallies_are(&pair, 66537, 65847, 66553, 66447), "a wait is its count in each of the four tallies");
}

/* == what is not lent == */

/* The calls leave what lies before and behind the pair. */
static void neighbours(void) {
    ins2651_pair row[3];
    for (int k = 0; k < 3; k++) row[k] = talking(modes[k], modes[2 - k]);
    unsigned char before[sizeof row];
    memcpy(before, row, sizeof row);
    ins2651_joined_run(&row[1], 700);
    ins2651_joined_tick(&row[1]);
    ins2651_joined_run(&row[1], INS2651_RUN_LIMIT + 1);
    ins2651_joined_wait(&row[1], INS2651_UNIT_B, INS2651_WAIT_LIMIT);
    ins2651_joined_wait(&row[1], INS2651_UNIT_B, INS2651_WAIT_LIMIT + 1);
    const unsigned char *after = (const unsigned char *)row;
    holds(memcmp(after, before, sizeof row[0]) == 0, "what lies before the pair stays");
    holds(memcmp(after + 2 * sizeof row[0], before + 2 * sizeof row[0], sizeof row[0]) == 0, "what lies behind the pair stays");
}

int main(void) {
    beginnings();
    ticks_are_the_chips_own();
    names_of_the_levels();
    runs_are_joined_ticks();
    characters_come_in_a_run();
    the_limit();
    refuses_at_rest();
    waits_are_joined_ticks();
    characters_are_waited_for();
    refuses_waits();
    out_of_range();
    waits_out_of_range();
    wrong_status_bytes();
    status_bytes_are_kept();
    joined_ticks_are_counted();
    neighbours();
    return failures != 0;
}
