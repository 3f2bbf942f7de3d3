/* Two proved INS2651 joined by a line, for C: crates/pair_host says what each call does, for any bytes in the pair lent to it.
 * `tools/cc FILE.c` builds a program with it; examples/host/long_runs.c and examples/host/wait.c are two to copy.
 *
 * - Each end of the line is an `ins2651`, and the calls of ins2651.h are made on it: `ins2651_write(&pair.a, ..)`. What a tick does to the
 *   pair could be had by the calls of ins2651.h too; a run does many ticks at once, and a wait as many as a character takes to come.
 * - A joined tick is both transmit ticks, then each receiver takes the level that the other sent in this very tick. It is never refused.
 * - No global state: a call reads and changes the pair lent to it, and nothing else.
 * - One pair, with both its devices, may be used by one thread at a time.
 * - The archive, target/staticlib/libpair_host.a, has no undefined symbols, and links beside the others in any order. It is x86-64 code,
 *   which `tools/cc` has proved and built (`rt lib` in crates/pair_host_c).
 * - A count of ticks, a limit and a unit have 32 bits. C cuts a larger number before the call, so 4294967296 arrives as 0 and is not
 *   refused; -Wconversion shows such a place. */
#ifndef INS2651_PAIR_H
#define INS2651_PAIR_H

#include "ins2651.h"

#ifdef __cplusplus
extern "C" {
#endif

/* The most joined ticks of one run. A longer time is several runs: examples/host/long_runs.c. */
enum { INS2651_RUN_LIMIT = 65535 };

/* What a refused run answers. It leaves the pair as it was; one that is done answers INS2651_DONE. */
enum {
    INS2651_RUN_TOO_LONG = 16  /* more joined ticks than INS2651_RUN_LIMIT */
};

/* The units, by the numbers that a wait takes: 0 is the device a, and any other number the device b. */
enum {
    INS2651_UNIT_A = 0,
    INS2651_UNIT_B = 1
};

/* The most joined ticks of one wait. */
enum { INS2651_WAIT_LIMIT = 65535 };

/* The refusal of a wait that is refused; it leaves the pair as it was. A wait that is done has INS2651_DONE. Compare
 * INS2651_WAIT_REFUSAL(answer), and not the answer: 21 alone is a count, where ins2651_joined_run answers the refusal itself. */
enum {
    INS2651_WAIT_TOO_LONG = 21  /* a limit above INS2651_WAIT_LIMIT */
};

/* What ins2651_joined_wait answered, taken apart: the refusal, and the joined ticks that were done. */
#define INS2651_WAIT_REFUSAL(answer) ((uint16_t)((answer) >> 16))
#define INS2651_WAIT_COUNT(answer) ((uint16_t)((answer) & 65535))

/* The bits of what ins2651_joined_tick answers: the level that each device sent, 1 where it is set. */
enum {
    INS2651_LEVEL_A = 1,
    INS2651_LEVEL_B = 2
};

/* Two devices, the ends of a line: any bytes will do. One that is out of range (docs/RANGES.md) is taken as one just reset by a joined
 * tick and by a run or a wait of one tick or more, each of the two by itself: the other goes on as it stands. Begin with
 * INS2651_PAIR_RESET, or reset both. */
typedef struct ins2651_pair {
    ins2651 a;
    ins2651 b;
} ins2651_pair;

/* The initialiser of two devices just reset. */
#define INS2651_PAIR_RESET {INS2651_RESET, INS2651_RESET}

/* The layout is the archive's. The padding of each device is neither read nor kept: compare them field by field. */
INS2651_HOLDS(sizeof(ins2651_pair) == 128);
INS2651_HOLDS(offsetof(ins2651_pair, a) == 0 && offsetof(ins2651_pair, b) == sizeof(ins2651));

/* Does a joined tick; answers the two levels sent, 2 times b's plus a's: 0 to 3, by the bits named above. */
uint16_t ins2651_joined_tick(ins2651_pair *pair);

/* Does n joined ticks at once: the pair is then as n calls of ins2651_joined_tick would leave it. Answers INS2651_DONE, or
 * INS2651_RUN_TOO_LONG where n is above INS2651_RUN_LIMIT.
 *
 * A run of 0 ticks and a refused run leave the pair as it is, also where a device is out of range. Registers are written and pins set
 * between runs, and do not change within one; nor can anything be read there. So only the ends of a run can be seen: of two characters
 * that come in one run the second is read, with the overrun flag, and when they came is not told. The levels that were sent are not told
 * either. Where that matters, run up to the tick before, or tick. */
uint16_t ins2651_joined_run(ins2651_pair *pair, uint32_t n);

/* Does joined ticks until the device that `unit` names (INS2651_UNIT_A, INS2651_UNIT_B) holds an unread character
 * (INS2651_STATUS_RXRDY), or until the limit is used up; answers 65536 times the refusal, plus the count of ticks done. The count is 0 where a character was there, and else the least number of joined ticks that brings
 * one, or the limit where that is less. The pair is then as that many calls of ins2651_joined_tick would leave it, and the character that
 * came is still unread. A limit above INS2651_WAIT_LIMIT is refused with INS2651_WAIT_TOO_LONG, and no tick is done.
 *
 * After a count equal to the limit look at the status to know whether one came: the last tick may have brought it. A count of 0 and a
 * refusal leave the pair as it was, also where a device is out of range; a unit that is out of range holds no character.
 *
 * The other device goes on meanwhile, and nobody reads there: of two characters that come there in one wait the second is read, with the
 * overrun flag. Where that matters, look there between shorter waits. */
uint32_t ins2651_joined_wait(ins2651_pair *pair, uint32_t unit, uint32_t limit);

#ifdef __cplusplus
}
#endif

#endif
