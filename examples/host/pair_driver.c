/* Drives two devices joined by a line from text, as driver.c drives one: a call on each line of standard input, its answer on a line of
 * standard output, when it is entered.
 *
 *     tick      LEVELS           a joined tick: 2 times b's level plus a's
 *     run N     REFUSAL          N joined ticks
 *     wait U N  REFUSAL COUNT    a wait with the limit N for a character at a where U is 0, else at b; the joined ticks spent
 *     bytes     HEX              the pair's 128 bytes, the padding as 00
 *     a CALL    ..               a call of driver.c on device a, with its answer: `a write 0 65`, `a device HEX`
 *     b CALL    ..               the same on device b
 *
 * Both devices begin as just reset. U, N and tallies are 0 to 4294967295, other numbers 0 to 255, all decimal. A line of another form, or
 * of more than 150 bytes, ends the program with status 2, and so do an input that cannot be read and an answer that cannot be written. */
#include "ins2651_pair.h"
#include "chip_lines.h"

static ins2651_pair pair = INS2651_PAIR_RESET;

/* A run and its number; 0 where it is none. */
static int runs(const char *line) {
    uint8_t none[1];
    unsigned long long n;
    const char *rest = behind_number(behind(line, "run", 0, none), UINT32_MAX, &n);
    if (!rest || *rest != '\0') return 0;
    printf("%d\n", ins2651_joined_run(&pair, (uint32_t)n));
    return 1;
}

/* A wait and its numbers; 0 where it is none. */
static int waits(const char *line) {
    uint8_t none[1];
    unsigned long long unit, limit;
    const char *rest = behind_number(behind(line, "wait", 0, none), UINT32_MAX, &unit);
    rest = behind_number(rest, UINT32_MAX, &limit);
    if (!rest || *rest != '\0') return 0;
    uint32_t answer = ins2651_joined_wait(&pair, (uint32_t)unit, (uint32_t)limit);
    printf("%u %u\n", INS2651_WAIT_REFUSAL(answer), INS2651_WAIT_COUNT(answer));
    return 1;
}

static void print_pair(void) {
    print_digits(&pair.a);
    print_bytes(&pair.b);
}

/* One line; 0 where it is no call. */
static int does(const char *line) {
    uint8_t none[1];
    if (strncmp(line, "a ", 2) == 0) return does_on(&pair.a, line + 2);
    if (strncmp(line, "b ", 2) == 0) return does_on(&pair.b, line + 2);
    if (is(line, "tick", 0, none)) printf("%d\n", ins2651_joined_tick(&pair));
    else if (is(line, "bytes", 0, none)) print_pair();
    else return runs(line) || waits(line);
    return 1;
}

int main(void) {
    return drive("pair_driver", does);
}
