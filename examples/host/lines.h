/* What the drivers share: a call on each line of standard input, its answer on a line of standard output. */
#ifndef LINES_H
#define LINES_H

#include <stdio.h>
#include <stdlib.h>
#include <string.h>

#include "ins2651.h"

/* What stands behind a blank and a number of at most `most`; NULL where there is none, or no text. */
static const char *behind_number(const char *rest, unsigned long long most, unsigned long long *number) {
    if (!rest || *rest != ' ' || rest[1] < '0' || rest[1] > '9') return NULL;
    char *end;
    *number = strtoull(rest + 1, &end, 10);
    return *number <= most ? end : NULL;
}

/* What stands behind a call's name and its numbers; NULL where it is none of that name. */
static const char *behind(const char *line, const char *name, unsigned count, uint8_t *numbers) {
    size_t length = strlen(name);
    if (strncmp(line, name, length) != 0) return NULL;
    const char *rest = line + length;
    for (unsigned i = 0; i < count && rest; i++) {
        unsigned long long number;
        rest = behind_number(rest, 255, &number);
        if (rest) numbers[i] = (uint8_t)number;
    }
    return rest;
}

/* A call's name and its numbers; 0 where it is none. */
static int is(const char *line, const char *name, unsigned count, uint8_t *numbers) {
    const char *rest = behind(line, name, count, numbers);
    return rest && *rest == '\0';
}

static int digit(char c) {
    if (c >= '0' && c <= '9') return c - '0';
    if (c >= 'a' && c <= 'f') return c - 'a' + 10;
    return -1;
}

/* Sets a device by what stands behind a call: a blank and its digits; 0 where it is no such text. */
static int set_bytes(const char *rest, ins2651 *device) {
    unsigned char bytes[sizeof *device];
    if (!rest || *rest++ != ' ') return 0;
    for (size_t i = 0; i < sizeof bytes; i++) {
        int high = digit(rest[2 * i]);
        int low = high < 0 ? -1 : digit(rest[2 * i + 1]);
        if (low < 0) return 0;
        bytes[i] = (unsigned char)(16 * high + low);
    }
    if (rest[2 * sizeof bytes] != '\0') return 0;
    memcpy(device, bytes, sizeof *device);
    return 1;
}

static void print_digits(const ins2651 *device) {
    unsigned char bytes[sizeof *device];
    memcpy(bytes, device, sizeof *device);
    bytes[23] = 0; /* padding: no call reads it, none keeps it */
    memset(bytes + 45, 0, 3);
    memset(bytes + 62, 0, 2);
    for (size_t i = 0; i < sizeof bytes; i++) printf("%02x", bytes[i]);
}

static void print_bytes(const ins2651 *device) {
    print_digits(device);
    printf("\n");
}

static void print_refusal_and_value(unsigned answer) {
    printf("%u %u\n", INS2651_REFUSAL(answer), INS2651_VALUE(answer));
}

/* The levels, and behind them the bits that are none of theirs, where one is set: no such bit of a wrong answer is lost. */
static void print_outputs(unsigned levels) {
    unsigned others = levels & ~(unsigned)(INS2651_TXRDY | INS2651_RXRDY | INS2651_TXEMT | INS2651_DTR | INS2651_RTS);
    printf("%d %d %d %d %d", (levels & INS2651_TXRDY) != 0, (levels & INS2651_RXRDY) != 0,
           (levels & INS2651_TXEMT) != 0, (levels & INS2651_DTR) != 0, (levels & INS2651_RTS) != 0);
    if (others) printf(" %u", others);
    printf("\n");
}

/* The next line without its newline: 1, or 0 at the end of the input, or -1 where it is too long or has a NUL. */
static int next_line(char *line, size_t size) {
    size_t length = 0;
    int c;
    while ((c = getchar()) != EOF && c != '\n') {
        if (c == '\0' || length + 1 == size) return -1;
        line[length++] = (char)c;
    }
    line[length] = '\0';
    return c == '\n' || length > 0; /* the last line may lack its newline */
}

/* Answers each line by `does`, which is 0 where it is no call; the program's status. */
static int drive(const char *program, int (*does)(const char *)) {
    char line[151];
    int there;
    while ((there = next_line(line, sizeof line)) != 0) {
        if (there < 0 || !does(line)) {
            fprintf(stderr, "%s: no call: %s\n", program, there < 0 ? "a line over 150 bytes, or a NUL" : line);
            return 2;
        }
        if (fflush(stdout) != 0) return 2;
    }
    return ferror(stdin) ? 2 : 0;
}

#endif
