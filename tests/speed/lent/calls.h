/* The fourteen calls of a chip, by pointers: the proved ones, and those of chip.c, which is compiled with each `ins2651_` call as
 * `plain_`. */
#ifndef CALLS_H
#define CALLS_H

#include "ins2651.h"

typedef struct calls {
    uint16_t (*reset)(ins2651 *);
    uint16_t (*read)(ins2651 *, uint8_t);
    uint16_t (*write)(ins2651 *, uint8_t, uint8_t);
    uint16_t (*pins)(ins2651 *, uint8_t, uint8_t, uint8_t);
    uint16_t (*transmit)(ins2651 *);
    uint16_t (*receive)(ins2651 *, uint8_t);
    uint16_t (*tick)(ins2651 *, uint8_t);
    uint16_t (*outputs)(ins2651 *);
    uint16_t (*peek)(ins2651 *);
    uint16_t (*in_range)(ins2651 *);
    ins2651_rxc (*stamp)(ins2651 *);
    ins2651_txc (*start)(ins2651 *);
    ins2651_txc (*transmit_tally)(ins2651 *);
    ins2651_rxc (*receive_tally)(ins2651 *);
} calls;

extern const calls proved, plain;

/* A pseudo-random run of calls on both; 0 where an answer or a field of a device differed, which is printed. */
int answer_alike(void);

#endif
