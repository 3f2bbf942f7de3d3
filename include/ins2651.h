/* The proved INS2651 for C: crates/host says what each call does, for any bytes in the device lent to it.
 * `tools/cc FILE.c` builds a program with it; docs/USING.md, "From C", has an example.
 *
 * - No global state: a call reads and changes the device lent to it, and nothing else.
 * - One device may be used by one thread at a time.
 * - The archive, target/staticlib/libhost.a, has no undefined symbols: it needs no other code, not even a C library. It is x86-64 code,
 *   which `tools/cc` has proved and built (`rt lib` in crates/host_c).
 * - Arguments are bytes. C cuts a larger number to its low eight bits before the call, so 256 arrives as 0 and is not refused;
 *   -Wconversion shows such a place. */
#ifndef INS2651_H
#define INS2651_H

#include <stddef.h>
#include <stdint.h>

#ifdef __cplusplus
extern "C" {
#endif

/* Register addresses. */
enum {
    INS2651_DATA = 0,    /* read: the character received; write: a character to send */
    INS2651_STATUS = 1,  /* read: status; write: SYN1, SYN2, DLE in turn */
    INS2651_MODE = 2,    /* mode 1, then mode 2 */
    INS2651_COMMAND = 3
};

/* Refusals: what a refused call answers. It leaves the device as it was. */
enum {
    INS2651_DONE = 0,
    INS2651_NO_SUCH_ADDRESS = 1,      /* a register address above 3 */
    INS2651_NO_SUCH_LEVEL = 2,        /* a pin or line level neither 0 nor 1 */
    INS2651_NO_STOP_LENGTH = 3,       /* mode 1 with factor 1, 16 or 64 and no stop length */
    INS2651_SYNCHRONOUS = 4,          /* mode 1 with factor bits 00 */
    INS2651_NOT_NORMAL_OPERATION = 5  /* a command with bit 6 or 7 set */
};

/* The bits of the status register. The three error flags stay until reset error, a command without receive enable, or a reset: no read,
   no good character and no tick clears them. */
enum {
    INS2651_STATUS_TXRDY = 1,     /* the sender may be written */
    INS2651_STATUS_RXRDY = 2,     /* a character is unread */
    INS2651_STATUS_TXEMT = 4,     /* the sender ran empty, or DSR or DCD changed */
    INS2651_STATUS_PARITY = 8,    /* error flag: wrong parity */
    INS2651_STATUS_OVERRUN = 16,  /* error flag: a character was replaced unread */
    INS2651_STATUS_FRAMING = 32,  /* error flag: a stop bit of 0 */
    INS2651_STATUS_DCD = 64,      /* DCD is low */
    INS2651_STATUS_DSR = 128      /* DSR is low */
};

/* The bits of the command register. */
enum {
    INS2651_COMMAND_TRANSMIT = 1,      /* transmit enable */
    INS2651_COMMAND_DTR = 2,           /* makes the output DTR low */
    INS2651_COMMAND_RECEIVE = 4,       /* receive enable; a command without it clears the error flags, and the unread mark, at the write */
    INS2651_COMMAND_BREAK = 8,         /* sends 0 while no frame is under way, with transmit on and CTS low */
    INS2651_COMMAND_RESET_ERROR = 16,  /* clears the error flags at the write, and reads back as 0 */
    INS2651_COMMAND_RTS = 32           /* makes the output RTS low */
};

/* The parts of mode 1, for INS2651_MODE1. */
enum {
    INS2651_PARITY_NONE = 0,
    INS2651_PARITY_ODD = 16,
    INS2651_PARITY_EVEN = 48,
    INS2651_STOP_1 = 64,
    INS2651_STOP_1_HALF = 128,  /* one and a half; with one tick a bit it is one tick */
    INS2651_STOP_2 = 192
};

/* The byte of mode 1: 5 to 8 data bits, one of the parities and one of the stop lengths above, and 1, 16 or 64 ticks a bit. It is a
 * constant where its arguments are. Its arguments are ints. Any other one makes it 0, which the chip refuses (INS2651_SYNCHRONOUS).
 * Give it no argument that must be evaluated only once. */
#define INS2651_MODE1(length, parity, stop, factor) \
    INS2651_MODE1_BYTE((int)(length), (int)(parity), (int)(stop), (int)(factor))
#define INS2651_MODE1_BYTE(n, p, s, f) \
    ((uint8_t)(n >= 5 && n <= 8 && \
               (p == INS2651_PARITY_NONE || p == INS2651_PARITY_ODD || p == INS2651_PARITY_EVEN) && \
               (s == INS2651_STOP_1 || s == INS2651_STOP_1_HALF || s == INS2651_STOP_2) && \
               (f == 1 || f == 16 || f == 64) \
                   ? (n - 5) * 4 + p + s + (f == 1 ? 1 : f == 16 ? 2 : 3) \
                   : 0))

/* The parts of mode 2. An internal clock makes that direction's factor 16. */
enum {
    INS2651_MODE2_RATE = 15,  /* the mask of the rate */
    INS2651_MODE2_RECEIVE_INTERNAL = 16,
    INS2651_MODE2_TRANSMIT_INTERNAL = 32
};

/* The bits of what ins2651_outputs answers; 1 is a high level, and each output is active low. They are not status bits: the output
 * INS2651_TXRDY is 0 where INS2651_STATUS_TXRDY is 1. */
enum {
    INS2651_TXRDY = 1,
    INS2651_RXRDY = 2,
    INS2651_TXEMT = 4,
    INS2651_DTR = 8,
    INS2651_RTS = 16
};

/* What ins2651_read or ins2651_tick answered, taken apart: the refusal, and the value read or the level sent. */
#define INS2651_REFUSAL(answer) ((uint8_t)((answer) >> 8))
#define INS2651_VALUE(answer) ((uint8_t)((answer) & 255))

/* The two tallies of a chip, by the sheet's names of its clocks: ticks of the transmit clock and of the receive clock since reset, modulo
 * 4,294,967,296. They are two types, so that one is not handed over as the other: what happens at one clock has no time on the other. */
typedef struct ins2651_txc {
    uint32_t ticks;
} ins2651_txc;

typedef struct ins2651_rxc {
    uint32_t ticks;
} ins2651_rxc;

/* The registers; `accepted` is 1 once a mode 1 was accepted, `modes` and `syns` are the two pointers. */
typedef struct ins2651_registers {
    uint8_t mode1;
    uint8_t mode2;
    uint8_t accepted;
    uint8_t command;
    uint8_t syn1;
    uint8_t syn2;
    uint8_t dle;
    uint8_t modes;
    uint8_t syns;
} ins2651_registers;

/* The levels of the three modem inputs. */
typedef struct ins2651_input_pins {
    uint8_t dsr;
    uint8_t dcd;
    uint8_t cts;
} ins2651_input_pins;

/* How a character is sent: ticks a bit, data bits, parity or none, even or odd, stop ticks. All 0: no character is under way. */
typedef struct ins2651_format {
    uint8_t factor;
    uint8_t length;
    uint8_t parity;
    uint8_t even;
    uint8_t stop;
} ins2651_format;

/* The frame being sent; `place` is that of its next tick. */
typedef struct ins2651_frame {
    uint8_t character;
    ins2651_format format;
    uint16_t place;
} ins2651_frame;

/* The sender: its frame, the character that waits (where `full` is 1), the guard that a break left; the transmit tally after the first
 * tick of its last frame (0 where none since reset), and the tally itself. */
typedef struct ins2651_sender {
    ins2651_frame frame;
    uint8_t holding;
    uint8_t full;
    uint8_t guard;
    ins2651_txc start;
    ins2651_txc tally;
} ins2651_sender;

/* Where the receiver stands between two samples. */
typedef struct ins2651_sampling {
    uint8_t phase;
    uint8_t countdown;
    uint8_t value;
    uint8_t wrong;
    uint16_t look;
} ins2651_sampling;

/* The receiver: where it stands, the format of the character under way, the character last held, unread or not; that character's stamp,
 * which is the receive tally after its stop sample's tick (0 where none since reset), and the tally itself. */
typedef struct ins2651_receiver {
    ins2651_sampling state;
    ins2651_format format;
    uint8_t holding;
    uint8_t unread;
    ins2651_rxc stamp;
    ins2651_rxc tally;
} ins2651_receiver;

/* The three error flags, the empty-mark and the change-mark. */
typedef struct ins2651_flags {
    uint8_t framing;
    uint8_t overrun;
    uint8_t parity;
    uint8_t empty;
    uint8_t change;
} ins2651_flags;

/* A device: any bytes will do. One that is out of range (docs/RANGES.md) is taken as one just reset. `status` is the status byte, which every
 * call keeps: behind a call a host may read it, as what ins2651_peek would answer, and is not to write it. A device whose byte is not what
 * its other fields mean is out of range. So is one of zeros (static storage, memset, {0}): its pins are low, which makes its byte 192.
 * Begin with INS2651_RESET or ins2651_reset. */
typedef struct ins2651 {
    ins2651_registers registers;
    ins2651_input_pins pins;
    ins2651_sender sender;
    ins2651_receiver receiver;
    ins2651_flags flags;
    uint8_t status;
} ins2651;

/* The initialiser of a device just reset: its inputs are high, all else is 0, the status byte too. */
#define INS2651_RESET \
    { {0, 0, 0, 0, 0, 0, 0, 0, 0},                        /* registers */ \
      {1, 1, 1},                                          /* pins */ \
      {{0, {0, 0, 0, 0, 0}, 0}, 0, 0, 0, {0}, {0}},       /* sender */ \
      {{0, 0, 0, 0, 0}, {0, 0, 0, 0, 0}, 0, 0, {0}, {0}}, /* receiver */ \
      {0, 0, 0, 0, 0},                                    /* flags */ \
      0 }                                                 /* status */

/* The layout is the archive's. Bytes 23, 45 to 47, 62 and 63 are padding: no call reads it and none keeps it, so compare devices
 * field by field and not by their bytes. Before request P7 byte 61 was padding too: a device kept in a file from before has no status
 * byte, and is to be given the one that its fields mean (docs/RANGES.md) before it is lent to a call. Before request P4 a device had 44
 * bytes, without the stamps and tallies; up to byte 22 it is as it was, the receiver then began at 24 and the flags at 38. Devices kept in
 * files are to be read field by field.
 * INS2651_HOLDS is for the headers that rest on this one too. */
#ifdef __cplusplus
#define INS2651_HOLDS(fact) static_assert(fact, #fact)
#else
#define INS2651_HOLDS(fact) _Static_assert(fact, #fact)
#endif
#define INS2651_AT(field, offset, size) \
    INS2651_HOLDS(offsetof(ins2651, field) == (offset) && sizeof(((ins2651 *)0)->field) == (size))
INS2651_HOLDS(sizeof(ins2651) == 64);
INS2651_AT(registers.mode1, 0, 1);
INS2651_AT(registers.mode2, 1, 1);
INS2651_AT(registers.accepted, 2, 1);
INS2651_AT(registers.command, 3, 1);
INS2651_AT(registers.syn1, 4, 1);
INS2651_AT(registers.syn2, 5, 1);
INS2651_AT(registers.dle, 6, 1);
INS2651_AT(registers.modes, 7, 1);
INS2651_AT(registers.syns, 8, 1);
INS2651_AT(pins.dsr, 9, 1);
INS2651_AT(pins.dcd, 10, 1);
INS2651_AT(pins.cts, 11, 1);
INS2651_AT(sender.frame.character, 12, 1);
INS2651_AT(sender.frame.format.factor, 13, 1);
INS2651_AT(sender.frame.format.length, 14, 1);
INS2651_AT(sender.frame.format.parity, 15, 1);
INS2651_AT(sender.frame.format.even, 16, 1);
INS2651_AT(sender.frame.format.stop, 17, 1);
INS2651_AT(sender.frame.place, 18, 2);
INS2651_AT(sender.holding, 20, 1);
INS2651_AT(sender.full, 21, 1);
INS2651_AT(sender.guard, 22, 1);
INS2651_AT(sender.start.ticks, 24, 4);
INS2651_AT(sender.tally.ticks, 28, 4);
INS2651_AT(receiver.state.phase, 32, 1);
INS2651_AT(receiver.state.countdown, 33, 1);
INS2651_AT(receiver.state.value, 34, 1);
INS2651_AT(receiver.state.wrong, 35, 1);
INS2651_AT(receiver.state.look, 36, 2);
INS2651_AT(receiver.format.factor, 38, 1);
INS2651_AT(receiver.format.length, 39, 1);
INS2651_AT(receiver.format.parity, 40, 1);
INS2651_AT(receiver.format.even, 41, 1);
INS2651_AT(receiver.format.stop, 42, 1);
INS2651_AT(receiver.holding, 43, 1);
INS2651_AT(receiver.unread, 44, 1);
INS2651_AT(receiver.stamp.ticks, 48, 4);
INS2651_AT(receiver.tally.ticks, 52, 4);
INS2651_AT(flags.framing, 56, 1);
INS2651_AT(flags.overrun, 57, 1);
INS2651_AT(flags.parity, 58, 1);
INS2651_AT(flags.empty, 59, 1);
INS2651_AT(flags.change, 60, 1);
INS2651_AT(status, 61, 1);
#undef INS2651_AT

/* Resets the device, all three inputs high; answers 0. */
uint16_t ins2651_reset(ins2651 *device);

/* Reads the register at an address; answers 256 times the refusal, plus the value. */
uint16_t ins2651_read(ins2651 *device, uint8_t address);

/* Writes the register at an address; answers the refusal. */
uint16_t ins2651_write(ins2651 *device, uint8_t address, uint8_t value);

/* Sets the levels of DSR, DCD and CTS; answers the refusal. */
uint16_t ins2651_pins(ins2651 *device, uint8_t dsr, uint8_t dcd, uint8_t cts);

/* Does a transmit tick; answers the level sent, 0 or 1. */
uint16_t ins2651_transmit(ins2651 *device);

/* Does a receive tick with the line at a level; answers the refusal. */
uint16_t ins2651_receive(ins2651 *device, uint8_t level);

/* Does both ticks of a device: a receive tick with the line at a level, then a transmit tick; answers 256 times the refusal, plus the
 * level sent; a level that is refused does neither tick, and the 0 beside its refusal is no level. It checks the device once, where
 * ins2651_receive and ins2651_transmit do so twice.
 * After one ins2651_transmit of each of two devices, n rounds in which each is ticked with the level that the other sent last are n joined
 * ticks and one more transmit tick of each: examples/host/two_ticks.c. */
uint16_t ins2651_tick(ins2651 *device, uint8_t level);

/* Answers the levels of the five outputs, by the bits named above; the device stays as it is. */
uint16_t ins2651_outputs(ins2651 *device);

/* Answers the status without reading the register: the mark of a change stays, and all of the device. Out of range it is the status of one
 * just reset, 0. For a debugger. */
uint16_t ins2651_peek(ins2651 *device);

/* Answers 1 where the device is in range (docs/RANGES.md), else 0; the device stays as it is. For a host that keeps devices in files: a
 * call on one that is out of range takes it as one just reset. */
uint16_t ins2651_in_range(ins2651 *device);

/* The stamp of the character that a read of address 0 gives: the receive tally after its stop sample's tick; 0 where none has come since
 * reset. A read leaves it. These four answer 0 for a device out of range, and leave the device as it is. (The archive answers a number, and
 * on x86-64 a struct of one number is answered as that number.) */
ins2651_rxc ins2651_stamp(ins2651 *device);

/* The transmit tally after the first tick of the last frame; 0 where none has begun since reset. */
ins2651_txc ins2651_start(ins2651 *device);

/* The tallies: ticks since reset, whatever is enabled, set or under way. A receive tick that is refused counts nothing. */
ins2651_txc ins2651_transmit_tally(ins2651 *device);
ins2651_rxc ins2651_receive_tally(ins2651 *device);

#ifdef __cplusplus
}
#endif

#endif
