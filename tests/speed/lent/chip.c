/* The chip of include/ins2651.h written by hand, in plain C: the same fourteen calls on the same struct, in place, each with the exact
 * check of docs/RANGES.md. It is what tests/speed/lent/run times the proved calls against; tests/random holds it to the independent model.
 * The sections named are those of document 01. */
#include <string.h>

#include "ins2651.h"

/* A compiler that is only asked leaves the range check out of line, and a call costs as much as half of it. */
#define INLINE static inline __attribute__((always_inline))

/* Where the receiver stands: `phase`. */
enum { WAITING, SEARCHING, HEARING };

static const ins2651_frame no_frame;
static const ins2651_format no_format;

/* == ranges: `&` and `|` where a branch would cost more than what it spares == */

INLINE int format_in_range(const ins2651_format *f) {
    unsigned factor = f->factor, stop = f->stop;
    return (factor == 1 || factor == 16 || factor == 64) && f->length >= 5 && f->length <= 8 && (f->parity | f->even) <= 1 &&
           (stop == factor || stop == factor + factor / 2 || stop == 2 * factor);
}

/* L of "Sending". */
INLINE unsigned frame_length(const ins2651_format *f) { return f->factor * (1u + f->length + f->parity) + f->stop; }

INLINE int registers_in_range(const ins2651_registers *r) {
    int set = (r->accepted == 1) & ((r->mode1 & 3) != 0) & (r->mode1 >= 64);
    int unset = (r->accepted | r->mode1) == 0;
    return (set | unset) & ((r->command & 208) == 0) & (r->modes <= 1) & (r->syns <= 2);
}

INLINE int sender_in_range(const ins2651_sender *s) {
    const ins2651_frame *frame = &s->frame;
    int held = (s->full == 1) | ((s->full | s->holding) == 0);
    if (!frame->place) return held & (s->guard <= 64) & (memcmp(frame, &no_frame, sizeof no_frame) == 0);
    return held && !s->guard && format_in_range(&frame->format) && frame->place < frame_length(&frame->format);
}

INLINE int character_in_range(const ins2651_sampling *s, const ins2651_format *f) {
    if (!format_in_range(f)) return 0;
    unsigned stop_look = f->length + f->parity + 1u;
    unsigned bits = s->look ? s->look - 1u : 0;
    if (bits > f->length) bits = f->length;
    return s->look <= stop_look && s->countdown < (s->look ? f->factor : f->factor / 2) && !(s->value >> bits) &&
           s->wrong <= (f->parity && s->look == stop_look);
}

/* With no character under way all is 0 from `countdown` to the end of the format. */
INLINE int receiver_in_range(const ins2651_receiver *r) {
    enum { FROM = offsetof(ins2651_receiver, state.countdown), TO = offsetof(ins2651_receiver, holding) };
    static const char none[TO - FROM];
    if (r->state.phase > SEARCHING) return r->state.phase == HEARING && character_in_range(&r->state, &r->format);
    return memcmp((const char *)r + FROM, none, sizeof none) == 0;
}

/* The status byte that the other fields mean. */
INLINE uint8_t meant_status(const ins2651 *d) {
    int pins = d->pins.dsr << 7 | d->pins.dcd << 6;
    int errors = d->flags.framing << 5 | d->flags.overrun << 4 | d->flags.parity << 3;
    int may_write = d->registers.command & INS2651_COMMAND_TRANSMIT & ~d->sender.full;
    return (uint8_t)((pins ^ 192) | errors | (d->flags.empty | d->flags.change) << 2 | d->receiver.unread << 1 | may_write);
}

/* Any number is in range in the tallies and stamps. */
INLINE int in_range(const ins2651 *d) {
    const ins2651_input_pins *p = &d->pins;
    uint32_t flags; /* four of them, looked at as one word */
    memcpy(&flags, &d->flags, sizeof flags);
    int levels = ((p->dsr | p->dcd | p->cts | d->flags.change | d->receiver.unread) <= 1) & ((flags & 0xfefefefe) == 0);
    return levels & registers_in_range(&d->registers) & sender_in_range(&d->sender) & receiver_in_range(&d->receiver) &
           (d->status == meant_status(d));
}

INLINE void reset(ins2651 *d) { *d = (ins2651)INS2651_RESET; }

/* Behind a change of a field that the status byte follows. */
INLINE void restate(ins2651 *d) { d->status = meant_status(d); }

/* A device out of range is taken as one just reset. */
INLINE void settle(ins2651 *d) { if (!in_range(d)) reset(d); }

/* == formats == */

INLINE uint8_t factor_of(uint8_t mode1, int internal) { return internal || (mode1 & 3) == 2 ? 16 : (mode1 & 3) == 1 ? 1 : 64; }

/* Stop lengths 1, 2, 3 are 2, 3, 4 half bits; with a factor of 1 one and a half is cut to one tick. */
INLINE ins2651_format format_of(uint8_t mode1, int internal) {
    uint8_t factor = factor_of(mode1, internal);
    uint8_t stop = (uint8_t)(factor * ((mode1 >> 6) + 1) / 2);
    return (ins2651_format){factor, 5 + (mode1 >> 2 & 3), mode1 >> 4 & 1, mode1 >> 5 & 1, stop};
}

/* The parity level that goes with data bits, and nothing above them. */
INLINE unsigned parity_level(const ins2651_format *f, unsigned data) { return (unsigned)__builtin_parity(data) ^ f->even ^ 1; }

/* == "Sending" == */

INLINE unsigned level_at(const ins2651_frame *frame) {
    const ins2651_format *f = &frame->format;
    unsigned bit = frame->place >> __builtin_ctz(f->factor);
    if (bit == 0) return 0;
    if (bit <= f->length) return frame->character >> (bit - 1) & 1;
    if (bit == f->length + 1u && f->parity) return parity_level(f, frame->character & ((1u << f->length) - 1));
    return 1;
}

INLINE unsigned frame_tick(ins2651 *d) {
    ins2651_frame *frame = &d->sender.frame;
    unsigned level = level_at(frame);
    if (++frame->place == frame_length(&frame->format)) {
        *frame = no_frame;
        if (!d->sender.full && (d->registers.command & INS2651_COMMAND_TRANSMIT)) {
            d->flags.empty = 1;
            d->status |= INS2651_STATUS_TXEMT;
        }
    }
    return level;
}

INLINE unsigned transmit_tick(ins2651 *d) {
    const ins2651_registers *r = &d->registers;
    ins2651_sender *s = &d->sender;
    s->tally.ticks++;
    if (s->frame.place) return frame_tick(d);
    int internal = r->mode2 & INS2651_MODE2_TRANSMIT_INTERNAL;
    int ready = (r->command & INS2651_COMMAND_TRANSMIT) && !d->pins.cts && r->accepted;
    if (ready && (r->command & INS2651_COMMAND_BREAK)) {
        s->guard = factor_of(r->mode1, internal);
        return 0;
    }
    if (s->guard) {
        s->guard--;
    } else if (ready && s->full) {
        s->frame = (ins2651_frame){s->holding, format_of(r->mode1, internal), 1}; /* this tick was its first */
        s->holding = s->full = 0;
        d->status |= INS2651_STATUS_TXRDY; /* transmit is enabled */
        s->start = s->tally;
        return 0;
    }
    return 1;
}

/* == "Receiving" == */

INLINE void rest(ins2651_receiver *r, uint8_t phase) {
    r->state = (ins2651_sampling){phase, 0, 0, 0, 0};
    r->format = no_format;
}

/* With a factor of 1 the first look is the only one at the start, and it was a 0. */
INLINE void start(ins2651_receiver *r, ins2651_format format) {
    uint8_t half = format.factor / 2;
    r->state = (ins2651_sampling){HEARING, half ? half - 1 : 0, 0, 0, !half};
    r->format = format;
}

INLINE void arrive(ins2651 *d, uint8_t stop) {
    ins2651_receiver *r = &d->receiver;
    d->flags.overrun |= r->unread;
    d->flags.parity |= r->state.wrong;
    d->flags.framing |= !stop;
    r->holding = r->state.value;
    r->unread = 1;
    r->stamp = r->tally;
    rest(r, stop ? SEARCHING : WAITING);
    restate(d);
}

INLINE void look(ins2651 *d, uint8_t level) {
    ins2651_receiver *r = &d->receiver;
    ins2651_sampling *s = &r->state;
    const ins2651_format *f = &r->format;
    if (s->look == 0) {
        if (level) {
            rest(r, SEARCHING); /* a false start is the mark for a new search */
            return;
        }
    } else if (s->look <= f->length) {
        s->value |= (uint8_t)(level << (s->look - 1));
    } else if (s->look == f->length + 1 && f->parity) {
        s->wrong = level != parity_level(f, s->value);
    } else {
        arrive(d, level);
        return;
    }
    s->look++;
    s->countdown = f->factor - 1;
}

INLINE void receive_tick(ins2651 *d, uint8_t level) {
    const ins2651_registers *r = &d->registers;
    ins2651_sampling *s = &d->receiver.state;
    d->receiver.tally.ticks++;
    if (!(r->command & INS2651_COMMAND_RECEIVE) || d->pins.dcd || !r->accepted) rest(&d->receiver, WAITING);
    else if (s->phase == WAITING) s->phase = level ? SEARCHING : WAITING;
    else if (s->phase == HEARING && s->countdown) s->countdown--;
    else if (s->phase == HEARING) look(d, level);
    else if (!level) start(&d->receiver, format_of(r->mode1, r->mode2 & INS2651_MODE2_RECEIVE_INTERNAL));
}

/* == "Registers" == */

INLINE void write_syn(ins2651_registers *r, uint8_t value) {
    if (r->syns == 0) r->syn1 = value;
    else if (r->syns == 1) r->syn2 = value;
    else r->dle = value;
    r->syns = r->syns == 2 ? 0 : r->syns + 1;
}

/* Whether it is refused depends on the mode pointer, which is mode 1's on a device out of range. */
INLINE uint16_t write_mode(ins2651 *d, uint8_t value) {
    ins2651_registers *r = &d->registers;
    int sound = in_range(d);
    if (sound && r->modes) {
        r->mode2 = value;
        r->modes = 0;
        return INS2651_DONE;
    }
    if (!(value & 3)) return INS2651_SYNCHRONOUS;
    if (!(value & 192)) return INS2651_NO_STOP_LENGTH;
    if (!sound) reset(d);
    r->mode1 = value;
    r->accepted = r->modes = 1;
    return INS2651_DONE;
}

INLINE void write_command(ins2651 *d, uint8_t value) {
    int receive = value & INS2651_COMMAND_RECEIVE;
    d->registers.command = value & (uint8_t)~INS2651_COMMAND_RESET_ERROR;
    if (!receive || (value & INS2651_COMMAND_RESET_ERROR)) d->flags.framing = d->flags.overrun = d->flags.parity = 0;
    if (!(value & INS2651_COMMAND_TRANSMIT)) d->flags.empty = 0;
    if (!receive) {
        rest(&d->receiver, WAITING);
        d->receiver.unread = 0;
    }
    restate(d);
}

/* == the calls == */

uint16_t ins2651_reset(ins2651 *d) {
    reset(d);
    return INS2651_DONE;
}

uint16_t ins2651_read(ins2651 *d, uint8_t address) {
    if (address > INS2651_COMMAND) return INS2651_NO_SUCH_ADDRESS << 8;
    settle(d);
    ins2651_registers *r = &d->registers;
    switch (address) {
    case INS2651_DATA: d->receiver.unread = 0; d->status &= (uint8_t)~INS2651_STATUS_RXRDY; return d->receiver.holding;
    case INS2651_STATUS: {
        uint8_t before = d->status;
        d->flags.change = 0;
        restate(d);
        return before;
    }
    case INS2651_MODE: r->modes ^= 1; return r->modes ? r->mode1 : r->mode2;
    default: r->modes = r->syns = 0; return r->command;
    }
}

uint16_t ins2651_write(ins2651 *d, uint8_t address, uint8_t value) {
    if (address > INS2651_COMMAND) return INS2651_NO_SUCH_ADDRESS;
    if (address == INS2651_MODE) return write_mode(d, value);
    if (address == INS2651_COMMAND && value > 63) return INS2651_NOT_NORMAL_OPERATION;
    settle(d);
    switch (address) {
    case INS2651_DATA: d->sender.holding = value; d->sender.full = 1; d->flags.empty = 0; restate(d); break;
    case INS2651_STATUS: write_syn(&d->registers, value); break;
    default: write_command(d, value);
    }
    return INS2651_DONE;
}

uint16_t ins2651_pins(ins2651 *d, uint8_t dsr, uint8_t dcd, uint8_t cts) {
    if ((dsr | dcd | cts) > 1) return INS2651_NO_SUCH_LEVEL;
    settle(d);
    d->flags.change |= (dsr ^ d->pins.dsr) | (dcd ^ d->pins.dcd);
    d->pins = (ins2651_input_pins){dsr, dcd, cts};
    restate(d);
    return INS2651_DONE;
}

uint16_t ins2651_transmit(ins2651 *d) {
    settle(d);
    return (uint16_t)transmit_tick(d);
}

uint16_t ins2651_receive(ins2651 *d, uint8_t level) {
    if (level > 1) return INS2651_NO_SUCH_LEVEL;
    settle(d);
    receive_tick(d, level);
    return INS2651_DONE;
}

uint16_t ins2651_tick(ins2651 *d, uint8_t level) {
    if (level > 1) return INS2651_NO_SUCH_LEVEL << 8;
    settle(d);
    receive_tick(d, level);
    return (uint16_t)transmit_tick(d);
}

/* The outputs are active low; those of a device just reset are high. */
uint16_t ins2651_outputs(ins2651 *d) {
    int command = d->registers.command;
    int active = (d->status & 7) | (command & INS2651_COMMAND_DTR) << 2 | (command & INS2651_COMMAND_RTS) >> 1;
    return in_range(d) ? (uint16_t)(active ^ 31) : 31;
}

/* The status of a device just reset is 0. */
uint16_t ins2651_peek(ins2651 *d) { return in_range(d) ? d->status : 0; }
uint16_t ins2651_in_range(ins2651 *d) { return (uint16_t)in_range(d); }

/* A device just reset has stamps and tallies of 0. */
ins2651_rxc ins2651_stamp(ins2651 *d) { return in_range(d) ? d->receiver.stamp : (ins2651_rxc){0}; }
ins2651_txc ins2651_start(ins2651 *d) { return in_range(d) ? d->sender.start : (ins2651_txc){0}; }
ins2651_txc ins2651_transmit_tally(ins2651 *d) { return in_range(d) ? d->sender.tally : (ins2651_txc){0}; }
ins2651_rxc ins2651_receive_tally(ins2651 *d) { return in_range(d) ? d->receiver.tally : (ins2651_rxc){0}; }
