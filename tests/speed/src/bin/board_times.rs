//! The times of the proved board's calls beside those of the plain one, as native code in one program, into which
//! `board/run` links the proved code. Every call goes through a pointer, so that neither side's is inlined. The sides take
//! turns in small batches, and the best batch counts; a checksum of the answers holds them together. Both sides' times
//! have the loop, the call through the pointer and the checksum in them. First a long pseudo-random run holds the two
//! sides to each other: each answer, and after each call the board and all fields of the room.

use speed::board::{self, Board, CHANNELS};
use speed::lent::{Device, DEVICE_BYTES};
use speed::turns::by_turns;
use std::hint::black_box;
use std::process::ExitCode;
use std::slice::from_raw_parts_mut;

// include/interfacer3.h.
extern "C" {
    fn interfacer3_in(board: *mut Board, room: *mut Device, channels: usize, port: u8) -> u16;
    fn interfacer3_out(
        b: *mut Board,
        room: *mut Device,
        channels: usize,
        port: u8,
        value: u8,
    ) -> u16;
    fn interfacer3_reset(board: *mut Board, room: *mut Device, channels: usize) -> u16;
    fn interfacer3_pins(
        b: *mut Board,
        r: *mut Device,
        n: usize,
        k: u8,
        dsr: u8,
        dcd: u8,
        cts: u8,
    ) -> u16;
    fn interfacer3_transmit(b: *mut Board, room: *mut Device, channels: usize, channel: u8) -> u16;
    fn interfacer3_receive(b: *mut Board, r: *mut Device, n: usize, channel: u8, level: u8) -> u16;
    fn interfacer3_outputs(b: *mut Board, room: *mut Device, channels: usize, channel: u8) -> u16;
    fn interfacer3_interrupts(board: *mut Board, room: *mut Device, channels: usize) -> u32;
}

type Of0<A> = unsafe extern "C" fn(*mut Board, *mut Device, usize) -> A;
type Of1 = unsafe extern "C" fn(*mut Board, *mut Device, usize, u8) -> u16;
type Of2 = unsafe extern "C" fn(*mut Board, *mut Device, usize, u8, u8) -> u16;
type Of4 = unsafe extern "C" fn(*mut Board, *mut Device, usize, u8, u8, u8, u8) -> u16;

/// The eight calls of one side.
struct Calls {
    input: Of1,
    output: Of2,
    reset: Of0<u16>,
    pins: Of4,
    transmit: Of1,
    receive: Of2,
    outputs: Of1,
    interrupts: Of0<u32>,
}

const PROVED: Calls = Calls {
    input: interfacer3_in,
    output: interfacer3_out,
    reset: interfacer3_reset,
    pins: interfacer3_pins,
    transmit: interfacer3_transmit,
    receive: interfacer3_receive,
    outputs: interfacer3_outputs,
    interrupts: interfacer3_interrupts,
};

const PLAIN: Calls = Calls {
    input: plain_in,
    output: plain_out,
    reset: plain_reset,
    pins: plain_pins,
    transmit: plain_transmit,
    receive: plain_receive,
    outputs: plain_outputs,
    interrupts: plain_interrupts,
};

/// The answer of a call without a value.
fn refusal(number: u8) -> u16 {
    256 * u16::from(number)
}

// The plain calls as C has them. SAFETY: the caller lends a board and a room of `n` devices.

unsafe extern "C" fn plain_in(b: *mut Board, r: *mut Device, n: usize, port: u8) -> u16 {
    (*b).input(from_raw_parts_mut(r, n), port)
}
unsafe extern "C" fn plain_out(
    b: *mut Board,
    r: *mut Device,
    n: usize,
    port: u8,
    value: u8,
) -> u16 {
    refusal((*b).output(from_raw_parts_mut(r, n), port, value))
}
unsafe extern "C" fn plain_reset(b: *mut Board, r: *mut Device, n: usize) -> u16 {
    refusal((*b).reset(from_raw_parts_mut(r, n)))
}
unsafe extern "C" fn plain_pins(
    _: *mut Board,
    r: *mut Device,
    n: usize,
    k: u8,
    dsr: u8,
    dcd: u8,
    cts: u8,
) -> u16 {
    refusal(board::set_pins(
        from_raw_parts_mut(r, n),
        k,
        [dsr, dcd, cts],
    ))
}
unsafe extern "C" fn plain_transmit(_: *mut Board, r: *mut Device, n: usize, k: u8) -> u16 {
    board::transmit(from_raw_parts_mut(r, n), k)
}
unsafe extern "C" fn plain_receive(
    _: *mut Board,
    r: *mut Device,
    n: usize,
    k: u8,
    level: u8,
) -> u16 {
    refusal(board::receive(from_raw_parts_mut(r, n), k, level))
}
unsafe extern "C" fn plain_outputs(_: *mut Board, r: *mut Device, n: usize, k: u8) -> u16 {
    board::outputs(from_raw_parts_mut(r, n), k)
}
unsafe extern "C" fn plain_interrupts(b: *mut Board, r: *mut Device, n: usize) -> u32 {
    (*b).interrupts(from_raw_parts_mut(r, n))
}

/// A board and its room.
#[derive(Clone, Copy, Debug, PartialEq)]
struct Rig {
    board: Board,
    room: [Device; CHANNELS],
}

impl Rig {
    /// Makes the call of a number, with its bytes and with `channels` of the room.
    fn call(&mut self, by: &Calls, channels: usize, which: u32, [x, y, z, w]: [u8; 4]) -> u32 {
        let (b, r, n) = (
            &mut self.board as *mut Board,
            self.room.as_mut_ptr(),
            channels,
        );
        // SAFETY: the board and the room are this rig's.
        let answer = unsafe {
            match which {
                IN => (by.input)(b, r, n, x),
                OUT => (by.output)(b, r, n, x, y),
                RESET => (by.reset)(b, r, n),
                PINS => (by.pins)(b, r, n, x, y, z, w),
                TRANSMIT => (by.transmit)(b, r, n, x),
                RECEIVE => (by.receive)(b, r, n, x, y),
                OUTPUTS => (by.outputs)(b, r, n, x),
                _ => return (by.interrupts)(b, r, n),
            }
        };
        answer.into()
    }
}

const IN: u32 = 0;
const OUT: u32 = 1;
const RESET: u32 = 2;
const PINS: u32 = 3;
const TRANSMIT: u32 = 4;
const RECEIVE: u32 = 5;
const OUTPUTS: u32 = 6;
const NAMES: [&str; 8] = [
    "in",
    "out",
    "reset",
    "pins",
    "transmit",
    "receive",
    "outputs",
    "interrupts",
];

// == both sides alike ==

const STEPS: u32 = 3_000_000;

/// SplitMix64.
struct Draws(u64);

impl Draws {
    fn below(&mut self, n: u32) -> u32 {
        self.0 = self.0.wrapping_add(0x9e37_79b9_7f4a_7c15);
        let mut mixed = self.0;
        mixed = (mixed ^ (mixed >> 30)).wrapping_mul(0xbf58_476d_1ce4_e5b9);
        mixed = (mixed ^ (mixed >> 27)).wrapping_mul(0x94d0_49bb_1331_11eb);
        (((mixed >> 32) * u64::from(n)) >> 32) as u32
    }

    fn byte(&mut self) -> u8 {
        self.below(256) as u8
    }

    /// A small number, seldom any.
    fn small(&mut self, n: u32) -> u8 {
        let any = self.byte();
        if self.below(16) == 0 {
            any
        } else {
            any % n as u8
        }
    }

    /// Any call with any numbers, most of them small; ports and ticks more often than others.
    fn call(&mut self) -> (u32, [u8; 4]) {
        let which = [
            IN,
            OUT,
            OUT,
            TRANSMIT,
            TRANSMIT,
            RECEIVE,
            RECEIVE,
            self.below(8),
        ][self.below(8) as usize];
        let mut bytes = [self.small(8), self.small(2), self.small(2), self.small(2)];
        if which == OUT {
            bytes[1] = match (bytes[0], self.below(4)) {
                (2, 1..) => self.byte() | 65,
                (3, 1..) => 37,
                (7, 1..) => self.byte() & 15,
                _ => self.byte(),
            };
        }
        (which, bytes)
    }
}

/// A channel of any bytes, one whose tallies wrap soon, and another number and select.
fn spoil(draws: &mut Draws, rig: &mut Rig) {
    let channel = draws.below(CHANNELS as u32) as usize;
    rig.room[channel] = Device::of_bytes([(); DEVICE_BYTES].map(|()| draws.byte()));
    let channel = draws.below(CHANNELS as u32) as usize;
    rig.room[channel].set_tallies([(); 2].map(|()| draws.below(16).wrapping_neg()));
    rig.board.number = draws.small(2);
    rig.board.select = (draws.byte() & 231) | (8 * (rig.board.number & 3));
}

/// A pseudo-random run on both sides. Whether all was the same; what was not is printed.
fn answer_alike() -> bool {
    let draws = &mut Draws(1);
    let board = Board {
        number: 0,
        select: 0,
        transmit_mask: 0,
        receive_mask: 0,
    };
    let room = [Device::RESET; CHANNELS];
    let (mut proved, mut plain) = (Rig { board, room }, Rig { board, room });
    for step in 0..STEPS {
        if draws.below(256) == 0 {
            spoil(draws, &mut proved);
            plain = proved;
        }
        let channels = if draws.below(64) == 0 {
            draws.below(8) as usize
        } else {
            CHANNELS
        };
        let (which, bytes) = draws.call();
        let before = proved;
        let answers = [
            proved.call(&PROVED, channels, which, bytes),
            plain.call(&PLAIN, channels, which, bytes),
        ];
        if answers[0] != answers[1] || proved != plain {
            println!("board: step {step}: {} with {bytes:?} in a room of {channels}: proved, plain: {answers:?}", NAMES[which as usize]);
            println!("before {before:?}\nproved {proved:?}\nplain  {plain:?}");
            return false;
        }
    }
    println!("alike: {STEPS} calls");
    true
}

// == times ==

/// The calls on one room, which a frame and a character of 64 ticks a bit outlast, and those between two looks at the clock.
const STRETCH: u32 = 512;
const BATCH: u32 = 8 * STRETCH;

/// Each channel set up with 8 bits, even, 64 ticks a bit; where `under_way`, behind the look at the start, with a frame and
/// a character under way.
fn begun(by: &Calls, under_way: bool) -> Rig {
    let board = Board {
        number: 1,
        select: 8,
        transmit_mask: 0x52,
        receive_mask: 0x8c,
    };
    let mut rig = Rig {
        board,
        room: [Device::RESET; CHANNELS],
    };
    for channel in (0..CHANNELS as u8).rev() {
        let ports = [(7, 8 + channel), (2, 127), (2, 0), (3, 7)];
        for (port, value) in ports {
            rig.call(by, CHANNELS, OUT, [port, value, 0, 0]);
        }
        rig.call(by, CHANNELS, PINS, [channel, 0, 0, 0]);
        rig.call(by, CHANNELS, RECEIVE, [channel, 1, 0, 0]);
        if under_way {
            rig.call(by, CHANNELS, OUT, [0, 0x55, 0, 0]);
            for _ in 0..40 {
                rig.call(by, CHANNELS, TRANSMIT, [channel, 0, 0, 0]);
                rig.call(by, CHANNELS, RECEIVE, [channel, 0, 0, 0]);
            }
        }
    }
    rig
}

/// A batch of calls from what is begun; it answers a checksum.
type Batch = fn(&Calls, &Rig) -> u32;

/// A batch of one call of `by` on `b`, `r` and a room of eight, which may have `i`, the number of the call.
macro_rules! batch {
    ($by:ident, $b:ident, $r:ident, $i:ident, $call:expr) => {
        |$by, begun| {
            let mut sum = 0u32;
            for _ in 0..BATCH / STRETCH {
                let mut rig = *begun;
                let ($b, $r) = (&mut rig.board as *mut Board, rig.room.as_mut_ptr());
                for $i in 0..STRETCH {
                    // SAFETY: the board and the room are this rig's.
                    let answer: u32 = unsafe { $call }.into();
                    sum = sum.wrapping_mul(31).wrapping_add(answer);
                }
            }
            sum
        }
    };
}

const ROWS: [(&str, Batch, bool); 14] = [
    (
        "poll of port 4, idle",
        batch!(by, b, r, _i, (by.input)(b, r, CHANNELS, 4)),
        false,
    ),
    (
        "poll of port 4, all under way",
        batch!(by, b, r, _i, (by.input)(b, r, CHANNELS, 4)),
        true,
    ),
    (
        "poll of port 5, idle",
        batch!(by, b, r, _i, (by.input)(b, r, CHANNELS, 5)),
        false,
    ),
    (
        "poll of port 5, all under way",
        batch!(by, b, r, _i, (by.input)(b, r, CHANNELS, 5)),
        true,
    ),
    (
        "interrupts, all under way",
        batch!(by, b, r, _i, (by.interrupts)(b, r, CHANNELS)),
        true,
    ),
    (
        "status read, idle",
        batch!(by, b, r, _i, (by.input)(b, r, CHANNELS, 1)),
        false,
    ),
    (
        "status read, under way",
        batch!(by, b, r, _i, (by.input)(b, r, CHANNELS, 1)),
        true,
    ),
    (
        "data read, idle",
        batch!(by, b, r, _i, (by.input)(b, r, CHANNELS, 0)),
        false,
    ),
    (
        "data write, idle",
        batch!(by, b, r, i, (by.output)(b, r, CHANNELS, 0, i as u8)),
        false,
    ),
    (
        "select write",
        batch!(by, b, r, i, (by.output)(b, r, CHANNELS, 7, i as u8)),
        false,
    ),
    (
        "transmit, idle",
        batch!(by, b, r, _i, (by.transmit)(b, r, CHANNELS, 5)),
        false,
    ),
    (
        "transmit, frame under way",
        batch!(by, b, r, _i, (by.transmit)(b, r, CHANNELS, 5)),
        true,
    ),
    (
        "receive, idle",
        batch!(by, b, r, _i, (by.receive)(b, r, CHANNELS, 5, 1)),
        false,
    ),
    (
        "receive, character under way",
        batch!(
            by,
            b,
            r,
            i,
            (by.receive)(b, r, CHANNELS, 5, (i >> 6 & 1) as u8)
        ),
        true,
    ),
];

/// Whether the checksums are the same.
fn measure((title, batch, under_way): (&str, Batch, bool)) -> bool {
    let timed = |by: &'static Calls| {
        let begun = begun(by, under_way);
        move || batch(black_box(by), black_box(&begun))
    };
    let (times, alike) = by_turns(timed(&PROVED), timed(&PLAIN));
    let [a, b] = times.map(|time| time / f64::from(BATCH));
    println!("{title:<30} {a:9.2} {b:9.2} {:9.2}", a / b);
    if !alike {
        println!("board: the answers of '{title}' differ");
    }
    alike
}

fn main() -> ExitCode {
    if !answer_alike() {
        return ExitCode::FAILURE;
    }
    println!(
        "{:<30} {:>9} {:>9} {:>9}",
        "ns a call", "proved", "plain", "ratio"
    );
    if ROWS.into_iter().all(measure) {
        ExitCode::SUCCESS
    } else {
        ExitCode::FAILURE
    }
}
