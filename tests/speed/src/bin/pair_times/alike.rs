//! A pseudo-random run of calls, made by the proved ones and by the plain ones: from the same pair, the answers are the
//! same, and all fields of both devices. Behind each, a tick or a run of a copy in which devices or bytes were changed
//! meets states that no run from reset reaches, and devices out of range.

use crate::proved;
use model::draw::Draws;
use model::generate::ranges::device;
use speed::lent::{Device, DEVICE_BYTES};
use speed::pair::Pair;
use speed::pair::Unit::{self, A, B};

const STEPS: u32 = 1_000_000;

#[derive(Clone, Copy, Debug)]
enum Call {
    Read(Unit, u8),
    Write(Unit, u8, u8),
    Pins(Unit, [u8; 3]),
    Tick,
    Run(u32),
    Wait(Unit, u32),
}

impl Call {
    fn by_proved(self, pair: &mut Pair) -> u32 {
        u32::from(match self {
            Call::Read(unit, address) => proved::read(pair.device(unit), address),
            Call::Write(unit, address, value) => proved::write(pair.device(unit), address, value),
            Call::Pins(unit, levels) => proved::set_pins(pair.device(unit), levels),
            Call::Tick => proved::joined_tick(pair),
            Call::Run(n) => proved::joined_run(pair, n),
            Call::Wait(unit, limit) => return proved::joined_wait(pair, unit, limit),
        })
    }

    fn by_plain(self, pair: &mut Pair) -> u32 {
        u32::from(match self {
            Call::Read(unit, address) => pair.device(unit).read(address).into(),
            Call::Write(unit, address, value) => pair.device(unit).write(address, value).into(),
            Call::Pins(unit, [dsr, dcd, cts]) => pair.device(unit).set_pins(dsr, dcd, cts).into(),
            Call::Tick => pair.joined_tick(),
            Call::Run(n) => pair.joined_run(n),
            Call::Wait(unit, limit) => return pair.joined_wait(unit, limit),
        })
    }
}

/// The same call by both sides.
fn both(pair: &mut Pair, call: Call) -> Result<(), String> {
    let (before, mut plain) = (*pair, *pair);
    let answers = [call.by_proved(pair), call.by_plain(&mut plain)];
    if answers[0] == answers[1] && *pair == plain {
        return Ok(());
    }
    Err(format!(
        "{call:?} answers {answers:?}\nbefore {before:?}\nproved {pair:?}\nplain  {plain:?}"
    ))
}

/// Short runs and waits mostly, seldom some at the edges of the call.
fn run(draws: &mut Draws) -> Call {
    let edge = draws.of(&[0, 65_535, 65_536, 65_536 + 7, u32::MAX]);
    let short = draws.of(&[4, 40, 200, 1600]);
    let ticks = if draws.one_in(128) {
        edge
    } else {
        draws.below(short)
    };
    let unit = draws.of(&[A, B]);
    draws.of(&[Call::Run(ticks), Call::Wait(unit, ticks)])
}

/// A write that is mostly accepted, of a character more often than not.
fn write(draws: &mut Draws, unit: Unit) -> Call {
    let any = draws.byte();
    match draws.below(12) {
        0 => Call::Write(unit, 2, any | 65),
        1 => Call::Write(unit, 3, draws.of(&[39, 47, 55, 38, 35, any])),
        2 => Call::Write(unit, draws.below(4) as u8, any),
        _ => Call::Write(unit, 0, any),
    }
}

fn any_call(draws: &mut Draws) -> Call {
    let unit = draws.of(&[A, B]);
    match draws.below(16) {
        0 => Call::Pins(unit, [(); 3].map(|()| draws.of(&[0, 0, 0, 0, 1, 2]))),
        1 => Call::Tick,
        2 | 3 => Call::Read(unit, draws.below(4) as u8),
        4..=8 => write(draws, unit),
        _ => run(draws),
    }
}

/// Both ends anew, mostly in one mode.
fn set_up(draws: &mut Draws, pair: &mut Pair) -> Result<(), String> {
    let modes =
        [(); 2].map(|()| 64 * draws.between(1, 3) + 4 * draws.below(16) + draws.between(1, 3));
    let clocks = draws.of(&[0, 0, 0, 16, 32, 48]);
    let other = usize::from(draws.one_in(4));
    for (unit, mode1) in [(A, modes[0]), (B, modes[other])] {
        both(pair, Call::Read(unit, 3))?; // puts the mode pointer back
        both(pair, Call::Write(unit, 2, mode1 as u8))?;
        both(pair, Call::Write(unit, 2, clocks))?;
        both(pair, Call::Write(unit, 3, 39))?;
        both(pair, Call::Pins(unit, [0; 3]))?;
    }
    Ok(())
}

/// A pair in which a device is another one in range, or has one byte or two spoilt; now and then with tallies that wrap soon.
fn changed(draws: &mut Draws, pair: &Pair) -> Pair {
    let mut changed = *pair;
    let changes = 1 + draws.below(2);
    let spoils = !draws.one_in(4);
    for _ in 0..changes {
        let place = changed.device(draws.of(&[A, B]));
        if spoils {
            let value = draws.of(&[0, 1, 2, 5, 8, 15, 16, 63, 64]);
            place.spoil(draws.below(DEVICE_BYTES as u32) as usize, value);
        } else {
            *place = Device::of_bytes(device(draws));
        }
    }
    if draws.one_in(4) {
        for unit in [A, B] {
            let tallies = [(); 2].map(|()| draws.below(1600).wrapping_neg());
            changed.device(unit).set_tallies(tallies);
        }
    }
    changed
}

pub fn answer_alike() -> Result<(), String> {
    let draws = &mut Draws::new(9, 0);
    let mut pair = Pair::RESET;
    for _ in 0..STEPS {
        if draws.one_in(64) {
            set_up(draws, &mut pair)?;
        }
        both(&mut pair, any_call(draws))?;
        let call = if draws.one_in(4) {
            Call::Tick
        } else {
            run(draws)
        };
        both(&mut changed(draws, &pair), call)?;
    }
    println!("alike: {STEPS} calls, and as many on a pair that was changed");
    Ok(())
}
