//! Set-ups in any order, mixed between the units: calls with no tick and no
//! character written, that lead both ends to what they must hold before the one
//! joined tick ("Receiving").

use super::{any_mode, hostile, limits, Script, ACCEPTED_MODES, UNITS};
use crate::delivery::side::{Side, RESET_ERROR};
use crate::draw::Draws;
use crate::session::{Record, Unit};

/// Calls in a set-up that are not for what must be held, at most, and calls
/// before it.
const NEEDLESS: u32 = 24;
const EARLIER: u32 = 20;

/// Lines of no known shape, some near to what would spoil a set-up.
const SHAPELESS: [&str; 14] = [
    "",
    "L\t65536",
    "L\t1\r",
    "L 1",
    "w\tA\t2\t77",
    "W\tB\t2\t256",
    "W\tA\t0",
    "R\tC\t2",
    "P\tB\t1\t1",
    "Z\tA\t0",
    "B\tA\t100000",
    "B\tC\t1",
    "b\tB\t1",
    "B\tA",
];

/// What was called so far: the two sides, and whether each is reset.
struct SetUp<'a> {
    script: &'a mut Script,
    sides: [Side; 2],
    reset: [bool; 2],
}

/// Brings both units to `goals`, whose mode pointers say nothing.
pub fn set_up(script: &mut Script, draws: &mut Draws, goals: [Side; 2]) {
    let mut set_up = SetUp {
        script,
        sides: [Side::RESET; 2],
        reset: [true; 2],
    };
    if draws.one_in(4) {
        set_up.leave_something(draws);
    }
    let mut needless = draws.between(0, NEEDLESS);
    loop {
        if needless > 0 && draws.one_in(2) {
            needless -= 1;
            set_up.call_needlessly(draws);
            continue;
        }
        let calls = UNITS.map(|unit| set_up.nearer(draws, unit, &goals));
        let calls = calls.concat();
        if calls.is_empty() {
            break;
        }
        set_up.add(draws.of(&calls));
    }
}

impl SetUp<'_> {
    fn add(&mut self, record: Record) {
        self.script.add(record);
        if let Some(unit) = record.unit() {
            let side = &mut self.sides[unit as usize];
            if side.refusal(record) == 0 {
                side.take(record);
                self.reset[unit as usize] |= matches!(record, Record::Reset(_));
            }
        }
    }

    /// Frames, breaks, flags and the like, as any two devices may have them: the
    /// set-up has to reset both.
    fn leave_something(&mut self, draws: &mut Draws) {
        let any = draws.below(ACCEPTED_MODES);
        for record in hostile::opening(draws, any) {
            self.add(record);
        }
        for _ in 0..draws.between(1, EARLIER) {
            self.add(hostile::record(draws));
        }
        self.reset = [false; 2];
    }

    /// Calls that each bring `unit` nearer to its goal; none where it is there.
    fn nearer(&self, draws: &mut Draws, unit: Unit, goals: &[Side; 2]) -> Vec<Record> {
        let (side, goal) = (&self.sides[unit as usize], &goals[unit as usize]);
        if !self.reset[unit as usize] {
            return vec![Record::Reset(unit)];
        }
        let mode1 = Record::Write(unit, 2, goal.mode1);
        let mode2 = Record::Write(unit, 2, goal.mode2);
        let (read, put_back) = (Record::Read(unit, 2), Record::Read(unit, 3));
        let mut calls = Vec::new();
        // The mode pointer is to be at the mode that is written.
        match (side.mode1 == goal.mode1, side.mode2_next) {
            (false, false) => calls.push(mode1),
            (false, true) => calls.push(draws.of(&[mode2, read, put_back])),
            (true, _) if side.mode2 == goal.mode2 => {}
            (true, true) => calls.push(mode2),
            (true, false) => calls.push(draws.of(&[mode1, read])),
        }
        if side.command != goal.command {
            let reset_error = draws.byte() & RESET_ERROR;
            calls.push(Record::Write(unit, 3, goal.command | reset_error));
        }
        if side.pins != goal.pins {
            calls.push(Record::Pins(unit, goal.pins));
        }
        calls
    }

    /// Any line but a tick and a write of address 0.
    fn call_needlessly(&mut self, draws: &mut Draws) {
        let unit = draws.of(&UNITS);
        let record = match draws.below(12) {
            0..=1 => return self.script.line(&shapeless(draws)),
            2..=5 => harmless(draws, unit),
            6 => Record::Write(unit, 2, draws.byte()),
            7 => Record::Write(unit, 2, any_mode(draws)),
            8 => Record::Write(unit, 3, draws.byte()),
            9 => Record::Write(unit, 3, draws.byte() & 63),
            10 => Record::Pins(unit, [(); 3].map(|()| draws.below(2) as u8)),
            _ => Record::Reset(unit),
        };
        self.add(record);
    }
}

/// A call that changes nothing that demand 3 rests on: a read, a SYN write, no
/// tick at all, no wait, or a call that is refused.
pub fn harmless(draws: &mut Draws, unit: Unit) -> Record {
    let too_high = draws.between(4, 255) as u8;
    match draws.below(14) {
        0..=4 => Record::Read(unit, draws.below(4) as u8),
        5 => Record::Read(unit, too_high),
        6..=7 => Record::Write(unit, 1, draws.byte()),
        8 => Record::Write(unit, too_high, draws.byte()),
        9 => Record::Write(unit, 3, 64 | draws.byte()),
        10 => Record::Pins(unit, [draws.below(3) as u8, 2, draws.byte()]),
        11 => Record::Wait(unit, 0),
        12 => Record::Wait(unit, limits::too_high(draws)),
        _ => Record::JoinedTicks(0),
    }
}

/// A line of no known shape, or one that is too long.
pub fn shapeless(draws: &mut Draws) -> String {
    if draws.one_in(6) {
        "x".repeat(draws.between(65, 70) as usize)
    } else {
        draws.of(&SHAPELESS).to_string()
    }
}
