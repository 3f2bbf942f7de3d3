//! Programs with a fault: what it does to a device behind a call, by its bytes, and the
//! session, the pair and the board that have it.

use model::board::lines::{Side, PLACES};
use model::board::{Answer as BoardAnswer, Call as BoardCall, CHANNELS};
use model::calls::{numbers, Call, Lent, Line, DEVICE_BYTES};
use model::chip::Chip;
use model::pair::{named, Answer as PairAnswer, Call as PairCall, Pair, RUN_LIMIT};
use model::session::{answer_on, Bench, Record, Unit};
use model::wait::{wait, WAIT_LIMIT};

pub type Bytes = [u8; DEVICE_BYTES];

/// A call and its refusal, the device before it, and behind it, where it is changed.
pub type Fault = fn(&Call, u8, &Bytes, &mut Bytes);

/// A call of a device with a fault. Both ticks in one call are one behind the other.
pub fn call(lent: &mut Lent, of_chip: &Call, fault: Fault) -> (u8, Vec<u32>) {
    if let Call::Tick(level @ 0..=1) = *of_chip {
        call(lent, &Call::Receive(level), fault);
        let (_, sent) = call(lent, &Call::Transmit, fault);
        return (0, vec![0, sent[0]]);
    }
    let before = lent.bytes();
    let answer = lent.call(of_chip);
    changed(lent, of_chip, answer.0, &before, fault);
    answer
}

fn changed(lent: &mut Lent, call: &Call, refusal: u8, before: &Bytes, fault: Fault) {
    let mut after = lent.bytes();
    let right = after;
    fault(call, refusal, before, &mut after);
    if after != right {
        *lent = Lent::of_bytes(after);
    }
}

/// What the driver of one device answers to some lines.
pub fn output(fault: Fault, lines: &[Line]) -> String {
    let mut lent = Lent::InRange(Chip::just_reset());
    let answers = lines.iter().map(|line| match line {
        Line::Call(of_chip) => numbers(&call(&mut lent, of_chip, fault).1) + "\n",
        _ => lent.answer(line) + "\n",
    });
    answers.collect()
}

fn tick(pair: &mut Pair, fault: Fault) -> [u32; 2] {
    let [from_a, from_b] = [&mut pair.a, &mut pair.b].map(|end| {
        let (_, sent) = call(end, &Call::Transmit, fault);
        sent[0]
    });
    call(&mut pair.a, &Call::Receive(from_b as u8), fault);
    call(&mut pair.b, &Call::Receive(from_a as u8), fault);
    [from_a, from_b]
}

pub fn on_pair(pair: &mut Pair, of_pair: &PairCall, fault: Fault) -> PairAnswer {
    match *of_pair {
        PairCall::Tick => {
            let [from_a, from_b] = tick(pair, fault);
            (0, vec![2 * from_b + from_a])
        }
        PairCall::Run(ticks @ ..=RUN_LIMIT) => {
            for _ in 0..ticks {
                tick(pair, fault);
            }
            (0, vec![0])
        }
        PairCall::Wait(number, limit @ ..=WAIT_LIMIT) => {
            let holds = |pair: &Pair| pair.end(named(number)).holds_unread();
            let spent = wait(pair, limit, holds, |pair| {
                tick(pair, fault);
            });
            (0, vec![0, spent.expect("no limit that is too high").into()])
        }
        PairCall::On(unit, of_chip) => call(pair.end_mut(unit), &of_chip, fault),
        _ => pair.call(of_pair),
    }
}

/// The call of a chip that a board's is, and the channel that it is on, where it is one
/// of the low numbers; a reset is on each.
fn on_channel(side: &Side, call: &BoardCall) -> Option<(Call, u8)> {
    let selected = side.board.selected();
    Some(match *call {
        BoardCall::In(port @ 0..=3) => (Call::Read(port), selected),
        BoardCall::Out(port @ 0..=3, value) => (Call::Write(port, value), selected),
        BoardCall::Pins(channel, levels) => (Call::Pins(levels), channel),
        BoardCall::Transmit(channel) => (Call::Transmit, channel),
        BoardCall::Receive(channel, level) => (Call::Receive(level), channel),
        _ => return None,
    })
}

pub fn on_board(side: &mut Side, of_board: &BoardCall, fault: Fault) -> BoardAnswer {
    let of_chip = on_channel(side, of_board);
    let before: Vec<Bytes> = side.room.iter().map(Lent::bytes).collect();
    let answer = side.call(of_board);
    let mut change = |place: usize, call: &Call| {
        changed(&mut side.room[place], call, answer.0, &before[place], fault);
    };
    match of_chip {
        Some((call, channel)) if usize::from(channel) < PLACES => change(channel.into(), &call),
        None if *of_board == BoardCall::Reset => {
            (0..CHANNELS).for_each(|place| change(place, &Call::Reset));
        }
        _ => {}
    }
    answer
}

/// A session of two lent devices.
struct OfSession {
    pair: Pair,
    fault: Fault,
}

impl OfSession {
    fn on(&mut self, unit: Unit, of_chip: Call) -> Result<Vec<u32>, u8> {
        match call(self.pair.end_mut(unit), &of_chip, self.fault) {
            (0, answer) => Ok(answer),
            (refusal, _) => Err(refusal),
        }
    }
}

impl Bench for OfSession {
    fn act(&mut self, record: Record) -> Result<String, u8> {
        let done = |_: Vec<u32>| String::new();
        match record {
            Record::Write(unit, address, value) => {
                self.on(unit, Call::Write(address, value)).map(done)
            }
            Record::Pins(unit, levels) => self.on(unit, Call::Pins(levels)).map(done),
            Record::Reset(unit) => self.on(unit, Call::Reset).map(done),
            Record::Read(unit, address) => {
                let value = self.on(unit, Call::Read(address))?[1];
                let mut line = format!("R\t{unit:?}\t{address}\t{value}");
                if address == 0 {
                    line += &format!("\t{}", self.pair.end(unit).view().stamp);
                }
                Ok(line + "\n")
            }
            Record::JoinedTicks(count) => {
                on_pair(&mut self.pair, &PairCall::Run(count.into()), self.fault);
                Ok(String::new())
            }
            Record::Wait(unit, limit) => {
                let wait = PairCall::Wait(unit as u32, limit);
                match on_pair(&mut self.pair, &wait, self.fault) {
                    (0, numbers) => Ok(format!("B\t{unit:?}\t{}\n", numbers[1])),
                    (refusal, _) => Err(refusal),
                }
            }
        }
    }
}

pub fn wrong_answer(fault: Fault, input: &[u8]) -> Vec<u8> {
    let pair = Pair::just_reset();
    answer_on(&mut OfSession { pair, fault }, input)
}
