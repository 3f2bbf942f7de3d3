//! Wrong waits of a session: what each does on the two chips, and the bench that has it.

use model::chip::joined_ticks;
use model::session::{answer_on, other, Bench, Pair, Record, Unit, UNITS};
use model::wait::{WAIT_LIMIT, WAIT_TOO_LONG};

/// The ticks that it says it spends, or its refusal.
pub type Wait = fn(&mut Pair, Unit, u32) -> Result<u16, u8>;

/// Each wrong wait, and whether the sessions of demand 3 show it by their answers alone.
pub const ALL: &[(&str, Wait, bool)] = &[
    ("a character there is waited for", there_ticks, true),
    ("a wait does a tick more", one_more, true),
    ("a wait does a tick less", one_less, true),
    ("a wait always counts its limit", counts_limit, true),
    ("a wait uses up its limit", whole_limit, true),
    ("a wait that ends early counts no tick", counts_none, true),
    ("a wait does no tick", stands, true),
    ("a character at either unit ends a wait", either_ends, true),
    (
        "a character at the other unit ends a wait",
        other_ends,
        true,
    ),
    ("a wait reads the status", reads_the_status, false),
    ("a wait reads the character", reads_it, true),
    ("a limit of 65535 is refused", limit_refused, true),
    ("a limit of 65536 is taken", above_taken, true),
    ("a character there comes before 21", there_first, true),
    ("a refused wait does a tick", refused_ticks, true),
    ("a limit of 0 does a tick", none_ticks, true),
];

struct Wrong {
    pair: Pair,
    wait: Wait,
}

impl Bench for Wrong {
    fn act(&mut self, record: Record) -> Result<String, u8> {
        let Record::Wait(unit, limit) = record else {
            return self.pair.act(record);
        };
        let spent = (self.wait)(&mut self.pair, unit, limit)?;
        Ok(format!("B\t{unit:?}\t{spent}\n"))
    }
}

pub fn wrong_answer(wait: Wait, input: &[u8]) -> Vec<u8> {
    let pair = Pair::just_reset();
    answer_on(&mut Wrong { pair, wait }, input)
}

fn tick(pair: &mut Pair) {
    joined_ticks(&mut pair.a, &mut pair.b, 1);
}

/// A wait that ends by what is asked before each tick.
fn until(pair: &mut Pair, limit: u32, ends: impl Fn(&mut Pair) -> bool) -> Result<u16, u8> {
    if limit > WAIT_LIMIT {
        return Err(WAIT_TOO_LONG);
    }
    let mut spent = 0;
    while u32::from(spent) < limit && !ends(pair) {
        tick(pair);
        spent += 1;
    }
    Ok(spent)
}

fn right(pair: &mut Pair, unit: Unit, limit: u32) -> Result<u16, u8> {
    until(pair, limit, |pair| pair.holds_unread(unit))
}

fn there_ticks(pair: &mut Pair, unit: Unit, limit: u32) -> Result<u16, u8> {
    if pair.holds_unread(unit) && (1..=WAIT_LIMIT).contains(&limit) {
        tick(pair);
        return Ok(1);
    }
    right(pair, unit, limit)
}

fn one_more(pair: &mut Pair, unit: Unit, limit: u32) -> Result<u16, u8> {
    let spent = right(pair, unit, limit)?;
    if spent == 0 || u32::from(spent) == limit {
        return Ok(spent);
    }
    tick(pair);
    Ok(spent + 1)
}

fn one_less(pair: &mut Pair, unit: Unit, limit: u32) -> Result<u16, u8> {
    let (mut a, mut b) = (pair.a.clone(), pair.b.clone());
    let spent = right(pair, unit, limit)?;
    if spent == 0 || u32::from(spent) == limit {
        return Ok(spent);
    }
    joined_ticks(&mut a, &mut b, u32::from(spent) - 1);
    *pair = Pair { a, b };
    Ok(spent - 1)
}

fn counts_limit(pair: &mut Pair, unit: Unit, limit: u32) -> Result<u16, u8> {
    right(pair, unit, limit).map(|_| limit as u16)
}

fn whole_limit(pair: &mut Pair, unit: Unit, limit: u32) -> Result<u16, u8> {
    let there = pair.holds_unread(unit);
    until(pair, limit, |_| there)
}

fn counts_none(pair: &mut Pair, unit: Unit, limit: u32) -> Result<u16, u8> {
    let spent = right(pair, unit, limit)?;
    Ok(if u32::from(spent) < limit { 0 } else { spent })
}

fn stands(pair: &mut Pair, unit: Unit, limit: u32) -> Result<u16, u8> {
    let (a, b) = (pair.a.clone(), pair.b.clone());
    let spent = right(pair, unit, limit);
    *pair = Pair { a, b };
    spent
}

fn either_ends(pair: &mut Pair, _: Unit, limit: u32) -> Result<u16, u8> {
    until(pair, limit, |pair| {
        UNITS.iter().any(|&unit| pair.holds_unread(unit))
    })
}

fn other_ends(pair: &mut Pair, unit: Unit, limit: u32) -> Result<u16, u8> {
    right(pair, other(unit), limit)
}

/// Which clears the change-mark.
fn reads_the_status(pair: &mut Pair, unit: Unit, limit: u32) -> Result<u16, u8> {
    until(pair, limit, |pair| pair.chip(unit).read(1).1 & 2 != 0)
}

fn reads_it(pair: &mut Pair, unit: Unit, limit: u32) -> Result<u16, u8> {
    let spent = right(pair, unit, limit)?;
    pair.chip(unit).read(0);
    Ok(spent)
}

fn limit_refused(pair: &mut Pair, unit: Unit, limit: u32) -> Result<u16, u8> {
    match limit {
        WAIT_LIMIT => Err(WAIT_TOO_LONG),
        _ => right(pair, unit, limit),
    }
}

fn above_taken(pair: &mut Pair, unit: Unit, limit: u32) -> Result<u16, u8> {
    match limit.checked_sub(1) {
        Some(WAIT_LIMIT) => right(pair, unit, WAIT_LIMIT),
        _ => right(pair, unit, limit),
    }
}

fn there_first(pair: &mut Pair, unit: Unit, limit: u32) -> Result<u16, u8> {
    match pair.holds_unread(unit) {
        true => Ok(0),
        false => right(pair, unit, limit),
    }
}

fn refused_ticks(pair: &mut Pair, unit: Unit, limit: u32) -> Result<u16, u8> {
    let answer = right(pair, unit, limit);
    if answer.is_err() {
        tick(pair);
    }
    answer
}

fn none_ticks(pair: &mut Pair, unit: Unit, limit: u32) -> Result<u16, u8> {
    if limit == 0 {
        tick(pair);
    }
    right(pair, unit, limit)
}
