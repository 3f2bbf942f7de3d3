//! Waits that end otherwise, or leave another pair.

use super::{change, right, waited, Wrong, OVERRUN, UNREAD};
use model::pair::{named, Answer, Call, Pair};
use model::session::{other, Unit, UNITS};

pub const ALL: &[Wrong] = &[
    ("a character there is waited for", there_ticks),
    ("a character there is not seen", there_unseen),
    ("a wait does a tick more", one_more),
    ("a wait does a tick less", one_less),
    ("a wait counts a tick less", counts_one_less),
    ("a wait always counts its limit", counts_limit),
    ("a wait uses up its limit", whole_limit),
    ("a character at either unit ends a wait", either_ends),
    ("a character at the other unit ends a wait", other_ends),
    ("a start ends a wait", start_ends),
    ("a wait goes on to the end of the frame", to_the_frames_end),
    ("a wait at mark does no tick", mark_stands),
    ("a wait does not hear a break", deaf_to_a_break),
    ("a wait ends with a guard", ends_with_a_guard),
    ("a wait looks at one frame alone", one_frame_alone),
    ("the other unit's receiver stands still", other_deaf),
    ("the unit's own sender stands still", own_sender_stands),
    ("a wait drops an overrun of the other", overrun_dropped),
    ("a wait clears the change-mark", clears_the_mark),
    ("a wait reads the character", reads_it),
];

/// Where a tick more is left and a character came, something else is done.
fn where_brought(pair: &mut Pair, call: &Call, further: fn(&mut Pair, u16) -> u16) -> Answer {
    waited(pair, call, |pair, unit, limit| {
        let there = pair.end(unit).holds_unread();
        let spent = right(pair, unit, limit);
        match !there && pair.end(unit).holds_unread() && u32::from(spent) < limit {
            true => further(pair, spent),
            false => spent,
        }
    })
}

fn there_ticks(pair: &mut Pair, call: &Call) -> Answer {
    waited(pair, call, |pair, unit, limit| {
        if limit == 0 || !pair.end(unit).holds_unread() {
            return right(pair, unit, limit);
        }
        pair.tick();
        1
    })
}

fn there_unseen(pair: &mut Pair, call: &Call) -> Answer {
    waited(pair, call, |pair, unit, limit| {
        if !pair.end(unit).holds_unread() {
            return right(pair, unit, limit);
        }
        pair.run(limit);
        limit as u16
    })
}

fn one_more(pair: &mut Pair, call: &Call) -> Answer {
    where_brought(pair, call, |pair, spent| {
        pair.tick();
        spent + 1
    })
}

fn one_less(pair: &mut Pair, call: &Call) -> Answer {
    waited(pair, call, |pair, unit, limit| {
        let before = pair.clone();
        let spent = right(pair, unit, limit);
        if spent == 0 || !pair.end(unit).holds_unread() {
            return spent;
        }
        *pair = before;
        pair.run(u32::from(spent) - 1);
        spent - 1
    })
}

fn counts_one_less(pair: &mut Pair, call: &Call) -> Answer {
    where_brought(pair, call, |_, spent| spent - 1)
}

fn counts_limit(pair: &mut Pair, call: &Call) -> Answer {
    waited(pair, call, |pair, unit, limit| {
        right(pair, unit, limit);
        limit as u16
    })
}

fn whole_limit(pair: &mut Pair, call: &Call) -> Answer {
    waited(pair, call, |pair, unit, limit| {
        if pair.end(unit).holds_unread() {
            return 0;
        }
        pair.run(limit);
        limit as u16
    })
}

/// A wait that ends by what it looks at before each tick.
fn until(pair: &mut Pair, call: &Call, ends: impl Fn(&Pair, Unit) -> bool) -> Answer {
    waited(pair, call, |pair, unit, limit| {
        let mut spent = 0;
        while u32::from(spent) < limit && !ends(pair, unit) {
            pair.tick();
            spent += 1;
        }
        spent
    })
}

fn either_ends(pair: &mut Pair, call: &Call) -> Answer {
    until(pair, call, |pair, _| {
        UNITS.iter().any(|&unit| pair.end(unit).holds_unread())
    })
}

fn other_ends(pair: &mut Pair, call: &Call) -> Answer {
    until(pair, call, |pair, unit| {
        pair.end(other(unit)).holds_unread()
    })
}

fn start_ends(pair: &mut Pair, call: &Call) -> Answer {
    until(pair, call, |pair, unit| {
        let end = pair.end(unit);
        end.holds_unread() || end.view().hearing.is_some()
    })
}

fn to_the_frames_end(pair: &mut Pair, call: &Call) -> Answer {
    let there = match *call {
        Call::Wait(number, _) => pair.end(named(number)).holds_unread(),
        _ => false,
    };
    until(pair, call, |pair, unit| {
        let sending = pair.end(other(unit)).view().sending;
        pair.end(unit).holds_unread() && (there || !sending)
    })
}

/// Where the sender of the other end is at mark nothing comes, and nothing is done.
fn mark_stands(pair: &mut Pair, call: &Call) -> Answer {
    waited(pair, call, |pair, unit, limit| {
        let at_mark = pair.end(other(unit)).view().at_mark();
        let hears = pair.end(unit).view().hearing.is_some();
        if !at_mark || hears || pair.end(unit).holds_unread() {
            return right(pair, unit, limit);
        }
        limit as u16
    })
}

/// A wait that runs to its limit where its sender has something at first.
fn overlooked(pair: &mut Pair, call: &Call, has: fn(&Pair, Unit) -> bool) -> Answer {
    waited(pair, call, |pair, unit, limit| {
        if pair.end(unit).holds_unread() || !has(pair, other(unit)) {
            return right(pair, unit, limit);
        }
        pair.run(limit);
        limit as u16
    })
}

fn deaf_to_a_break(pair: &mut Pair, call: &Call) -> Answer {
    overlooked(pair, call, |pair, sender| {
        pair.end(sender).view().in_break()
    })
}

fn ends_with_a_guard(pair: &mut Pair, call: &Call) -> Answer {
    overlooked(pair, call, |pair, sender| {
        let view = pair.end(sender).view();
        view.guard > 0 && !view.in_break()
    })
}

/// What waits behind the frame under way is not seen.
fn one_frame_alone(pair: &mut Pair, call: &Call) -> Answer {
    overlooked(pair, call, |pair, sender| {
        let (sends, hears) = (pair.end(sender).view(), pair.end(other(sender)).view());
        sends.sending && sends.waiting && hears.hearing.is_none()
    })
}

/// Some bytes of one unit stay as they were.
fn kept(pair: &mut Pair, call: &Call, at_other: bool, first: usize, last: usize) -> Answer {
    waited(pair, call, |pair, unit, limit| {
        let kept = if at_other { other(unit) } else { unit };
        let before = pair.end(kept).bytes();
        let spent = right(pair, unit, limit);
        change(pair, kept, |bytes| {
            bytes[first..=last].copy_from_slice(&before[first..=last])
        });
        spent
    })
}

fn other_deaf(pair: &mut Pair, call: &Call) -> Answer {
    kept(pair, call, true, 24, 36)
}

fn own_sender_stands(pair: &mut Pair, call: &Call) -> Answer {
    kept(pair, call, false, 12, 22)
}

fn overrun_dropped(pair: &mut Pair, call: &Call) -> Answer {
    kept(pair, call, true, OVERRUN, OVERRUN)
}

/// A byte of the unit falls behind a wait that spends something.
fn cleared(pair: &mut Pair, call: &Call, place: usize) -> Answer {
    waited(pair, call, |pair, unit, limit| {
        let spent = right(pair, unit, limit);
        if spent > 0 {
            change(pair, unit, |bytes| bytes[place] = 0);
        }
        spent
    })
}

fn clears_the_mark(pair: &mut Pair, call: &Call) -> Answer {
    cleared(pair, call, 42)
}

fn reads_it(pair: &mut Pair, call: &Call) -> Answer {
    cleared(pair, call, UNREAD)
}
