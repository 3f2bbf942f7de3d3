//! The wait of P12 of the change requests, on anything that has joined ticks: it stops
//! as soon as the unit that is named holds an unread character, or when its limit is
//! used up.

/// The highest limit.
pub const WAIT_LIMIT: u32 = 65_535;
/// P12's refusal.
pub const WAIT_TOO_LONG: u8 = 21;

/// The joined ticks spent, or the refusal, which comes before any look. `holds` says
/// whether the unit that is named holds a character; it is asked before each tick, so
/// that no fewer ticks would have brought one.
pub fn wait<L>(
    line: &mut L,
    limit: u32,
    holds: impl Fn(&L) -> bool,
    tick: impl Fn(&mut L),
) -> Result<u16, u8> {
    if limit > WAIT_LIMIT {
        return Err(WAIT_TOO_LONG);
    }
    let mut spent = 0;
    while u32::from(spent) < limit && !holds(line) {
        tick(line);
        spent += 1;
    }
    Ok(spent)
}
