//! Lines that are damaged: shape faults, lines about as long as the limit, and
//! lines at the limits of their numbers ("The session text"). Good reads between
//! show that a refused line changed nothing.

use super::hostile;
use crate::draw::Draws;

/// Bytes that a wrong reader may take for something else.
const ODD: [u8; 12] = [0, 1, 9, 13, 32, 43, 45, 47, 58, 127, 128, 255];

pub fn session(draws: &mut Draws) -> Vec<u8> {
    let mut input = match draws.below(64) {
        0 => return Vec::new(),
        1 => return vec![b'\n'; draws.between(1, 20) as usize],
        _ => Vec::new(),
    };
    for _ in 0..draws.between(1, 30) {
        input.extend(line(draws));
        input.push(b'\n');
    }
    if draws.one_in(4) {
        let wait = draws.of(&["B\tA\t9", "B\tB\t00020", "B\tB\t0", "B\tA\t65536"]);
        input.extend(wait.bytes().chain([b'\n']));
    }
    if draws.one_in(3) {
        input.pop();
    }
    input
}

fn line(draws: &mut Draws) -> Vec<u8> {
    match draws.below(16) {
        0..=3 => good(draws),
        4..=8 => damaged(draws),
        9..=10 => limit(draws),
        11..=12 => fields(draws),
        13..=14 => long(draws),
        _ => Vec::new(),
    }
}

/// A record without its newline; some numbers begin with zeros, now and then
/// with more than the five digits allow.
fn good(draws: &mut Draws) -> Vec<u8> {
    let mut line = hostile::record(draws).to_string();
    line.pop();
    let padded = line.split('\t').map(|field| match field.parse::<u32>() {
        Ok(number) if draws.one_in(4) => {
            format!("{number:0width$}", width = draws.between(1, 6) as usize)
        }
        _ => field.to_string(),
    });
    padded.collect::<Vec<_>>().join("\t").into_bytes()
}

/// One to three bytes changed, dropped, doubled, added or made lower case.
fn damaged(draws: &mut Draws) -> Vec<u8> {
    let mut line = good(draws);
    for _ in 0..draws.between(1, 3) {
        // A byte is left: the shortest line has three.
        let at = draws.below(line.len() as u32) as usize;
        match draws.below(6) {
            0 => line[at] = draws.byte(),
            1 => line[at] = draws.of(&ODD),
            2 => drop(line.remove(at)),
            3 => line.insert(at, line[at]),
            4 => line.insert(at, draws.of(&ODD)),
            _ => line[at] = line[at].to_ascii_lowercase(),
        }
    }
    line
}

/// Numbers at their limits, just over them, and with too many digits.
const LIMITS: [&str; 19] = [
    "0",
    "1",
    "3",
    "4",
    "255",
    "256",
    "00001",
    "00255",
    "000255",
    "999",
    "65535",
    "65536",
    "065535",
    "065536",
    "99999",
    "100000",
    "4294967296",
    "4294967551",
    "18446744073709551616",
];

/// One of these, or a wait with no such unit or no number.
fn limit(draws: &mut Draws) -> Vec<u8> {
    let number = draws.of(&LIMITS);
    let none = draws.of(&["", "x", "-1", "+1", "1 ", " 1", "1."]);
    let line = match draws.below(10) {
        0 => format!("W\tA\t{number}\t77"),
        1 => format!("W\tB\t1\t{number}"),
        2 => format!("R\tB\t{number}"),
        3 => format!("P\tA\t{number}\t0\t0"),
        4 => format!("P\tB\t1\t0\t{number}"),
        5 => format!("B\tA\t{number}"),
        6 => format!("B\tB\t{number}"),
        7 => format!("B\t{}\t{number}", draws.of(&["a", "C", "AB", "", "0"])),
        8 => format!("B\tB\t{none}"),
        _ => format!("L\t{number}"),
    };
    line.into_bytes()
}

/// Fields missing, additional, empty or exchanged.
fn fields(draws: &mut Draws) -> Vec<u8> {
    let line = good(draws);
    let mut fields: Vec<&[u8]> = line.split(|&byte| byte == b'\t').collect();
    let at = draws.below(fields.len() as u32) as usize;
    let further: [&[u8]; 6] = [b"", b"0", b"A", b"B", b"W", b" "];
    match draws.below(4) {
        0 => drop(fields.remove(at)),
        1 => fields.insert(at, draws.of(&further)),
        2 => fields.push(draws.of(&further)),
        _ => fields[at] = draws.of(&further),
    }
    fields.join(&b'\t')
}

/// A line of 62 to 67 bytes, now and then far more: a record with zeros before
/// its last number, one before or behind blanks or the like, one again and again,
/// or bytes of any kind. None has a known shape: a record has 21 bytes at most.
fn long(draws: &mut Draws) -> Vec<u8> {
    let length = draws.of(&[62, 63, 64, 65, 66, 67, 63, 64, 65, 66, 200]);
    let good = match draws.below(4) {
        0 => b"B\tA\t7".to_vec(),
        _ => good(draws),
    };
    let missing = length - good.len();
    match draws.below(5) {
        0 => {
            let last = good.iter().rposition(|&byte| byte == b'\t').expect("a tab") + 1;
            [&good[..last], &vec![b'0'; missing], &good[last..]].concat()
        }
        1 => [good, vec![draws.of(b" \tx0\r"); missing]].concat(),
        2 => [vec![draws.of(b" \tx0\r"); missing], good].concat(),
        3 => good.iter().copied().cycle().take(length).collect(),
        _ => (0..length).map(|_| any_byte(draws)).collect(),
    }
}

/// Any byte but a newline, which would end the line.
fn any_byte(draws: &mut Draws) -> u8 {
    match draws.byte() {
        b'\n' => b'\r',
        byte => byte,
    }
}
