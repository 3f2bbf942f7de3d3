//! The shortest input that still shows a difference: lines are dropped first,
//! then what is left of them is made simpler.

/// The fewest and simplest pieces found that still differ, beginning with some
/// that do. `simpler` gives what a piece may be replaced by; each must be
/// simpler than the piece, or this never ends.
pub fn shorten<T: Clone>(
    mut pieces: Vec<T>,
    simpler: impl Fn(&T) -> Vec<T>,
    differs: impl Fn(&[T]) -> bool,
) -> Vec<T> {
    loop {
        pieces = drop_pieces(pieces, &differs);
        // A simpler piece can make another one needless.
        if !simplify_pieces(&mut pieces, &simpler, &differs) {
            return pieces;
        }
    }
}

/// Halves are dropped, quarters, and so on to single pieces, until no single one
/// can be.
fn drop_pieces<T: Clone>(mut pieces: Vec<T>, differs: &impl Fn(&[T]) -> bool) -> Vec<T> {
    let mut size = pieces.len().div_ceil(2);
    while size > 0 {
        let mut dropped = false;
        let mut at = 0;
        while at < pieces.len() {
            let end = (at + size).min(pieces.len());
            let rest = [&pieces[..at], &pieces[end..]].concat();
            if differs(&rest) {
                pieces = rest;
                dropped = true;
            } else {
                at = end;
            }
        }
        if size > 1 || !dropped {
            size /= 2;
        }
    }
    pieces
}

/// Each piece as simple as it can be while the others stay. Whether one changed.
fn simplify_pieces<T: Clone>(
    pieces: &mut [T],
    simpler: &impl Fn(&T) -> Vec<T>,
    differs: &impl Fn(&[T]) -> bool,
) -> bool {
    let mut changed = false;
    for at in 0..pieces.len() {
        while simplify_piece(pieces, at, simpler, differs) {
            changed = true;
        }
    }
    changed
}

fn simplify_piece<T: Clone>(
    pieces: &mut [T],
    at: usize,
    simpler: &impl Fn(&T) -> Vec<T>,
    differs: &impl Fn(&[T]) -> bool,
) -> bool {
    for piece in simpler(&pieces[at]) {
        let before = std::mem::replace(&mut pieces[at], piece);
        if differs(pieces) {
            return true;
        }
        pieces[at] = before;
    }
    false
}

/// Smaller numbers, the smallest first: 0, then a half, three quarters and so on.
pub fn smaller(number: u32) -> Vec<u32> {
    let mut all = Vec::new();
    let mut step = number;
    while step > 0 {
        all.push(number - step);
        step /= 2;
    }
    all
}

pub fn smaller_bytes(number: u8) -> impl Iterator<Item = u8> {
    let all = smaller(number.into());
    all.into_iter().map(|number| number as u8)
}

/// The levels of three pins with one of them smaller.
pub fn smaller_levels(levels: [u8; 3]) -> impl Iterator<Item = [u8; 3]> {
    (0..3).flat_map(move |pin| {
        smaller_bytes(levels[pin]).map(move |level| {
            let mut levels = levels;
            levels[pin] = level;
            levels
        })
    })
}

/// The shortest session that still differs: shortened over its lines, then over
/// their numbers and bytes.
pub fn session(input: &[u8], differs: impl Fn(&[u8]) -> bool) -> Vec<u8> {
    let lines: Vec<Vec<u8>> = input
        .split_inclusive(|&byte| byte == b'\n')
        .map(<[u8]>::to_vec)
        .collect();
    shorten(
        lines,
        |line| simpler_lines(line),
        |lines| differs(&lines.concat()),
    )
    .concat()
}

/// `line` with one number smaller, then with one byte less; a newline stays.
fn simpler_lines(line: &[u8]) -> Vec<Vec<u8>> {
    let mut all = Vec::new();
    for (start, end) in numbers(line) {
        let digits = String::from_utf8_lossy(&line[start..end]);
        // A number of more digits is shortened by its bytes alone.
        let Ok(number) = digits.parse::<u32>() else {
            continue;
        };
        for less in smaller(number) {
            let less = less.to_string();
            all.push([&line[..start], less.as_bytes(), &line[end..]].concat());
        }
    }
    for at in (0..line.len()).filter(|&at| line[at] != b'\n') {
        all.push([&line[..at], &line[at + 1..]].concat());
    }
    all
}

/// Where the runs of digits in `line` start and end.
fn numbers(line: &[u8]) -> Vec<(usize, usize)> {
    let digit = |at: usize| line.get(at).is_some_and(u8::is_ascii_digit);
    let starts = (0..line.len()).filter(|&at| digit(at) && (at == 0 || !digit(at - 1)));
    starts
        .map(|start| (start, (start..).find(|&at| !digit(at)).unwrap_or(start)))
        .collect()
}
