//! The board, call by call: document 000's examples of interrupts and selects, the
//! refusals in their order, and what a call leaves, as P2 of the change requests
//! has them.

use model::board::lines::{Bench, Line, Side};
use model::board::{Answer, Board, Call, CHANNELS};
use model::calls::{Call as ChipCall, Lent, DEVICE_BYTES};
use model::chip::{set_up, Chip};
use model::ranges::in_range;

/// Bytes out of range, which by their own bits would be ready to send and hold a
/// character: the mode pointer is 2.
fn out_of_range() -> Lent {
    let mut bytes = Chip::just_reset().bytes();
    (bytes[3], bytes[7], bytes[44]) = (1, 2, 1);
    assert!(!in_range(&bytes));
    Lent::of_bytes(bytes)
}

/// A board and its room.
struct Rig {
    board: Board,
    room: Vec<Lent>,
}

impl Rig {
    fn numbered(number: u8) -> Rig {
        Rig {
            board: Board::numbered(number),
            room: vec![Lent::InRange(Chip::just_reset()); CHANNELS],
        }
    }

    /// A board whose channels all differ, with a select and masks.
    fn busy(number: u8, select: u8) -> Rig {
        let mut rig = Rig::numbered(number);
        for channel in 0..8 {
            let chip = set_up(78 + 4 * (channel % 2), 16 * channel, 37 + 2 * (channel & 1));
            rig.room[usize::from(channel)] = Lent::InRange(chip);
            rig.done(Call::Receive(channel, 1));
            rig.done(Call::Receive(channel, 0));
        }
        rig.board.select = select;
        (rig.board.transmit_mask, rig.board.receive_mask) = (82, 140);
        rig
    }

    fn call(&mut self, call: Call) -> Answer {
        self.board.call(&mut self.room, &call)
    }

    /// What a call that is done answers.
    fn done(&mut self, call: Call) -> Vec<u8> {
        let (refusal, values) = self.call(call);
        assert_eq!(refusal, 0, "{call:?}");
        values
    }

    /// A call is refused with a number and zeros, and nothing moves.
    fn refuses(&mut self, call: Call, number: u8) {
        let (board, room) = (self.board, self.room.clone());
        let (refusal, values) = self.call(call);
        assert_eq!(refusal, number, "{call:?}");
        assert!(values.iter().all(|&value| value == 0), "{call:?}");
        assert!(self.board == board && self.room == room, "{call:?}");
    }

    /// Selects a user, in whose channel a character then stands.
    fn holds_a_character(&mut self, user: u8) {
        self.done(Call::Out(7, user));
        self.done(Call::Out(2, 77));
        self.done(Call::Out(2, 0));
        self.done(Call::Out(3, 4));
        self.done(Call::Pins(user, [0, 0, 0]));
        // 8 bits, no parity, a factor of 1: mark, start, 65, stop.
        for level in [1, 0, 1, 0, 0, 0, 0, 0, 1, 0, 1] {
            self.done(Call::Receive(user, level));
        }
    }
}

// Document 000's examples.

#[test]
fn users_ready_to_send_are_read_from_port_4() {
    let mut rig = Rig::numbered(0);
    assert_eq!(rig.done(Call::In(4)), [0]);
    for user in [1, 4, 6] {
        rig.done(Call::Out(7, user));
        rig.done(Call::Out(3, 1));
    }
    assert_eq!(rig.done(Call::In(4)), [0x52]);
    // A user with a character waiting is not.
    rig.done(Call::Out(0, 65));
    assert_eq!(rig.done(Call::In(4)), [0x12]);
    for user in 0..8 {
        rig.done(Call::Out(7, user));
        rig.done(Call::Out(3, 1));
    }
    assert_eq!(rig.done(Call::In(4)), [0xbf]);
    rig.done(Call::Reset);
    assert_eq!(rig.done(Call::In(4)), [0]);
}

#[test]
fn users_that_hold_a_character_are_read_from_port_5() {
    let mut rig = Rig::numbered(0);
    assert_eq!(rig.done(Call::In(5)), [0]);
    for user in [2, 3, 7] {
        rig.holds_a_character(user);
    }
    let room = rig.room.clone();
    assert_eq!(rig.done(Call::In(5)), [0x8c]);
    assert_eq!(rig.done(Call::In(4)), [0]);
    // Looking changes nothing, reading the character does.
    assert_eq!(rig.room, room);
    rig.done(Call::Out(7, 3));
    assert_eq!(rig.done(Call::In(0)), [65]);
    assert_eq!(rig.done(Call::In(5)), [0x84]);
}

#[test]
fn a_1_in_a_mask_enables() {
    let mut rig = Rig::numbered(0);
    for user in 0..8 {
        rig.holds_a_character(user);
        rig.done(Call::Out(3, 5));
    }
    rig.done(Call::Out(7, 0));
    assert_eq!(rig.done(Call::Interrupts), [0, 0]);
    for (port, value, interrupts) in [
        (4, 0xff, [0, 0xff]),
        (4, 0x52, [0, 0x52]),
        (5, 0x8c, [0x8c, 0x52]),
        (5, 0x00, [0, 0x52]),
    ] {
        rig.done(Call::Out(port, value));
        assert_eq!(rig.done(Call::Interrupts), interrupts);
        // The status is read whatever the masks are.
        assert_eq!(rig.done(Call::In(4)), [0xff]);
        assert_eq!(rig.done(Call::In(5)), [0xff]);
    }
}

/// No jumper is set, those of users 6 and 7 least of all.
#[test]
fn an_empty_sender_and_a_change_are_no_interrupt() {
    for user in 0..8 {
        let mut rig = Rig::numbered(0);
        (rig.board.transmit_mask, rig.board.receive_mask) = (255, 255);
        rig.done(Call::Out(7, user));
        for setting in [Call::Out(2, 77), Call::Out(2, 0), Call::Out(3, 1)] {
            rig.done(setting);
        }
        rig.done(Call::Pins(user, [0, 0, 0]));
        rig.done(Call::Out(0, 65));
        // The change-mark, with a character waiting: status bit 2 alone.
        assert_eq!(rig.room[usize::from(user)].view().status & 7, 4);
        assert_eq!(rig.done(Call::In(4)), [0], "{user}");
        assert_eq!(rig.done(Call::In(5)), [0], "{user}");
        assert_eq!(rig.done(Call::Interrupts), [0, 0], "{user}");
        // The empty-mark, behind a frame of ten ticks.
        rig.done(Call::In(1));
        for _ in 0..10 {
            rig.done(Call::Transmit(user));
        }
        assert_eq!(rig.room[usize::from(user)].view().status & 7, 5);
        assert_eq!(rig.done(Call::In(4)), [1 << user]);
        assert_eq!(rig.done(Call::In(5)), [0], "{user}");
        assert_eq!(rig.done(Call::Interrupts), [0, 1 << user]);
    }
}

#[test]
fn a_board_answers_its_own_users() {
    // Users 0 to 7 are of board 0, users 8 to 15 of board 1.
    let mut first = Rig::numbered(0);
    let mut second = Rig::numbered(1);
    for user in [0, 5, 7] {
        for rig in [&mut first, &mut second] {
            rig.done(Call::Out(7, user));
        }
        for port in 0..=5 {
            second.refuses(Call::In(port), 9);
            second.refuses(Call::Out(port, 77), 9);
        }
        assert_eq!(first.done(Call::In(1)), [0]);
    }
    // User 18 is user 2 of board 2.
    let mut third = Rig::numbered(2);
    third.done(Call::Out(7, 18));
    third.done(Call::Out(3, 39));
    let written: Vec<u8> = third.room.iter().map(|lent| lent.bytes()[3]).collect();
    assert_eq!(written, [0, 0, 39, 0, 0, 0, 0, 0]);
}

// Selects.

#[test]
fn every_select_of_every_board() {
    for number in 0..=255 {
        for value in 0..=255 {
            let mut rig = Rig::numbered(number);
            rig.board.select = 8;
            rig.done(Call::Out(7, value));
            assert_eq!(rig.board.select, value & 31);
            let mut stored = Rig::numbered(number);
            stored.board.select = value;
            for rig in [&mut rig, &mut stored] {
                let selected = number < 4 && (value & 24) == 8 * number;
                let refusal = if selected { 0 } else { 9 };
                assert_eq!(rig.call(Call::In(4)).0, refusal, "{number} {value}");
            }
            // Only a write of port 7 and a reset change it.
            assert_eq!(stored.board.select, value);
        }
    }
}

#[test]
fn bits_7_to_5_of_a_select_are_dropped() {
    let mut rig = Rig::numbered(0);
    rig.done(Call::Out(7, 32));
    assert_eq!(rig.done(Call::In(1)), [0]);
    // Of a stored one they stay, and do not count.
    rig.board.select = 0xe3;
    rig.done(Call::Out(3, 39));
    assert_eq!(rig.board.select, 0xe3);
    assert_eq!(rig.room[3].bytes()[3], 39);
    rig.board.select = 0xff;
    rig.refuses(Call::In(0), 9);
    rig.board.number = 3;
    assert_eq!(rig.done(Call::In(0)), [0]);
}

// Refusals.

/// Calls with the refusal of a board that is selected and has its room, each on
/// channel 3 where that is in question.
fn calls() -> Vec<(Call, u8)> {
    let mut calls = vec![
        (Call::Reset, 0),
        (Call::Interrupts, 0),
        (Call::Out(7, 3), 0),
        (Call::Out(7, 255), 0),
        (Call::Out(0, 1), 0),
        (Call::Out(2, 77), 0),
        (Call::Out(2, 13), 3),
        (Call::Out(2, 76), 4),
        (Call::Out(3, 63), 0),
        (Call::Out(3, 64), 5),
        (Call::Out(4, 255), 0),
        (Call::Out(5, 255), 0),
        (Call::In(6), 8),
        (Call::In(7), 8),
        (Call::Out(6, 64), 8),
    ];
    calls.extend((0..6).map(|port| (Call::In(port), 0)));
    for high in [8, 9, 11, 64, 255] {
        calls.extend([
            (Call::In(high), 8),
            (Call::Out(high, 64), 8),
            (Call::Pins(high, [0, 2, 0]), 8),
            (Call::Transmit(high), 8),
            (Call::Receive(high, 2), 8),
            (Call::Outputs(high), 8),
        ]);
    }
    calls.extend([
        (Call::Pins(3, [0, 1, 0]), 0),
        (Call::Pins(3, [2, 1, 0]), 2),
        (Call::Transmit(3), 0),
        (Call::Receive(3, 1), 0),
        (Call::Receive(3, 2), 2),
        (Call::Outputs(3), 0),
    ]);
    calls
}

/// A busy board of number 0 whose channel 3 has its mode pointer at mode 1, as a
/// rule; with `garbage` it is out of range.
fn rig(select: u8, garbage: bool) -> Rig {
    let mut rig = Rig::busy(0, select);
    if garbage {
        rig.room[3] = out_of_range();
    }
    rig
}

#[test]
fn a_call_is_refused_by_its_port_then_by_the_select_then_by_its_channel() {
    for garbage in [false, true] {
        for (call, refusal) in calls() {
            let mut selected = rig(3, garbage);
            if refusal == 0 {
                selected.done(call);
            } else {
                selected.refuses(call, refusal);
            }
            // Another board is selected.
            let mut other = rig(27, garbage);
            match call {
                Call::In(0..=5) | Call::Out(0..=5, _) => other.refuses(call, 9),
                _ if refusal == 0 => drop(other.done(call)),
                _ => other.refuses(call, refusal),
            }
        }
    }
}

#[test]
fn a_wrong_room_comes_before_all_else() {
    for count in (0..20).filter(|&count| count != CHANNELS) {
        for select in [3, 27] {
            for (call, _) in calls() {
                let mut wrong = rig(select, true);
                wrong.room.resize(count, out_of_range());
                wrong.refuses(call, 10);
            }
        }
    }
}

// What is left.

#[test]
fn a_reset_leaves_the_number_alone() {
    for number in [0, 3, 4, 255] {
        let mut rig = Rig::busy(number, 0xff);
        rig.room[7] = out_of_range();
        rig.done(Call::Reset);
        let fresh = Rig::numbered(number);
        assert!(rig.board == fresh.board && rig.room == fresh.room);
    }
}

#[test]
fn a_call_on_a_channel_is_the_chips_and_leaves_the_others() {
    let chip_calls = [
        (Call::In(1), ChipCall::Read(1)),
        (Call::In(2), ChipCall::Read(2)),
        (Call::Out(0, 7), ChipCall::Write(0, 7)),
        (Call::Out(3, 6), ChipCall::Write(3, 6)),
        (Call::Pins(5, [0, 1, 0]), ChipCall::Pins([0, 1, 0])),
        (Call::Transmit(5), ChipCall::Transmit),
        (Call::Receive(5, 0), ChipCall::Receive(0)),
        (Call::Outputs(5), ChipCall::Outputs),
    ];
    for (call, chip_call) in chip_calls {
        for garbage in [false, true] {
            let mut rig = Rig::busy(0, 5);
            if garbage {
                rig.room[5] = out_of_range();
            }
            let (board, before) = (rig.board, rig.room.clone());
            let values = rig.done(call);
            let mut chip = before[5].clone();
            let (_, answer) = chip.call(&chip_call);
            let values: Vec<u32> = values.into_iter().map(u32::from).collect();
            assert!(answer.ends_with(&values), "{call:?}");
            let mut after = before;
            after[5] = chip;
            assert!(rig.board == board && rig.room == after, "{call:?}");
        }
    }
}

#[test]
fn ticks_and_pins_are_of_the_named_channel_whatever_is_selected() {
    let mut rig = Rig::busy(0, 27);
    rig.done(Call::Pins(6, [1, 0, 1]));
    assert_eq!(rig.room[6].bytes()[9..12], [1, 0, 1]);
    assert_eq!(rig.room[3].bytes()[9..12], [0, 0, 0]);
    assert_eq!(rig.done(Call::Outputs(6)), [0, 1, 0, 1, 0]);
}

#[test]
fn a_channel_out_of_range_counts_as_one_just_reset() {
    let mut rig = Rig::numbered(0);
    rig.room.fill(out_of_range());
    (rig.board.transmit_mask, rig.board.receive_mask) = (255, 255);
    let room = rig.room.clone();
    assert_eq!(rig.done(Call::In(4)), [0]);
    assert_eq!(rig.done(Call::In(5)), [0]);
    assert_eq!(rig.done(Call::Interrupts), [0, 0]);
    assert_eq!(rig.done(Call::Outputs(2)), [1; 5]);
    assert_eq!(rig.room, room);
    assert_eq!(rig.done(Call::In(1)), [0]);
    assert_eq!(rig.room[0], Lent::InRange(Chip::just_reset()));
    assert_eq!(rig.room[1..], room[1..]);
}

// A line between two channels.

/// A joined tick of two channels of the driver's boards.
fn joined_tick(bench: &mut Bench, ends: [(usize, u8); 2]) {
    let sent = ends.map(|(board, channel)| {
        bench.used = board;
        bench.call(&Call::Transmit(channel)).1[0]
    });
    for (end, level) in [(1, sent[0]), (0, sent[1])] {
        bench.used = ends[end].0;
        bench.call(&Call::Receive(ends[end].1, level));
    }
}

#[test]
fn a_character_crosses_a_line_on_one_board_and_between_two() {
    for (board, channel) in [(0, 2), (1, 5), (1, 2)] {
        let ends = [(0, 5), (board, channel)];
        let mut bench = Bench::new(Side::call);
        for (board, channel) in ends {
            // 8 bits, no parity, 1 stop, a factor of 1: D is 9.
            let chip = set_up(77, 0, 5);
            bench.sides[board].room[usize::from(channel)] = Lent::InRange(chip);
        }
        joined_tick(&mut bench, ends);
        for (used, call) in [
            (0, Call::Out(7, 5)),
            (1, Call::Out(7, 5)),
            (0, Call::Out(0, 65)),
        ] {
            bench.used = used;
            assert_eq!(bench.call(&call).0, 0);
        }
        for tick in 0..10 {
            bench.used = board;
            assert_eq!(bench.call(&Call::Outputs(channel)).1[1], 1, "{tick}");
            joined_tick(&mut bench, ends);
            bench.used = 1 - board;
            bench.call(&Call::Out(7, 8 * tick));
            bench.call(&Call::Transmit(channel ^ 1));
        }
        bench.used = board;
        bench.call(&Call::Out(7, 8 * board as u8 + channel));
        assert_eq!(bench.call(&Call::In(5)), (0, vec![1 << channel]));
        assert_eq!(bench.call(&Call::In(0)), (0, vec![65]));
    }
}

// The driver's text.

#[test]
fn lines_as_the_driver_takes_them_and_answers() {
    let mut bench = Bench::new(Side::call);
    let reset = "00".repeat(9) + "010101" + &"00".repeat(DEVICE_BYTES - 12);
    let board = Board {
        number: 2,
        select: 255,
        transmit_mask: 82,
        receive_mask: 140,
    };
    for (line, text, answer) in [
        (Line::Fields, "fields", "0 0 0 0"),
        (Line::Use(1), "use 1", "0"),
        (Line::Fields, "fields", "1 0 0 0"),
        (Line::Call(Call::In(1)), "in 1", "9 0"),
        (Line::Set(board), "board 2 255 82 140", "0"),
        (Line::Fields, "fields", "2 255 82 140"),
        (Line::Call(Call::Out(7, 52)), "out 7 52", "0 0"),
        (Line::Fields, "fields", "2 20 82 140"),
        (Line::Call(Call::Out(3, 1)), "out 3 1", "0 0"),
        (Line::Call(Call::In(4)), "in 4", "0 16"),
        (Line::Call(Call::Interrupts), "interrupts", "0 0 16"),
        (Line::Call(Call::Outputs(4)), "outputs 4", "0 0 1 1 1 1"),
        (Line::Call(Call::Transmit(4)), "transmit 4", "0 1"),
        (Line::Call(Call::Receive(4, 2)), "receive 4 2", "2 0"),
        (Line::Call(Call::Pins(4, [0, 1, 0])), "pins 4 0 1 0", "0 0"),
        (Line::Count(9), "count 9", "0"),
        (Line::Call(Call::Outputs(4)), "outputs 4", "10 0 0 0 0 0"),
        (Line::Call(Call::Reset), "reset", "10 0"),
        (Line::Bytes(8), "bytes 8", &reset),
    ] {
        assert_eq!(line.to_string(), text);
        assert_eq!(bench.answer(&line), answer, "{text}");
    }
    let bytes = Line::Device(8, [255; DEVICE_BYTES]);
    assert_eq!(
        bytes.to_string(),
        format!("device 8 {}", "ff".repeat(DEVICE_BYTES))
    );
}
