//! The plain board does what the independent model does, so that its time is the time of the same work.

use model::board::lines::{Bench, Line, Side, PLACES};
use model::board::Call;
use model::calls::numbers;
use model::generate::boards::{run, RUNS};
use speed::board::{outputs, receive, set_pins, transmit, Board};
use speed::lent::Device;

/// A board with its room, and the channels that are lent.
struct Plain {
    board: Board,
    room: [Device; PLACES],
    count: usize,
}

impl Plain {
    fn numbered(number: u8) -> Plain {
        Plain {
            board: Board {
                number,
                select: 0,
                transmit_mask: 0,
                receive_mask: 0,
            },
            room: [Device::RESET; PLACES],
            count: 8,
        }
    }

    /// The refusal and the values; a call that has none answers 0.
    fn call(&mut self, call: &Call) -> Vec<u8> {
        let (board, room) = (&mut self.board, &mut self.room[..self.count]);
        let apart = |answer: u16| vec![(answer >> 8) as u8, answer as u8];
        match *call {
            Call::In(port) => apart(board.input(room, port)),
            Call::Out(port, value) => vec![board.output(room, port, value), 0],
            Call::Reset => vec![board.reset(room), 0],
            Call::Pins(channel, levels) => vec![set_pins(room, channel, levels), 0],
            Call::Transmit(channel) => apart(transmit(room, channel)),
            Call::Receive(channel, level) => vec![receive(room, channel, level), 0],
            Call::Outputs(channel) => {
                let answer = outputs(room, channel);
                let levels = (0..5).map(|bit| (answer >> bit & 1) as u8);
                [(answer >> 8) as u8].into_iter().chain(levels).collect()
            }
            Call::Interrupts => {
                let answer = board.interrupts(room);
                [16, 8, 0].map(|shift| (answer >> shift) as u8).to_vec()
            }
        }
    }

    /// What a line answers, but for bytes.
    fn answer(&mut self, line: &Line) -> String {
        let board = &mut self.board;
        match *line {
            Line::Count(count) => self.count = count,
            Line::Set(set) => {
                (board.number, board.select) = (set.number, set.select);
                (board.transmit_mask, board.receive_mask) = (set.transmit_mask, set.receive_mask);
            }
            Line::Device(place, bytes) => self.room[place] = Device::of_bytes(bytes),
            Line::Fields => {
                let masks = [board.transmit_mask, board.receive_mask];
                return numbers(&[[board.number, board.select], masks].concat());
            }
            Line::Call(call) => return numbers(&self.call(&call)),
            Line::Use(_) | Line::Bytes(_) => {}
        }
        "0".to_string()
    }
}

#[test]
fn the_plain_board_is_the_models() {
    for lines in (0..RUNS).map(run) {
        let mut bench = Bench::new(Side::call);
        let mut plain = [Plain::numbered(0), Plain::numbered(1)];
        for line in &lines {
            let used = bench.used;
            let answer = plain[used].answer(line);
            if let Line::Bytes(place) = *line {
                let bytes = bench.side().room[place].bytes();
                assert_eq!(Device::of_bytes(bytes), plain[used].room[place]);
            } else {
                assert_eq!(bench.answer(line), answer, "{line}");
            }
        }
    }
}
