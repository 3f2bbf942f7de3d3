//! The plain pair does what the independent model does on any two devices.

use model::calls::{Call, Lent};
use model::generate::ranges::{device, draws, spoilt};
use speed::lent::{Device, TALLIES};
use speed::pair::Pair;
use speed::pair::Unit::{A, B};

/// Status bit 1.
fn shows_unread(lent: &mut Lent) -> bool {
    lent.call(&Call::Peek).1[0] & 2 != 0
}

/// A joined tick by the calls of each device.
fn tick([a, b]: &mut [Lent; 2]) -> u16 {
    let sent = |lent: &mut Lent| u8::from(lent.call(&Call::Transmit).1[0] == 1);
    let (from_a, from_b) = (sent(a), sent(b));
    a.call(&Call::Receive(from_b));
    b.call(&Call::Receive(from_a));
    u16::from(2 * from_b + from_a)
}

/// Joined ticks until a unit shows an unread character, or the limit is used up; how many.
fn wait(pair: &mut [Lent; 2], unit: usize, limit: u32) -> u32 {
    let mut count = 0;
    while count < limit && !shows_unread(&mut pair[unit]) {
        tick(pair);
        count += 1;
    }
    count
}

#[test]
fn the_plain_pair_is_the_models() {
    for index in 0..3000 {
        let draws = &mut draws(index);
        let bytes = [(); 2].map(|()| {
            let mut sound = device(draws);
            if draws.one_in(2) {
                // tallies that wrap within the runs
                for place in TALLIES {
                    let tally = draws.below(1500).wrapping_neg();
                    sound[place..place + 4].copy_from_slice(&tally.to_ne_bytes());
                }
            }
            [spoilt(draws, &sound).1, sound][usize::from(draws.below(8) > 0)]
        });
        let [a, b] = bytes.map(Device::of_bytes);
        let (mut fast, mut slow) = (Pair { a, b }, bytes.map(Lent::of_bytes));
        assert_eq!(fast.joined_run(65_536), 16);
        assert_eq!(fast.joined_run(0), 0);
        assert_eq!(fast.joined_wait(A, 65_536), 21 << 16);
        assert_eq!(fast.joined_wait(B, 0), 0);
        assert_eq!(fast, Pair { a, b });
        // the first run meets the devices as they were drawn, out of range too
        for n in [1 + draws.below(3), 0, draws.below(30), draws.below(1500)] {
            assert_eq!(fast.joined_run(n), 0);
            (0..n).for_each(|_| _ = tick(&mut slow));
            assert_eq!(fast.joined_tick(), tick(&mut slow));
            let (unit, limit) = (draws.of(&[A, B]), draws.below(400));
            let count = wait(&mut slow, unit as usize, limit);
            assert_eq!(fast.joined_wait(unit, limit), count);
            let [a, b] = slow.each_ref().map(|lent| Device::of_bytes(lent.bytes()));
            assert_eq!(fast, Pair { a, b });
        }
    }
}
