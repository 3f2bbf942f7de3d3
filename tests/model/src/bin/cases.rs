//! Prints what the model reads from a few bench recordings and from a sweep of
//! pseudo-random recordings, one for each format, then what one chip and two
//! chips joined answer in a few bench cases, as text with tabs: what the program
//! `run_cases` has to write.

use model::chip::{joined_ticks, set_up, Chip};
use model::{frame, read, Character, Format, Generator};

/// The flags at their places in the status register: framing 5, parity 3.
fn flags(character: &Character) -> u32 {
    32 * u32::from(character.framing) + 8 * u32::from(character.parity)
}

/// The fields of a format, parted by tabs.
fn fields(format: &Format) -> String {
    format!(
        "{}\t{}\t{}\t{}\t{}",
        format.factor,
        format.length,
        u32::from(format.parity),
        u32::from(format.even),
        format.stop
    )
}

/// `count` samples of `level`.
fn run(level: bool, count: u32) -> Vec<bool> {
    vec![level; count as usize]
}

/// Eight bits, no parity, one stop bit.
fn plain(factor: u32) -> Format {
    Format {
        factor,
        length: 8,
        parity: false,
        even: false,
        stop: factor,
    }
}

/// A recording of mark, then each number of zeros parted by a single 1, then ones.
fn print_pulses(format: &Format, pulses: &[u32]) {
    let mut title = format!("R\t{}", fields(format));
    let mut samples = Vec::new();
    for &zeros in pulses {
        title += &format!("\t{zeros}");
        samples.extend([run(true, 1), run(false, zeros)].concat());
    }
    println!("{title}");
    samples.extend(run(true, 1000));
    for character in read(format, &samples) {
        println!(
            "C\t{}\t{}\t{}",
            character.at,
            character.value,
            flags(&character)
        );
    }
}

/// Every format once, in the order of the sweep.
fn formats() -> Vec<Format> {
    let mut all = Vec::new();
    for factor in [1, 16, 64] {
        let mut stops = vec![factor, factor + factor / 2, 2 * factor];
        // With a factor of 1, one and a half counts as one, which is there already.
        stops.dedup();
        for length in 5..=8 {
            for parity in [false, true] {
                for even in [false, true] {
                    for &stop in &stops {
                        all.push(Format {
                            factor,
                            length,
                            parity,
                            even,
                            stop,
                        });
                    }
                }
            }
        }
    }
    all
}

/// One piece of a recording: idle line, a good frame, a frame of the other
/// parity, a frame broken off, a short burst of one level, or half a start bit
/// and the single 1 that makes it a false start.
fn piece(format: &Format, generator: &mut Generator) -> Vec<bool> {
    match generator.draw(6) {
        0 => run(true, generator.draw(3 * format.factor) + 1),
        1 => frame(format, generator.draw(256) as u8),
        2 => {
            let other = Format {
                even: !format.even,
                ..*format
            };
            frame(&other, generator.draw(256) as u8)
        }
        3 => {
            let mut levels = frame(format, generator.draw(256) as u8);
            levels.truncate(generator.draw(format.frame_length()) as usize);
            levels
        }
        4 => {
            let level = generator.draw(2) == 1;
            run(level, generator.draw(format.factor) + 1)
        }
        _ => [run(false, format.half()), run(true, 1)].concat(),
    }
}

/// One number that depends on every field of every character and on their order.
fn sum(characters: &[Character]) -> u32 {
    let mut sum: u32 = 0;
    for character in characters {
        for number in [character.at, u32::from(character.value), flags(character)] {
            sum = sum.wrapping_mul(31).wrapping_add(number);
        }
    }
    sum
}

/// Receive ticks, one for each of `samples`.
fn hear(chip: &mut Chip, samples: &[bool]) {
    for &sample in samples {
        chip.receive(u8::from(sample));
    }
}

/// A read of each address in turn; that of a character with its stamp (P4 of the change
/// requests).
fn show(chip: &mut Chip, addresses: &[u8]) {
    for &address in addresses {
        let (refusal, value) = chip.read(address);
        match address {
            0 => println!("R\t{address}\t{refusal}\t{value}\t{}", chip.stamp()),
            _ => println!("R\t{address}\t{refusal}\t{value}"),
        }
    }
}

/// The start of the last frame, and both tallies.
fn show_start(chip: &Chip) {
    println!(
        "S\t{}\t{}\t{}",
        chip.start(),
        chip.transmit_tally(),
        chip.receive_tally()
    );
}

fn transmit(chip: &mut Chip, ticks: u32) {
    for _ in 0..ticks {
        chip.transmit();
    }
}

fn print_chip_cases() {
    println!("K\tunread");
    let mut chip = set_up(77, 0, 4);
    hear(&mut chip, &run(true, 1));
    hear(&mut chip, &frame(&plain(1), 65));
    hear(&mut chip, &frame(&plain(1), 66));
    show(&mut chip, &[1, 0, 1]);

    println!("K\taddresses");
    show(&mut Chip::just_reset(), &[3, 4]);

    for zeros in [32, 33] {
        println!("K\tzeros{zeros}");
        let mut chip = set_up(79, 0, 4);
        hear(&mut chip, &run(true, 1));
        hear(&mut chip, &run(false, zeros));
        hear(&mut chip, &run(true, 1000));
        show(&mut chip, &[1, 0, 1]);
    }

    println!("K\tpulse");
    let mut chip = set_up(78, 0, 4);
    hear(&mut chip, &run(true, 100));
    hear(&mut chip, &run(false, 3));
    hear(&mut chip, &run(true, 1000));
    show(&mut chip, &[1, 0]);
}

fn print_stamp_cases() {
    // Read, read again, and read when receive off has emptied the register; ticks with
    // receive off count.
    println!("K\tstamps");
    let mut chip = set_up(77, 0, 4);
    hear(&mut chip, &run(true, 1));
    hear(&mut chip, &frame(&plain(1), 65));
    show(&mut chip, &[0, 0]);
    hear(&mut chip, &frame(&plain(1), 66));
    chip.write(3, 0);
    hear(&mut chip, &run(false, 5));
    show(&mut chip, &[0]);
    chip.write(3, 4);
    hear(&mut chip, &run(true, 1));
    hear(&mut chip, &frame(&plain(1), 67));
    chip.receive(2);
    show(&mut chip, &[0]);
    show_start(&chip);

    // A break and its guard begin no frame; nor does mark, behind one that ends.
    println!("K\tstarts");
    let mut chip = set_up(77, 0, 13);
    transmit(&mut chip, 3);
    chip.write(3, 5);
    chip.write(0, 65);
    for ticks in [1, 1, 12] {
        transmit(&mut chip, ticks);
        show_start(&chip);
    }
    chip.write(0, 66);
    transmit(&mut chip, 1);
    show_start(&chip);
    chip.reset();
    show_start(&chip);
    show(&mut chip, &[0]);
}

fn print_joined_cases() {
    println!("K\tsession");
    let (mut a, mut b) = (set_up(206, 126, 39), set_up(206, 126, 39));
    joined_ticks(&mut a, &mut b, 1);
    a.write(0, 255);
    joined_ticks(&mut a, &mut b, 152);
    show(&mut b, &[1]);
    joined_ticks(&mut a, &mut b, 1);
    show(&mut b, &[1, 0, 1]);
    show_start(&a);
    show_start(&b);

    println!("K\tfault");
    let (mut a, mut b) = (set_up(126, 0, 5), set_up(94, 0, 5));
    joined_ticks(&mut a, &mut b, 1);
    a.write(0, 255);
    joined_ticks(&mut a, &mut b, 176);
    show(&mut b, &[1, 0]);
    a.write(2, 94);
    a.write(0, 100);
    joined_ticks(&mut a, &mut b, 176);
    show(&mut b, &[1, 0, 1]);
    b.write(3, 21);
    show(&mut b, &[1]);
    show_start(&a);
    show_start(&b);
}

fn main() {
    print_pulses(&plain(64), &[32]);
    print_pulses(&plain(64), &[33]);
    print_pulses(&plain(16), &[8, 9]);
    let mut generator = Generator { seed: 1 };
    for format in formats() {
        let mut samples = Vec::new();
        for _ in 0..40 {
            samples.extend(piece(&format, &mut generator));
        }
        let characters = read(&format, &samples);
        println!(
            "V\t{}\t{}\t{}",
            fields(&format),
            characters.len(),
            sum(&characters)
        );
    }
    print_chip_cases();
    print_stamp_cases();
    print_joined_cases();
}
