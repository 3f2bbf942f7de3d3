//! The session program: the session that the document works out, and the rules
//! of its section "The session text" one by one.

use std::io::Write;
use std::process::{Command, Stdio};

use model::session::answer;
use model::Generator;

/// Both units set up as in the worked session, then one joined tick: nine lines.
const SET_UP: &str = "W A 2 206; W A 2 126; W A 3 39; W B 2 206; W B 2 126; W B 3 39; \
    P A 0 0 0; P B 0 0 0; L 1; ";

/// The document's way of writing sessions, made the text itself: tabs are shown
/// as spaces, and records are parted by semicolons.
fn text(records: &str) -> String {
    records.replace("; ", "\n").replace(' ', "\t") + "\n"
}

/// The session `input` has exactly the output `output`, both written as in the
/// document.
fn gives(input: &str, output: &str) {
    raw_gives(text(input), output);
}

/// The same for an input given byte by byte.
fn raw_gives(input: impl AsRef<[u8]>, output: &str) {
    let answered = String::from_utf8(answer(input.as_ref())).unwrap();
    assert_eq!(answered, text(output));
}

/// The number that `line`, given byte by byte and alone, is refused with; 0 when
/// it is done.
fn raw_refusal(line: impl AsRef<[u8]>) -> u8 {
    let output = answer(&[line.as_ref(), b"\n"].concat());
    let output = String::from_utf8(output).unwrap();
    if output.ends_with("N\t1\t0\n") {
        return 0;
    }
    let number = output
        .strip_prefix("E\t1\t")
        .and_then(|rest| rest.strip_suffix("\nN\t1\t1\n"));
    number.expect("one refusal").parse().unwrap()
}

/// The same for a line written as in the document.
fn refusal(line: &str) -> u8 {
    raw_refusal(line.replace(' ', "\t"))
}

/// All of `lines`, written as in the document, are refused with `number` when
/// each is given alone.
fn all_refused(number: u8, lines: &[&str]) {
    for line in lines {
        assert_eq!(refusal(line), number, "{line:?}");
    }
}

/// `line` filled up with `x` to `length` bytes, without a newline.
fn filled(line: &str, length: usize) -> String {
    line.to_string() + &"x".repeat(length - line.len())
}

// Whole sessions.

#[test]
fn the_worked_session() {
    let input = "W A 2 206; W A 2 126; W A 3 39; W B 2 206; W B 2 126; W B 3 39; P A 0 0 0; \
        P B 0 0 0; L 1; W A 0 255; L 152; R B 1; L 1; R B 1; R B 0; R B 1";
    let output = "R B 1 197; R B 1 195; R B 0 255 154; R B 1 193; N 16 0";
    gives(input, output);
}

#[test]
fn the_program_writes_the_answer_to_its_input() {
    let input = text(&format!("{SET_UP}W A 0 255; L 153; R B 0; R B 4"));
    let mut program = Command::new(env!("CARGO_BIN_EXE_session"))
        .stdin(Stdio::piped())
        .stdout(Stdio::piped())
        .spawn()
        .unwrap();
    let mut stdin = program.stdin.take().unwrap();
    stdin.write_all(input.as_bytes()).unwrap();
    drop(stdin);
    let output = program.wait_with_output().unwrap();
    assert!(output.status.success());
    assert_eq!(
        output.stdout,
        text("R B 0 255 154; E 13 1; N 13 1").as_bytes()
    );
}

#[test]
fn tabs_and_newlines_of_the_output() {
    let output = answer(b"R\tA\t3\nR\tA\t4\n");
    assert_eq!(output, b"R\tA\t3\t0\nE\t2\t1\nN\t2\t1\n");
    assert_eq!(answer(b""), b"N\t0\t0\n");
}

#[test]
fn answers_come_in_the_order_of_the_lines() {
    let input = "X; R A 3; R B 9; Z A; R B 2; L; R A 1";
    gives(
        input,
        "E 1 6; R A 3 0; E 3 1; R B 2 0; E 6 6; R A 1 0; N 7 3",
    );
}

#[test]
fn counts_are_those_of_the_text_on_random_input() {
    let pieces = ["R\tA\t1", "W\tB\t2\t0", "L\t7", "\n", "\n", "\t", "0", "Z"];
    for seed in 1..=300 {
        let mut g = Generator { seed };
        let mut input = String::new();
        for _ in 0..g.draw(60) {
            input += pieces[g.draw(8) as usize];
        }
        let output = String::from_utf8(answer(input.as_bytes())).unwrap();
        let refused = output.matches("E\t").count();
        let counts = format!("N\t{}\t{refused}\n", input.lines().count());
        assert!(output.ends_with(&counts), "{input:?} gives {output:?}");
    }
}

// Lines and their ends.

#[test]
fn the_last_line_may_lack_its_newline() {
    raw_gives("R\tA\t3", "R A 3 0; N 1 0");
    raw_gives("Z\tA\nR\tA\t3", "R A 3 0; N 2 0");
    raw_gives("Z\tA\nR\tA\t", "E 2 6; N 2 1");
}

#[test]
fn a_newline_at_the_end_begins_no_line() {
    raw_gives("R\tA\t3\n", "R A 3 0; N 1 0");
    raw_gives("R\tA\t3\n\n", "R A 3 0; E 2 6; N 2 1");
}

#[test]
fn empty_lines_are_shape_faults() {
    raw_gives("\n", "E 1 6; N 1 1");
    raw_gives("\n\n\n", "E 1 6; E 2 6; E 3 6; N 3 3");
    raw_gives("\nR\tA\t3\n", "E 1 6; R A 3 0; N 2 1");
}

#[test]
fn carriage_returns_are_shape_faults() {
    raw_gives("R\tA\t3\r\nR\tA\t3\n", "E 1 6; R A 3 0; N 2 1");
    raw_gives("R\tA\t3\r", "E 1 6; N 1 1");
    raw_gives("\r\n", "E 1 6; N 1 1");
    // A carriage return parts no lines.
    raw_gives("R\tA\t3\rR\tA\t3\n", "E 1 6; N 1 1");
}

#[test]
fn lines_over_64_bytes_are_too_long() {
    for (length, number) in [(63, 6), (64, 6), (65, 7), (66, 7), (128, 7), (1000, 7)] {
        let output = format!("E 1 {number}; N 1 1");
        raw_gives(filled("", length), &output);
        raw_gives(filled("", length) + "\n", &output);
    }
}

#[test]
fn carriage_returns_count_among_the_64_bytes() {
    assert_eq!(raw_refusal(filled("", 63) + "\r"), 6);
    assert_eq!(raw_refusal(filled("", 64) + "\r"), 7);
}

#[test]
fn an_overlong_line_is_one_line_skipped_to_its_newline() {
    // What follows byte 64 would be a record, were it a line.
    let long = filled("", 64) + "R\tA\t3\n";
    raw_gives(long + "R\tB\t3\n", "E 1 7; R B 3 0; N 2 1");
    let longest = filled("", 200_000) + "\n";
    raw_gives(longest + "R\tB\t3\n", "E 1 7; R B 3 0; N 2 1");
}

#[test]
fn at_most_65535_lines_are_taken() {
    let read = "R\tB\t3\n";
    for (resets, output) in [
        (65_533, "R B 3 0; N 65534 0"),
        (65_534, "R B 3 0; N 65535 0"),
        (65_535, "N 65535 0"),
        (69_999, "N 65535 0"),
    ] {
        raw_gives("Z\tA\n".repeat(resets) + read, output);
    }
}

#[test]
fn the_65535th_line_may_lack_its_newline() {
    let resets = "Z\tA\n".repeat(65_534);
    raw_gives(resets.clone() + "R\tB\t3", "R B 3 0; N 65535 0");
    raw_gives(resets + &filled("", 65), "E 65535 7; N 65535 1");
}

#[test]
fn refused_lines_count_among_the_65535() {
    for line in ["\n".to_string(), filled("", 65) + "\n"] {
        let number = if line.len() > 64 { 7 } else { 6 };
        let mut output: String = (1..=65_535)
            .map(|i| format!("E\t{i}\t{number}\n"))
            .collect();
        output += "N\t65535\t65535\n";
        for count in [65_535, 65_536, 70_000] {
            assert!(answer(line.repeat(count).as_bytes()) == output.as_bytes());
        }
    }
}

// Shapes.

#[test]
fn each_shape_is_done() {
    all_refused(0, &["W A 0 1", "R A 1", "P A 1 0 1", "Z A", "L 1", "B A 1"]);
    all_refused(0, &["W B 0 1", "R B 1", "P B 1 0 1", "Z B", "L 0", "B B 0"]);
}

#[test]
fn fields_too_few_or_too_many() {
    all_refused(6, &["W", "W A", "W A 0", "W A 0 1 1"]);
    all_refused(6, &["R", "R A", "R A 1 1"]);
    all_refused(6, &["P", "P A", "P A 0", "P A 0 0", "P A 0 0 0 0"]);
    all_refused(6, &["Z", "Z A 0", "L", "L 1 1", "L A 1"]);
    all_refused(6, &["B", "B A", "B 1", "B A 1 1", "B A B 1", "B A 65536 1"]);
}

#[test]
fn letters_of_no_record_or_unit() {
    all_refused(6, &["N 0 0", "E 1 1", "X", "WW A 0 1", "ZA", "R1 A 1"]);
    all_refused(6, &["R C 1", "Z @", "Z AB", "Z AA", "Z 0", "R 1 1"]);
    all_refused(
        6,
        &["B C 1", "B AB 1", "B 0 1", "B 1 1", "BB A 1", "B1 A 1"],
    );
}

#[test]
fn lower_case_is_a_shape_fault() {
    all_refused(6, &["w A 0 1", "r A 1", "p A 0 0 0", "z A", "l 1"]);
    all_refused(6, &["W a 0 1", "R a 1", "P b 0 0 0", "Z a", "Z b"]);
    all_refused(
        6,
        &["b A 1", "b B 0", "B a 1", "B b 1", "b a 1", "b A 65536"],
    );
}

#[test]
fn fields_are_parted_by_exactly_one_tab() {
    for line in ["W A 0 1", "R A 1", "P A 0 0 0", "Z A", "L 1", "B A 1"] {
        let doubled = (line.replacen(' ', "  ", 1), line.replace(' ', "  "));
        let at_ends = (format!("{line} "), format!(" {line}"));
        all_refused(6, &[&doubled.0, &doubled.1, &at_ends.0, &at_ends.1]);
        // A blank in place of a tab: here the line is not written as in the document.
        assert_eq!(raw_refusal(line), 6);
    }
    // Here the number of fields is right, and one is empty.
    all_refused(6, &["R A ", "R  1", " A 1", "Z ", "L ", "W A 0 ", "W A  1"]);
    all_refused(6, &["B A ", "B  1"]);
}

#[test]
fn fields_that_are_no_decimal_numbers() {
    let fields = ["+1", "-1", "-0", " 1", "1 ", "0x1", "1.", "1e0", "1_0", "A"];
    for field in fields {
        let lines = ["R\tA", "L", "B\tA"].map(|line| format!("{line}\t{field}"));
        for line in lines {
            assert_eq!(raw_refusal(&line), 6, "{line:?}");
        }
    }
}

#[test]
fn every_byte_in_every_place_of_a_reset() {
    let line = b"Z\tA";
    for byte in (0..=255).filter(|&byte| byte != b'\n') {
        for place in 0..3 {
            let mut other = *line;
            other[place] = byte;
            let good = byte == line[place] || (place == 2 && byte == b'B');
            let number = if good { 0 } else { 6 };
            assert_eq!(raw_refusal(other), number, "{other:?}");
        }
    }
}

#[test]
fn every_byte_as_a_field_and_as_a_further_byte() {
    for byte in (0..=255).filter(|&byte| byte != b'\n') {
        let number = match byte {
            b'0'..=b'3' => 0,
            b'4'..=b'9' => 1,
            _ => 6,
        };
        assert_eq!(raw_refusal([b'R', b'\t', b'A', b'\t', byte]), number);
        // A further digit makes an address of 10 to 19.
        let number = if byte.is_ascii_digit() { 1 } else { 6 };
        assert_eq!(raw_refusal([b'R', b'\t', b'A', b'\t', b'1', byte]), number);
        assert_eq!(raw_refusal([byte]), 6);
    }
}

#[test]
fn nul_and_bytes_above_127() {
    raw_gives(b"\0\nR\tA\t3\0\nR\tA\t3\n", "E 1 6; E 2 6; R A 3 0; N 3 2");
    raw_gives(b"\xff\n\x80\n\xc3\xa4\n", "E 1 6; E 2 6; E 3 6; N 3 3");
    // Bytes are counted, not characters, and a digit is a byte.
    assert_eq!(raw_refusal("\u{e4}".repeat(32)), 6);
    assert_eq!(raw_refusal("\u{e4}".repeat(33)), 7);
    assert_eq!(raw_refusal("L\t\u{661}"), 6);
    assert_eq!(raw_refusal([0; 64]), 6);
    assert_eq!(raw_refusal([255; 65]), 7);
}

// Decimal fields.

#[test]
fn leading_zeros_within_five_digits() {
    gives("R A 00003; R A 000003", "R A 3 0; E 2 6; N 2 1");
    gives("W B 00003 00039; R B 03", "R B 3 39; N 2 0");
    all_refused(0, &["P A 00001 00000 00001", "L 00000", "L 00001"]);
    all_refused(6, &["L 000000", "L 000001", "L 065535", "W A 0 000001"]);
    all_refused(6, &["P A 000001 0 0", "P A 0 000001 0", "P A 0 0 000001"]);
}

#[test]
fn addresses_at_their_limits() {
    all_refused(0, &["R A 0", "R A 3", "W A 0 0", "W A 3 0"]);
    all_refused(1, &["R A 4", "R A 255", "W A 4 0", "W A 255 0"]);
    all_refused(6, &["R A 256", "R A 65535", "R A 99999", "R A 100000"]);
    all_refused(6, &["W A 256 0", "W A 65535 0", "W A 99999 0"]);
    // These are 3 when only 8 or 16 bits are kept.
    all_refused(6, &["R A 259", "R A 65539", "W A 259 0", "W A 65539 0"]);
}

#[test]
fn values_at_their_limits() {
    all_refused(0, &["W A 0 0", "W A 0 255", "W A 1 255"]);
    all_refused(6, &["W A 0 256", "W A 0 65536", "W A 0 99999"]);
    all_refused(6, &["W A 0 100000", "W A 0 4294967296"]);
}

#[test]
fn levels_at_their_limits() {
    all_refused(0, &["P A 0 0 0", "P A 1 1 1"]);
    all_refused(2, &["P A 2 0 0", "P A 0 2 0", "P A 0 0 2"]);
    all_refused(2, &["P A 255 0 0", "P A 0 255 0", "P A 0 0 255"]);
    all_refused(6, &["P A 256 0 0", "P A 0 256 0", "P A 0 0 256"]);
    all_refused(6, &["P A 65536 0 0", "P A 0 65537 0", "P A 0 0 99999"]);
}

#[test]
fn counts_at_their_limits() {
    all_refused(0, &["L 0", "L 255", "L 256", "L 65535"]);
    all_refused(6, &["L 65536", "L 65537", "L 99999", "L 100000"]);
}

#[test]
fn limits_of_waits_at_their_limits() {
    all_refused(0, &["B A 0", "B A 1", "B B 65534", "B B 65535"]);
    all_refused(0, &["B A 00000", "B A 00001", "B B 00255", "B B 09999"]);
    all_refused(21, &["B A 65536", "B B 65537", "B A 70000", "B B 99999"]);
    all_refused(6, &["B A 100000", "B B 131072", "B A 4294967296"]);
    all_refused(6, &["B A 000000", "B A 000001", "B A 065535", "B B 065536"]);
}

// Refusals.

#[test]
fn each_refusal_number() {
    all_refused(1, &["R B 4", "W B 4 0"]);
    all_refused(2, &["P B 0 2 0"]);
    all_refused(3, &["W B 2 1", "W B 2 2", "W B 2 3", "W B 2 63"]);
    all_refused(4, &["W B 2 0", "W B 2 64", "W B 2 252"]);
    all_refused(5, &["W B 3 64", "W B 3 128", "W B 3 192", "W B 3 255"]);
    all_refused(6, &["R B"]);
    all_refused(7, &[&filled("R B 3", 65)]);
    all_refused(21, &["B B 65536"]);
}

#[test]
fn seven_comes_before_six_and_before_the_chips_own() {
    for line in ["X", "R A 4", "R A 4 ", "P A 2 0 0 ", "B A 65536", "B A 1"] {
        all_refused(6, &[&filled(line, 64)]);
        all_refused(7, &[&filled(line, 65)]);
    }
    // All the fault there is: too many digits.
    assert_eq!(refusal(&format!("R A {:0>60}", 4)), 6);
    assert_eq!(refusal(&format!("R A {:0>61}", 4)), 7);
}

#[test]
fn six_comes_before_the_chips_own() {
    all_refused(6, &["R A 4 ", "W A 4", "W A 4 256", "R C 4"]);
    all_refused(6, &["P A 2 0", "P A 2 256 0", "P A 2 0 x", "P A 2 0 0 0"]);
    all_refused(6, &["W A 2 0 ", "W A 2 1 ", "W A 3 64 ", "W A 3 256"]);
    all_refused(6, &["B C 65536", "B A 65536 ", "B A 99999 0", "B a 99999"]);
}

#[test]
fn a_refused_read_answers_its_refusal_alone() {
    gives("R A 4", "E 1 1; N 1 1");
    gives("R B 255; R B 256; R B 3", "E 1 1; E 2 6; R B 3 0; N 3 2");
}

#[test]
fn refused_records_do_nothing() {
    // Refused modes leave the mode pointer, a refused command the command.
    gives(
        "W A 2 0; W A 2 1; W A 2 206; R A 2; R A 2; R A 2",
        "E 1 4; E 2 3; R A 2 0; R A 2 206; R A 2 0; N 6 2",
    );
    gives("W A 3 7; W A 3 64; R A 3", "E 2 5; R A 3 7; N 3 1");
    // Refused pins leave the inputs high and set no mark.
    gives("P A 0 0 2; R A 1", "E 1 2; R A 1 0; N 2 1");
    gives("P A 0 0 256; R A 1", "E 1 6; R A 1 0; N 2 1");
    // A count with a fault runs no tick.
    let input = format!("{SET_UP}W A 0 255; L 152; L 65537; R B 1");
    gives(&input, "E 12 6; R B 1 197; N 13 1");
}

// Waits, P12 of the change requests.

#[test]
fn a_wait_prints_its_unit_and_its_count() {
    gives("B A 3; B B 0", "B A 3; B B 0; N 2 0");
    assert_eq!(answer(b"B\tA\t3\n"), b"B\tA\t3\nN\t1\t0\n");
    // Without leading zeros, and also where its line lacks a newline.
    raw_gives("B\tB\t00012", "B B 12; N 1 0");
    gives("B A 65535; B A 00000", "B A 65535; B A 0; N 2 0");
}

#[test]
fn the_worked_session_by_waits() {
    let input = format!("{SET_UP}W A 0 255; B B 328; R B 1; B B 328; R B 0; B B 328; R B 1");
    let output = "B B 153; R B 1 199; B B 0; R B 0 255 154; B B 328; R B 1 193; N 16 0";
    gives(&input, output);
    let input = format!("{SET_UP}W A 0 255; B B 152; R B 1; B B 1; R B 1; R B 0");
    let output = "B B 152; R B 1 197; B B 1; R B 1 195; R B 0 255 154; N 15 0";
    gives(&input, output);
}

#[test]
fn a_wait_concerns_its_unit_alone() {
    let written = format!("{SET_UP}W A 0 65; ");
    gives(
        &format!("{written}B A 200; R B 0"),
        "B A 200; R B 0 65 154; N 12 0",
    );
    gives(
        &format!("{written}B B 200; R A 0"),
        "B B 153; R A 0 0 0; N 12 0",
    );
    // B comes 100 ticks behind A.
    let both = format!("{written}L 100; W B 0 66; B A 65535; B B 65535; R A 0; R B 0");
    gives(&both, "B A 153; B B 0; R A 0 66 254; R B 0 65 154; N 16 0");
}

#[test]
fn a_refused_wait_is_a_refusal_and_does_nothing() {
    gives("B A 65536; B B 1", "E 1 21; B B 1; N 2 1");
    let input = format!("{SET_UP}W A 0 255; L 152; B B 65536; B B 100000; R B 1; B B 9; B B 99999");
    let output = "E 12 21; E 13 6; R B 1 197; B B 1; E 16 21; N 16 3";
    gives(&input, output);
}

#[test]
fn a_wait_clears_no_mark() {
    // The change-mark is bit 2; nothing but a status read clears it.
    gives(
        "P A 0 1 1; B A 5; R A 1; R A 1",
        "B A 5; R A 1 132; R A 1 128; N 4 0",
    );
}

// What the records do.

#[test]
fn both_chips_begin_as_after_reset() {
    for unit in ["A", "B"] {
        let reads = "R U 0; R U 1; R U 2; R U 2; R U 3".replace('U', unit);
        let zeros = "R U 0 0 0; R U 1 0; R U 2 0; R U 2 0; R U 3 0".replace('U', unit);
        gives(&reads, &(zeros + "; N 5 0"));
    }
}

#[test]
fn a_record_concerns_its_unit_alone() {
    let reads = "R A 3; R B 3";
    gives(&format!("W A 3 39; {reads}"), "R A 3 39; R B 3 0; N 3 0");
    gives(&format!("W B 3 39; {reads}"), "R A 3 0; R B 3 39; N 3 0");
    // DSR low is bit 7, DCD low is bit 6, and either sets the mark, bit 2.
    gives(
        "P A 0 1 1; P B 1 0 1; R A 1; R B 1",
        "R A 1 132; R B 1 68; N 4 0",
    );
    gives("P A 1 1 0; R A 1; R B 1", "R A 1 0; R B 1 0; N 3 0");
}

#[test]
fn characters_go_both_ways() {
    gives(
        &format!("{SET_UP}W A 0 65; W B 0 66; L 153; R A 0; R B 0"),
        "R A 0 66 154; R B 0 65 154; N 14 0",
    );
    gives(
        &format!("{SET_UP}W B 0 77; L 152; R A 1; L 1; R A 1; R A 0; R B 0"),
        "R A 1 197; R A 1 195; R A 0 77 154; R B 0 0 0; N 16 0",
    );
}

#[test]
fn receive_off_and_on_clears_a_bad_character() {
    // P1 of the change requests, after a break that comes as one character with
    // framing.
    let broken = "R B 1; W A 3 47; L 200; W A 3 39; L 20; R B 1; ";
    let good = "; R B 1; W A 0 65; L 153; R B 1; R B 0; R B 1";
    gives(
        &format!("{SET_UP}{broken}W B 3 35; R B 1; W B 3 39; L 1{good}"),
        "R B 1 197; R B 1 227; R B 1 193; R B 1 193; R B 1 195; R B 0 65 375; R B 1 193; N 25 0",
    );
    // Not with receive left on, nor with a command that is refused.
    gives(
        &format!("{SET_UP}{broken}R B 0; W B 3 39; R B 1; W B 3 67{good}"),
        "R B 1 197; R B 1 227; R B 0 0 154; R B 1 225; E 19 5; R B 1 225; R B 1 227; \
        R B 0 65 374; \
        R B 1 225; N 25 1",
    );
}

#[test]
fn no_joined_ticks() {
    gives("L 0", "N 1 0");
    let input = format!("{SET_UP}W A 0 255; L 152; L 0; L 00; R B 1; L 1; L 0; R B 1");
    gives(&input, "R B 1 197; R B 1 195; N 17 0");
}

#[test]
fn joined_ticks_add_up() {
    let ones = "L 1; ".repeat(152);
    let input = format!("{SET_UP}W A 0 255; {ones}R B 1; L 1; R B 1");
    gives(&input, "R B 1 197; R B 1 195; N 165 0");
}

#[test]
fn the_most_joined_ticks() {
    // Factor 64: L = 768 and D = 672, so few ticks are not enough.
    let slow = SET_UP.replace("126", "0").replace("206", "255") + "W A 0 65; R B 1; ";
    let input = format!("{slow}L 255; L 256; L 161; R B 1; L 1; R B 1");
    gives(&input, "R B 1 197; R B 1 193; R B 1 195; N 17 0");
    let input = format!("{slow}L 65535; R B 1; R B 0; R A 1");
    gives(
        &input,
        "R B 1 197; R B 1 195; R B 0 65 674; R A 1 197; N 15 0",
    );
}

#[test]
fn a_reset_in_the_middle() {
    // It clears its own unit and no other.
    gives(
        &format!("{SET_UP}Z A; R A 1; R A 2; R A 3; R B 1; R B 2; R B 3"),
        "R A 1 0; R A 2 0; R A 3 0; R B 1 197; R B 2 206; R B 3 39; N 16 0",
    );
    // It drops the character under way at the receiver, and at the sender: there
    // the line goes to 1 for the rest, so that what comes is cut short.
    let input = format!("{SET_UP}W A 0 255; L 100; Z B; L 65535; R B 0; R B 1");
    gives(&input, "R B 0 0 0; R B 1 0; N 15 0");
    let input = format!("{SET_UP}W A 0 0; L 80; Z A; L 65535; R B 0");
    gives(&input, "R B 0 240 154; N 14 0");
}

#[test]
fn a_session_goes_on_after_a_reset() {
    let worked = format!("{SET_UP}W A 0 255; L 153; R B 0");
    gives(
        &format!("{worked}; Z A; Z B; {worked}"),
        "R B 0 255 154; R B 0 255 154; N 26 0",
    );
}
