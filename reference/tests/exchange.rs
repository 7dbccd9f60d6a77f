//! W-203: the exchange's evening text, each sentence on both sides.

mod common;

use std::io::Write;
use std::process::{Command, Output, Stdio};

use common::evaluation;
use reference::count_exchange::count_exchange;
use reference::evaluation::rows_are_in_range;
use reference::exchange::{asked_id, plain, read, BadLine, Printed, Reading, TEXT_MAX};
use reference::random::Random;
use reference::script;

/// A row of security 7: T 1, a central rate of 12.5, a repo rate of -1.5 per
/// cent, close 100.5, bid 99, no ask, volume 3.
const ROW: &str = "7;1;12.5;-1.5;100.5;99;;3\n";
const ROW_SAID: &str = "1 125000 -150 1005000 990000 0 3";
/// A row of another security.
const OTHER: &str = "8;0;1;0;;;;0\n";

fn said(id: &str, text: impl AsRef<[u8]>) -> String {
    let id = asked_id(id.as_bytes()).unwrap();
    Printed(read(text.as_ref(), id)).to_string()
}

/// What the text says of security 7.
fn of_seven(text: impl AsRef<[u8]>) -> String {
    said("7", text)
}

/// A line of plain zeros with one field as given.
fn with(place: usize, field: &[u8]) -> Vec<u8> {
    let mut fields: Vec<&[u8]> = b"7;0;1;0;1;0;0;0".split(|byte| *byte == b';').collect();
    fields[place] = field;
    [&fields.join(&b';')[..], b"\n"].concat()
}

/// The number of the field, where the line is good.
fn number(place: usize, field: impl AsRef<[u8]>) -> Option<i64> {
    let said = of_seven(with(place, field.as_ref()));
    let numbers: Vec<&str> = said.split(' ').collect();
    match numbers[..2] {
        ["0", "1"] => Some(numbers[1 + place].parse().unwrap()),
        _ => {
            assert_eq!(said, "15 1");
            None
        }
    }
}

const T: usize = 1;
const RC: usize = 2;
const REPO: usize = 3;
const CLOSE: usize = 4;
const BID: usize = 5;
const ASK: usize = 6;
const VOLUME: usize = 7;

#[test]
fn a_row() {
    assert_eq!(of_seven(ROW), format!("0 1 {ROW_SAID}"));
    let text = [ROW, OTHER, ROW].concat();
    assert_eq!(of_seven(&text), format!("0 2 {ROW_SAID} {ROW_SAID}"));
    assert_eq!(said("8", &text), "0 1 0 10000 0 0 0 0 0");
    assert_eq!(said("9", &text), "0 0");
}

#[test]
fn rows_go_on_to_an_evaluation() {
    // The text has what document 01's case 10 has.
    let text = "7;0;1;0;100;;;300\n7;0;12.5;0;8.1;;;8\n";
    let rows = read(text.as_bytes(), 7).unwrap();
    assert!(rows_are_in_range(rows.numbers()));
    assert_eq!(evaluation(rows.numbers(), 1, 10), Some(1_003_130));
}

#[test]
fn a_crossed_row_is_not_the_texts_to_judge() {
    // W-205's 16 is the evaluation's.
    let text = "7;0;1;0;;101;100;0\n";
    assert_eq!(of_seven(text), "0 1 0 10000 0 0 1010000 1000000 0");
}

#[test]
fn fields_out_of_range_are_bad() {
    for (place, most) in [(T, "30"), (VOLUME, "100000000")] {
        assert_eq!(number(place, "0"), Some(0));
        assert_eq!(number(place, most).unwrap().to_string(), most);
    }
    assert_eq!(number(T, "31"), None);
    assert_eq!(number(VOLUME, "100000001"), None);
    for (field, units) in [
        ("0", None),
        ("0.0000", None),
        ("0.0001", Some(1)),
        ("1000", Some(10_000_000)),
        ("1000.0000", Some(10_000_000)),
        ("1000.0001", None),
        ("999.9999", Some(9_999_999)),
    ] {
        assert_eq!(number(RC, field), units, "{field}");
    }
    for (field, rate) in [
        ("99.99", Some(9_999)),
        ("-99.99", Some(-9_999)),
        ("100", None),
        ("-100", None),
        ("100.00", None),
        ("99.9", Some(9_990)),
        ("-0.01", Some(-1)),
    ] {
        assert_eq!(number(REPO, field), rate, "{field}");
    }
    for place in [CLOSE, BID, ASK] {
        for (field, units) in [
            ("0", Some(0)),
            ("0.0001", Some(1)),
            ("1000000", Some(10_000_000_000)),
            ("1000000.0000", Some(10_000_000_000)),
            ("1000000.00000", Some(10_000_000_000)),
            ("1000000.0001", None),
            ("999999.9999", Some(9_999_999_999)),
        ] {
            assert_eq!(number(place, field), units, "{field}");
        }
    }
}

#[test]
fn an_id_is_1_to_1_000_000_000() {
    let line = |id: &str| format!("{id};0;1;0;;;;0\n");
    assert_eq!(said("1", line("1")), "0 1 0 10000 0 0 0 0 0");
    assert_eq!(
        said("1000000000", line("1000000000")),
        "0 1 0 10000 0 0 0 0 0"
    );
    for id in [
        "0",
        "1000000001",
        "",
        "-1",
        "7.0",
        "+7",
        "18446744073709551623",
    ] {
        assert_eq!(of_seven(line(id)), "15 1", "{id}");
    }
}

#[test]
fn leading_zeros_are_accepted() {
    for zeros in [1, 2, 20, 300, 5_000] {
        let zeros = "0".repeat(zeros);
        for (place, field, value) in [
            (T, "30", 30),
            (RC, "1.5", 15_000),
            (REPO, "1.5", 150),
            (CLOSE, "1.5", 15_000),
            (BID, "1000000", 10_000_000_000),
            (ASK, "0.0001", 1),
            (VOLUME, "12", 12),
        ] {
            assert_eq!(number(place, format!("{zeros}{field}")), Some(value));
        }
        assert_eq!(number(REPO, format!("-{zeros}1.5")), Some(-150));
        let text = format!("{zeros}7;0;1;0;;;;0\n");
        assert_eq!(of_seven(text), "0 1 0 10000 0 0 0 0 0");
    }
}

#[test]
fn numbers_past_64_bits_are_bad() {
    // Two to the power of 64, and a number that would be in range.
    for field in [
        "18446744073709551617",
        "184467440737095516160001",
        "99999999999999999999",
        "1844674407370955.1617",
        "4294967297",
    ] {
        for place in T..=VOLUME {
            assert_eq!(number(place, field), None, "{field} at {place}");
        }
    }
    for digits in [19, 20, 39, 40, 400, 40_000] {
        for place in T..=VOLUME {
            assert_eq!(number(place, "9".repeat(digits)), None);
        }
    }
}

#[test]
fn a_point_has_a_digit_on_each_side() {
    for place in [RC, REPO, CLOSE, BID, ASK] {
        assert!(number(place, "1.5").is_some());
        assert!(number(place, "0.5").is_some());
        for field in [
            ".5", "5.", ".", "1..5", "1.5.", "1.2.3", ".1.", "-.5", "-5.",
        ] {
            assert_eq!(number(place, field), None, "{field} at {place}");
        }
    }
    for place in [0, T, VOLUME] {
        for field in ["1.0", "1.", ".1", "7.0", "0.0", "."] {
            assert_eq!(of_seven(with(place, field.as_bytes())), "15 1", "{field}");
        }
    }
}

#[test]
fn extra_decimals_are_zeros_of_a_price() {
    for place in [CLOSE, BID, ASK] {
        assert_eq!(number(place, "1.2345"), Some(12_345));
        assert_eq!(number(place, "1.23450"), Some(12_345));
        assert_eq!(number(place, "1.0000000"), Some(10_000));
        assert_eq!(number(place, "0.00000"), Some(0));
        let zeros = "0".repeat(400);
        assert_eq!(number(place, format!("1.2345{zeros}")), Some(12_345));
        assert_eq!(number(place, format!("1.2345{zeros}1")), None);
        for field in ["1.23451", "1.234500001", "0.00001", "1.23450.", "1.23450 "] {
            assert_eq!(number(place, field), None, "{field}");
        }
    }
    assert_eq!(number(RC, "1.2345"), Some(12_345));
    assert_eq!(number(RC, "1.23450"), None);
    assert_eq!(number(RC, "1.00000"), None);
    assert_eq!(number(REPO, "1.23"), Some(123));
    assert_eq!(number(REPO, "1.230"), None);
    assert_eq!(number(REPO, "0.000"), None);
    assert_eq!(number(REPO, "-1.231"), None);
}

#[test]
fn a_repo_rate_alone_may_have_a_minus() {
    for field in ["-0", "-0.0", "-0.00", "-000"] {
        assert_eq!(number(REPO, field), Some(0), "{field}");
    }
    for field in ["-", "--1", "1-", "- 1", "+1", "-+1", "1-1", "-1-"] {
        assert_eq!(number(REPO, field), None, "{field}");
    }
    for place in [T, RC, CLOSE, BID, ASK, VOLUME] {
        for field in ["-0", "-1", "-0.0000"] {
            assert_eq!(number(place, field), None, "{field} at {place}");
        }
    }
}

#[test]
fn an_empty_price_is_missing_and_no_other_field_may_be_empty() {
    assert_eq!(of_seven("7;0;1;0;;;;0\n"), "0 1 0 10000 0 0 0 0 0");
    for place in [CLOSE, BID, ASK] {
        assert_eq!(number(place, ""), Some(0));
    }
    for place in [0, T, RC, REPO, VOLUME] {
        assert_eq!(of_seven(with(place, b"")), "15 1", "{place}");
    }
}

#[test]
fn a_trade_has_a_close() {
    for close in ["", "0", "0.0000", "000.000000"] {
        let line = |volume: &str| format!("7;0;1;0;{close};1;1;{volume}\n");
        assert_eq!(of_seven(line("1")), "15 1");
        assert_eq!(of_seven(line("0")), "0 1 0 10000 0 0 10000 10000 0");
        assert_eq!(of_seven(line("000")), "0 1 0 10000 0 0 10000 10000 0");
    }
    assert_eq!(of_seven("7;0;1;0;0.0001;;;1\n"), "0 1 0 10000 0 1 0 0 1");
}

#[test]
fn any_other_byte_is_bad_in_any_field() {
    for byte in 0..=255_u8 {
        if byte.is_ascii_digit() || b".;-\n".contains(&byte) {
            continue;
        }
        for place in 0..=VOLUME {
            for field in [[byte, b'1'], [b'1', byte]] {
                // A CR before the LF belongs to the end.
                let is_end = place == VOLUME && field == *b"1\r";
                let said = of_seven(with(place, &field));
                assert_eq!(said == "15 1", !is_end, "{byte} at {place}");
            }
        }
    }
    for field in [
        "1e1", "1E1", "1,5", "1_0", "0x1", " 1", "1 ", "1\t", "\u{661}",
    ] {
        for place in T..=VOLUME {
            assert_eq!(number(place, field), None, "{field} at {place}");
        }
    }
}

#[test]
fn a_line_has_eight_fields() {
    assert_eq!(of_seven("7;0;1;0;;;0\n"), "15 1");
    assert_eq!(of_seven("7;0;1;0;;;;0;\n"), "15 1");
    assert_eq!(of_seven("7;0;1;0;;;;;0\n"), "15 1");
    assert_eq!(of_seven(";7;0;1;0;;;;0\n"), "15 1");
    assert_eq!(of_seven("7\n"), "15 1");
    assert_eq!(of_seven("\n"), "15 1");
    assert_eq!(of_seven("\r\n"), "15 1");
    assert_eq!(of_seven(";;;;;;;\n"), "15 1");
    assert_eq!(of_seven([ROW, "\n"].concat()), "15 2");
}

#[test]
fn a_line_ends_with_lf_or_cr_lf() {
    let row = ROW.trim_end();
    let one = format!("0 1 {ROW_SAID}");
    let two = format!("0 2 {ROW_SAID} {ROW_SAID}");
    assert_eq!(of_seven(format!("{row}\r\n")), one);
    assert_eq!(of_seven(format!("{row}\r\n{row}\n")), two);
    assert_eq!(of_seven(format!("{row}\n{row}\r\n")), two);
    for (text, said) in [
        (format!("{row}\r\r\n"), "15 1"),
        (format!("{row}\r"), "15 1"),
        (format!("{row}\r{row}\n"), "15 1"),
        (format!("{row}\n\r{row}\n"), "15 2"),
        (format!("{row}\r \n"), "15 1"),
        (format!("\r{row}\n"), "15 1"),
        (format!("7\r;{row}\n"), "15 1"),
        // Ended with nothing, alone and after a good line.
        (row.to_string(), "15 1"),
        (format!("{row}\n{row}"), "15 2"),
        (format!("{row}\n{row}\r"), "15 2"),
        (format!("{row}\n7"), "15 2"),
        (format!("{row}\n;"), "15 2"),
    ] {
        assert_eq!(of_seven(&text), said, "{text:?}");
    }
    assert_eq!(of_seven(""), "0 0");
}

#[test]
fn a_text_has_at_most_65_536_bytes() {
    let filled = |bytes: usize| {
        let last = "7;0;1;0;;;;0\n";
        let before = OTHER.repeat(bytes / OTHER.len() - 2);
        let zeros = "0".repeat(bytes - before.len() - last.len());
        [before, zeros, last.to_string()].concat()
    };
    assert_eq!(TEXT_MAX, 65_536);
    let most = filled(65_536);
    assert_eq!(most.len(), 65_536);
    assert_eq!(of_seven(&most), "0 1 0 10000 0 0 0 0 0");
    assert_eq!(of_seven(filled(65_537)), "15 0");
    assert_eq!(of_seven(filled(200_000)), "15 0");
    // The length comes before every line.
    assert_eq!(of_seven(["x", &most].concat()), "15 0");
    assert_eq!(of_seven(vec![b'\n'; 65_536]), "15 1");
    assert_eq!(of_seven(vec![b'\n'; 65_537]), "15 0");
    assert_eq!(of_seven(["x", &most[1..]].concat()), "15 1");
    // 5,039 lines of 13 bytes, and the last without its end.
    assert_eq!(of_seven(&filled(65_537)[..65_536]), "15 5040");
}

#[test]
fn a_security_has_at_most_16_rows() {
    let rows = |count: usize| ROW.repeat(count);
    let said_16 = [" ", ROW_SAID].concat().repeat(16);
    assert_eq!(of_seven(rows(16)), format!("0 16{said_16}"));
    assert_eq!(of_seven(rows(17)), "15 17");
    assert_eq!(of_seven(rows(40)), "15 17");
    assert_eq!(said("8", rows(40)), "0 0");
    let others = OTHER.repeat(17);
    assert_eq!(
        of_seven([&others, &rows(16)[..]].concat()),
        format!("0 16{said_16}")
    );
    assert_eq!(of_seven([&others, &rows(17)[..]].concat()), "15 34");
    assert_eq!(said("8", [&others, &rows(16)[..]].concat()), "15 17");
}

#[test]
fn the_first_bad_line_wins() {
    let (good, bad) = (ROW, "7;x\n");
    for (lines, said) in [
        (vec![bad, good], "15 1"),
        (vec![good, bad], "15 2"),
        (vec![good, OTHER, "8;x\n", bad], "15 3"),
        (vec![OTHER, "8;0;1;0;;;;1\n", good], "15 2"),
        (vec![bad, "7"], "15 1"),
    ] {
        assert_eq!(of_seven(lines.concat()), said);
    }
    let rows = ROW.repeat(16);
    assert_eq!(of_seven([&rows, bad, good].concat()), "15 17");
    assert_eq!(of_seven([&rows, good, bad].concat()), "15 17");
    assert_eq!(of_seven([bad, &rows, good].concat()), "15 1");
    assert_eq!(of_seven([&rows, OTHER, good].concat()), "15 18");
    assert_eq!(of_seven([&rows, OTHER, "8\n", good].concat()), "15 18");
    assert_eq!(of_seven([&rows, ROW.trim_end()].concat()), "15 17");
}

#[test]
fn an_id_that_no_line_has_has_no_rows() {
    for id in [
        "0",
        "000",
        "8",
        "70",
        "1000000001",
        "4294967303",
        "18446744073709551623",
        "340282366920938463463374607431768211463",
        &"9".repeat(500),
    ] {
        assert_eq!(said(id, ROW), "0 0", "{id}");
        assert_eq!(said(id, "7"), "15 1", "{id}");
    }
    assert_eq!(said("007", ROW), format!("0 1 {ROW_SAID}"));
    let zeros = format!("{}7", "0".repeat(500));
    assert_eq!(said(&zeros, ROW), format!("0 1 {ROW_SAID}"));
}

/// The second reading, by the sentences one after the other.
fn plainly(text: &[u8], id: i64) -> Result<Vec<i64>, BadLine> {
    if text.len() > 65_536 {
        return Err(BadLine(0));
    }
    let mut rows = Vec::new();
    let lines = text.split_inclusive(|byte| *byte == b'\n');
    for (index, line) in lines.enumerate() {
        match plain::line(line) {
            Ok(numbers) if numbers[0] != id => {}
            Ok(numbers) if rows.len() < 16 * 7 => rows.extend(&numbers[1..]),
            _ => return Err(BadLine(index + 1)),
        }
    }
    Ok(rows)
}

fn numbers(reading: Reading) -> Result<Vec<i64>, BadLine> {
    reading.map(|rows| rows.numbers().to_vec())
}

#[test]
fn both_readings_agree() {
    for seed in 1..=4 {
        let mut random = Random::new(seed);
        for mut text in script::exchange::texts(seed, 400) {
            let id = asked_id(text.id.as_bytes()).unwrap();
            assert_eq!(numbers(read(&text.bytes, id)), plainly(&text.bytes, id));
            // The same text with one byte changed, unless it is a long one.
            let changes = match text.bytes.len() {
                1..=9_999 => 8,
                _ => 0,
            };
            for _ in 0..changes {
                let place = random.below(text.bytes.len());
                let before = text.bytes[place];
                text.bytes[place] = random.pick(b"019.;-\r\n\0 \xb1");
                assert_eq!(numbers(read(&text.bytes, id)), plainly(&text.bytes, id));
                text.bytes[place] = before;
            }
        }
    }
}

#[test]
fn the_texts_meet_every_edge() {
    let folder = std::env::temp_dir().join(format!("reference-exchange-{}", std::process::id()));
    for seed in [1, 2] {
        let mut index = Vec::new();
        script::exchange::write(seed, 300, &folder, &mut index).unwrap();
        let counted = count_exchange(&index[..]).unwrap();
        assert!(counted.missing.is_empty(), "{:?}", counted.missing);
    }
    std::fs::remove_dir_all(&folder).unwrap();
    let counted = count_exchange(&b""[..]).unwrap();
    assert_eq!(counted.missing.len(), counted.line.lines().count());
}

#[test]
fn a_seed_gives_the_same_texts() {
    let bytes = |seed: u64| -> Vec<Vec<u8>> {
        let texts = script::exchange::texts(seed, 50);
        texts.into_iter().map(|text| text.bytes).collect()
    };
    assert_eq!(bytes(5), bytes(5));
    assert_ne!(bytes(5), bytes(6));
}

fn run(words: &[&str], text: &str) -> Output {
    let mut program = Command::new(env!("CARGO_BIN_EXE_reference"));
    let piped = program.args(words).stdin(Stdio::piped());
    let mut running = piped
        .stdout(Stdio::piped())
        .stderr(Stdio::piped())
        .spawn()
        .unwrap();
    // A program that only speaks its usage may not read the text.
    let _ = running.stdin.take().unwrap().write_all(text.as_bytes());
    running.wait_with_output().unwrap()
}

#[test]
fn the_program_takes_an_id_and_a_text() {
    let output = run(&["exchange", "7"], ROW);
    assert_eq!(output.status.code(), Some(0));
    assert_eq!(output.stdout, format!("0 1 {ROW_SAID}\n").into_bytes());
    let output = run(&["exchange", "0000000000000000000000007"], "7");
    assert_eq!(output.status.code(), Some(0));
    assert_eq!(output.stdout, b"15 1\n");
    for words in [
        &["exchange"][..],
        &["exchange", ""],
        &["exchange", "-7"],
        &["exchange", "+7"],
        &["exchange", "7 "],
        &["exchange", " 7"],
        &["exchange", "7.0"],
        &["exchange", "x"],
        &["exchange", "\u{667}"],
        &["exchange", "7", "8"],
    ] {
        let output = run(words, ROW);
        assert_eq!(output.status.code(), Some(2), "{words:?}");
        assert!(output.stdout.is_empty());
        let lines = output.stderr.split_inclusive(|byte| *byte == b'\n');
        assert_eq!(lines.count(), 1, "{words:?}");
    }
}
