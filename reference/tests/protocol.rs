//! The text protocol of the evening.

use reference::protocol::evening;

const ADMIT: &str = "admit 7 0 1000000 1000000 20000 600 10 100 300 1000 500 5 2 5 8 50 \
500 700 900 4000 200 25 2000 2000 1000 60 1 1 120 1 2 0";
const CASE_1: &str = "evaluate 7 1 0 0 0 0 0 2 -730 1460 0 0 0 0 10000 0 1030000 0 0 1";
const AFTER_CASE_1: &str = "0 7 1 1 1030000 1000000 21214 700 0 800 1200 1500 \
1112400 1153600 1184500 947600 906400 875500 \
0 0 0 988800 1071200 -1 -1 2 -730 1460 988410 1072050 -1 -1 0 0 0 988800 1071200 -1 -1 0 0 0 0 0 0 0";

fn said(script: impl AsRef<[u8]>) -> Vec<String> {
    let mut output = Vec::new();
    evening(script.as_ref(), &mut output).unwrap();
    let text = String::from_utf8(output).unwrap();
    text.lines().map(str::to_string).collect()
}

#[test]
fn an_evening() {
    let script = [
        "read 7",
        ADMIT,
        ADMIT,
        "quote 7 0 0 0 0",
        CASE_1,
        "read 7",
        CASE_1,
        "quote 7 100 0 1062970 0",
        "quote 7 160 0 1062970 988800",
        "quote 7 159 1 0 0",
        "move 7 0",
    ]
    .join("\n");
    let moved = "0 7 1 1 1030000 1000000 21214 700 0 800 1200 1500 \
1133000 1174200 1205100 947600 906400 875500 \
0 0 0 988800 1091800 -1 160 2 -730 1460 988410 1092670 -1 -1 0 0 0 988800 1091800 -1 -1 1 0 160 0 0 0 0";
    let expected = [
        "1",
        "0",
        "2",
        "10",
        AFTER_CASE_1,
        AFTER_CASE_1,
        "5",
        "0 0 0",
        "0 1 0",
        "13",
        moved,
    ];
    assert_eq!(said(script), expected);
}

#[test]
fn blank_lines_are_counted_and_not_answered() {
    assert_eq!(said("\n \t\r\nread 1\n\nreads 1\n"), ["1", "bad 5"]);
    assert_eq!(said("\r\nx"), ["bad 2"]);
    assert!(said("").is_empty());
    assert!(said("\n\n").is_empty());
}

#[test]
fn a_line_whose_first_word_begins_with_a_sign_says_nothing() {
    let script = "# 17 November\n  #\n\t#read 7\r\nread 7\n##\nreads 7\n#";
    assert_eq!(said(script), ["1", "bad 6"]);
    assert_eq!(
        said(format!("#{ADMIT}\nread 7\n{ADMIT}\n# {ADMIT}")),
        ["1", "0"]
    );
    assert!(said("#").is_empty());
    // The sign elsewhere is no comment.
    for line in [
        "read 7 #",
        "read 7 # x",
        "read #7",
        "read 7#",
        "read# 7",
        "-# 7",
        "\u{feff}# 7",
    ] {
        assert_eq!(said(line), ["bad 1"], "{line}");
    }
}

#[test]
fn a_heading_that_is_too_long_is_no_call() {
    let heading = |bytes: usize| "#".repeat(bytes);
    assert_eq!(said(format!("{}\nread 7\n", heading(65_535))), ["1"]);
    assert_eq!(
        said(format!("{}\nread 7\n", heading(65_536))),
        ["bad 1", "1"]
    );
}

#[test]
fn lines_that_are_no_call_are_bad() {
    for line in [
        "read",
        "read 1 2",
        "read +5",
        "read 1.0",
        "read --1",
        "read -",
        "read 9223372036854775808",
        "read -9223372036854775809",
        "Read 1",
        "read1",
        "1",
        "move 1",
        "move 1 2 3",
        "open",
        "open 1 2",
        "Open 1",
        "open 1/2",
        "outside 1 2",
        "outside 1 2 3 4",
        "outside 1 103.25 103.5",
        "outside 1 2/3",
        "Outside 1 2 3",
        "notice 1 0",
        "notice 1 0 2 3",
        "notice 1",
        "notice 1 0 NaN",
        "notice 1 0 18446744073709551615",
        "withdraw",
        "withdraw 1 2",
        "quote 1 2 3 4",
        "quote 1 2 3 4 5 6",
        "evaluate 1 1 0 0 0 0 0 0 0 0 0 0",
        "evaluate 1 1 0 0 0 0 0 0 0 0 0 0 0 x",
        "admit 1",
        "read\u{a0}1",
        "read\u{b}1",
        "read ١",
    ] {
        assert_eq!(said(line), ["bad 1"], "{line}");
    }
    assert_eq!(said(format!("{ADMIT} 0")), ["bad 1"]);
    assert_eq!(said(ADMIT.trim_end_matches(" 0")), ["bad 1"]);
    assert_eq!(said(ADMIT.trim_end_matches(" 120 1 2 0")), ["bad 1"]);
    assert_eq!(
        said(b"read \xff\n\xffread 1\nread 1"),
        ["bad 1", "bad 2", "1"]
    );
}

#[test]
fn odd_spellings_are_calls() {
    for line in [
        "read 1",
        " \tread\t\r 1 \r",
        "read 0000000000000000000000000000001",
        "read -0",
        "read -1",
        "read -9223372036854775808",
        "read 9223372036854775807",
        "outside 1 -9223372036854775808 9223372036854775807",
        "notice 1 5 0",
        "withdraw 1",
        "evaluate 1 1 0 0 0 0 0 0 0 0 0 0 0",
        "evaluate 1 1 0 0 0 0 0 0 0 0 0 0 0 9 9",
    ] {
        assert_eq!(said(line), ["1"], "{line}");
    }
    assert_eq!(said(ADMIT.replace("admit 7", "admit -7")), ["4"]);
}

/// Pair 0/1, q 1, h 1, x_IR 1, no liquidity: 87 to 113 before it is held.
const INTEREST: &str =
    "interest 0 0 1 1000 500 100 1 5 0 0 0 100 9999 -9999 1 100 100 100 100 13 13 0";
const NO_ROWS: &str = "evaluate 7 1 0 0 0 0 0 0 0 0 0 0 0";

#[test]
fn an_interest_line() {
    // Change 0, volatility and tentative rate 13 stay, a day older.
    assert_eq!(said(INTEREST), ["0 87 113 0 13 13 1 13 13"]);
    let two = format!("{INTEREST} 3 100 98 100 100 0 13 250");
    // Change 2 above 0: 1,000·4/10,000 = 0.4, so volatility 1; t 1 is below 13
    // and the wait is over.
    assert_eq!(said(two), ["0 87 113 0 13 13 1 13 13 2 1 12 0 12 12"]);
    assert_eq!(said(INTEREST.replace("t 0 0 1", "t 0 1 1")), ["14"]);
    assert_eq!(said(INTEREST.replace("t 0 0 1", "t 31 1 1")), ["6"]);
    assert_eq!(said(format!("{INTEREST} 9")), ["6"]);
    let values = INTEREST.trim_end_matches(" 1 100 100 100 100 13 13 0");
    assert_eq!(said(values), ["6"]);
    assert_eq!(said(values.trim_end_matches(" -9999")), ["bad 1"]);
    assert_eq!(said("interest"), ["bad 1"]);
}

#[test]
fn an_evaluation_takes_worked_bands() {
    let day = |number: i64, terms: &str| format!("evaluate 7 {number} 0 0 {terms}");
    let script = [
        ADMIT.to_string(),
        day(1, "0 0/1 0 0 0 0 0 0"),
        INTEREST.to_string(),
        INTEREST.replace("t 0 0 1", "t 0 0 0"),
        day(1, "2 0/1 0 0 0 0 0/1"),
        day(2, "0 0 0 1 0/1 30 -00/01"),
        day(2, "0 0 0 0 0/2 0 0 0"),
        day(3, "0 0/1 0 1/0 0 0 0"),
    ];
    let answers = said(script.join("\n"));
    let terms = |answer: &String| -> Vec<String> {
        let figures: Vec<&str> = answer.split(' ').collect();
        figures[18..39]
            .chunks(7)
            .map(|term| term[..3].join(" "))
            .collect()
    };
    assert_eq!(answers[..2], ["0", "6"]);
    assert_eq!(answers[3], "14");
    assert_eq!(terms(&answers[4]), ["2 87 113", "0 0 0", "0 87 113"]);
    assert_eq!(terms(&answers[5]), ["0 0 0", "1 87 113", "30 87 113"]);
    assert_eq!(answers[6..], ["6", "6"]);
}

#[test]
fn worked_limits_are_judged_as_given_ones() {
    // Pair 0/2 with the rate and MM or SEC: 9,000 + MM and -9,000 - SEC.
    let interest = |rate: i64, mm: i64, sec: i64| {
        format!(
            "interest 0 0 2 0 0 100 1 5 0 {mm} {sec} 100 0 0 1 {rate} {rate} {rate} {rate} 0 0 0"
        )
    };
    let crossed = INTEREST.replace("9999 -9999", "99 100");
    let touching = INTEREST.replace("9999 -9999", "100 100");
    for (line, pair, number) in [
        (interest(9_000, 999, 0), "0/2", "0"),
        (interest(9_000, 1_000, 0), "0/2", "6"),
        (interest(-9_000, 0, 999), "0/2", "0"),
        (interest(-9_000, 0, 1_000), "0/2", "6"),
        (touching, "0/1", "0"),
        (crossed, "0/1", "6"),
    ] {
        let day = format!("evaluate 7 1 0 0 0 0 0 0 0 0 0 {pair}");
        let answers = said([ADMIT, &line, &day].join("\n"));
        assert!(answers[1].starts_with("0 "), "{line}");
        let first = answers[2].split(' ').next();
        assert_eq!(first, Some(number), "{line}");
    }
}

#[test]
fn a_pair_that_is_not_kept_is_refused_after_1_and_before_5() {
    let script = [
        ADMIT,
        "evaluate 8 1 0 0 0 0/1 0 0 0 0 0 0",
        "evaluate 7 0 0 0 0 0/1 0 0 0 0 0 0",
        INTEREST,
        "evaluate 7 0 0 0 0 0/1 0 0 0 0 0 0",
    ];
    let answers = said(script.join("\n"));
    assert_eq!(answers[1..3], ["1", "6"]);
    assert_eq!(answers[4], "5");
}

#[test]
fn pairs_that_are_no_pairs_are_bad() {
    for term in [
        "0 0/",
        "0 /1",
        "0 /",
        "0 0/1/2",
        "0 0//1",
        "0 0 /1",
        "0 0/ 1",
        "0 0 / 1",
        "0 0/+1",
        "0 +0/1",
        "0 0/-",
        "0 0/1x",
        "0/1 0 0",
        "0 0 0/1",
        "0/1",
        "0 0/9223372036854775808",
    ] {
        let line = format!("evaluate 7 1 0 0 {term} 0 0 0 0 0 0");
        assert_eq!(said(line), ["bad 1"], "{term}");
    }
    for line in [
        "read 0/1",
        "move 1 0/1",
        "quote 1 2 0/1 4 5",
        "evaluate 0/1 1 0 0 0 0 0 0 0 0 0 0 0",
        "evaluate 7 1 0/1 0 0 0 0 0 0 0 0 0 0",
        "evaluate 7 1 0 0 0 0/1 0 0/1 0",
        "evaluate 7 1 0 0 0 0/1 0 0/1 0 0/1 0/1",
        "evaluate 7 1 0 0 0 0/1 0 0/1 0 0/1 0 1 2 3 4 5 0/1",
    ] {
        assert_eq!(said(line), ["bad 1"], "{line}");
    }
    assert_eq!(said(format!("{INTEREST} 0/1")), ["bad 1"]);
    assert_eq!(said(INTEREST.replace("t 0 0 1", "t 0 0/1")), ["bad 1"]);
    assert_eq!(said(ADMIT.replace("admit 7 0", "admit 7 0/1")), ["bad 1"]);
    assert_eq!(said(NO_ROWS), ["1"]);
    for pair in ["0/1", "-0/01", "-5/-9223372036854775808"] {
        let line = format!("evaluate 7 1 0 0 0 {pair} 0 {pair} 0 {pair}\t\r");
        assert_eq!(said(line), ["1"], "{pair}");
    }
}

#[test]
fn rows_of_any_count_are_heard_up_to_the_most_bytes_of_a_line() {
    let rows = |count: usize| {
        let rows = " 1".repeat(count);
        format!("evaluate 7 1 0 0 0 0 0 0 0 0 0 0 0{rows}")
    };
    assert_eq!(said(format!("{ADMIT}\n{}\n", rows(32_000))), ["0", "6"]);
    assert_eq!(said(format!("{} x\n", rows(32_000))), ["bad 1"]);
    assert_eq!(
        said(format!("{ADMIT}\n{}\nread 8\n", rows(40_000))),
        ["0", "bad 2", "1"]
    );
}

#[test]
fn the_table_has_512_slots() {
    let script: Vec<String> = (1..=514)
        .map(|id| ADMIT.replacen("admit 7", &format!("admit {id}"), 1))
        .collect();
    let answers = said(script.join("\n"));
    assert!(answers[..512].iter().all(|answer| answer == "0"));
    assert_eq!(answers[512..], ["3", "3"]);
}
