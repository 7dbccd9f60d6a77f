//! The evaluations of one evening, made of the exchange's text.

use std::io::BufRead;

use reference::count_night::count_night;
use reference::exchange::{read, TEXT_MAX as EXCHANGE_MAX};
use reference::kept::Kept;
use reference::night::plain::{first_bad, ids, printed, Why};
use reference::night::{evaluations, index, Asked, SECURITIES_MAX, TEXT_MAX};
use reference::protocol;
use reference::script;
use reference::words::{number_or_pair, words, Word};

const DAY: &str = "4 0 0 0 -1 1 1 -2 2 2 -3 3";
const ROW: &str = "7;0;1;0;103;;;5\n";
const ROW_SAID: &str = "0 10000 0 1030000 0 0 5";

/// What is printed of words and a text: lines, or the bad line.
fn said(asked: &str, text: &str) -> Result<Vec<String>, usize> {
    let asked: Vec<&[u8]> = asked.split(' ').map(str::as_bytes).collect();
    let asked = Asked::from_words(&asked).expect("the words are a day and ids");
    let lines = evaluations(&asked, text.as_bytes()).map_err(|bad| bad.0)?;
    assert!(lines.is_empty() || lines.ends_with('\n'));
    Ok(lines.lines().map(str::to_string).collect())
}

fn evaluation(id: i64, rows: &str) -> String {
    format!("evaluate {id} {DAY} {rows}").trim_end().to_string()
}

#[test]
fn a_line_for_each_security_in_the_order_of_the_text() {
    let text = [
        "9;1;1;0;;;;0\n",
        ROW,
        "9;0;1;0;1;;;2\n",
        "007;0;1;0;103;;;5\r\n",
    ]
    .concat();
    let expected = [
        evaluation(9, "1 10000 0 0 0 0 0 0 10000 0 10000 0 0 2"),
        evaluation(7, &format!("{ROW_SAID} {ROW_SAID}")),
    ];
    assert_eq!(said(DAY, &text), Ok(expected.to_vec()));
    assert_eq!(said(DAY, ""), Ok(vec![]));
}

#[test]
fn then_a_line_without_rows_for_each_other_given_id() {
    let of = |ids: &str| said(&format!("{DAY} {ids}"), ROW).unwrap();
    let seven = evaluation(7, ROW_SAID);
    assert_eq!(of("7"), [seven.as_str()]);
    assert_eq!(of("7 007 7"), [seven.as_str()]);
    let more = [seven.clone(), evaluation(9, ""), evaluation(8, "")];
    assert_eq!(of("9 7 8 9 08"), more);
    assert_eq!(said(&format!("{DAY} 8"), ""), Ok(vec![evaluation(8, "")]));
    // An id that no security has is a number too: the evening refuses it.
    let more = [evaluation(0, ""), evaluation(1_000_000_001, "")];
    assert_eq!(of("-0 1000000001")[1..], more);
}

#[test]
fn pairs_and_spellings() {
    let line = |words: &str| said(words, ROW).unwrap().remove(0);
    let with = |words: &str| format!("evaluate 7 {words} {ROW_SAID}");
    for words in [
        "4 0 0 0 0/1 1 -2 2 2 -3 3",
        "4 0 0 0 -1 1 1 0/2 2 -3 3",
        "4 0 0 0 -1 1 1 -2 2 2 1/2",
        "4 0 0 0 0/1 1 0/2 2 1/2",
        "-4 99 -1 31 5 -5 0 0 0 0 0 0",
    ] {
        assert_eq!(line(words), with(words));
    }
    let odd = "004 -0 0 0 -01/0002 1 -002 2 2 -3 3";
    assert_eq!(line(odd), with("4 0 0 0 -1/2 1 -2 2 2 -3 3"));
}

#[test]
fn wrong_words() {
    let is_asked = |words: &str| {
        let words: Vec<&[u8]> = words.split(' ').map(str::as_bytes).collect();
        Asked::from_words(&words).is_some()
    };
    assert!(is_asked(DAY));
    let all: Vec<&str> = DAY.split(' ').collect();
    assert!(Asked::from_words(&[]).is_none());
    for count in 1..all.len() {
        assert!(!is_asked(&all[..count].join(" ")), "{count}");
    }
    for place in 0..=all.len() {
        for wrong in [
            "",
            "x",
            "+1",
            "1.0",
            "-",
            "1/",
            "/1",
            "1/2/3",
            "9223372036854775808",
        ] {
            let mut words = [&all[..], &["7"]].concat();
            words[place] = wrong;
            assert!(!is_asked(&words.join(" ")), "{words:?}");
        }
    }
    // A pair at another place, and one in place of one number of a term.
    for place in [0, 1, 2, 3, 5, 6, 8, 9, 11, 12] {
        let mut words = [&all[..], &["7"]].concat();
        words[place] = "0/1";
        assert!(!is_asked(&words.join(" ")), "{words:?}");
    }
    // Two pairs for one term leave too few numbers, or stand for an id.
    assert!(!is_asked("4 0 0 0 0/1 0/1 1 0 0 2 0 0"));
    assert!(!is_asked(&format!("{DAY} 0/1")));
    // With a pair in place of two numbers the last words are ids.
    assert!(is_asked("4 0 0 0 0/1 1 0/1 2 0/1"));
    assert!(!is_asked("4 0 0 0 0/1 1 0/1 2 0"));
    // An id is not below 0, and there are at most 512.
    assert!(is_asked(&format!("{DAY} -0 9223372036854775807")));
    assert!(!is_asked(&format!("{DAY} -1")));
    assert!(!is_asked(&format!("{DAY} 7 -9223372036854775808 8")));
    assert!(is_asked(&format!("{DAY}{}", " 7".repeat(512))));
    assert!(!is_asked(&format!("{DAY}{}", " 7".repeat(513))));
}

#[test]
fn a_seventeenth_row_is_bad_at_its_line() {
    let other = "9;0;1;0;;;;0\n";
    assert!(said(DAY, &ROW.repeat(16)).is_ok());
    assert_eq!(said(DAY, &ROW.repeat(17)), Err(17));
    assert_eq!(
        said(DAY, &[ROW, other].concat().repeat(16)).unwrap().len(),
        2
    );
    assert_eq!(said(DAY, &[ROW, other].concat().repeat(17)), Err(33));
    let bad_before = [&ROW.repeat(16), "x\n", ROW].concat();
    assert_eq!(said(DAY, &bad_before), Err(17));
    let bad_behind = [&ROW.repeat(17), "x\n"].concat();
    assert_eq!(said(DAY, &bad_behind), Err(17));
}

fn securities(count: usize) -> String {
    (1..=count).map(|id| format!("{id};0;1;0;;;;0\n")).collect()
}

#[test]
fn a_security_more_than_a_table_has_slots_is_bad_at_its_line() {
    assert_eq!(said(DAY, &securities(SECURITIES_MAX)).unwrap().len(), 512);
    assert_eq!(said(DAY, &securities(513)), Err(513));
    let again = [&securities(512)[..], "512;0;1;0;;;;0\n", "513;0;1;0;;;;0\n"].concat();
    assert_eq!(said(DAY, &again), Err(514));
    // A given id is no security of the text.
    let given = format!("{DAY} 513 514");
    assert_eq!(said(&given, &securities(512)).unwrap().len(), 514);
}

#[test]
fn the_lengths() {
    let filled = |bytes: usize| [&"0".repeat(bytes - ROW.len())[..], ROW].concat();
    assert_eq!(TEXT_MAX, 1_048_576);
    for bytes in [EXCHANGE_MAX + 1, TEXT_MAX - 1, TEXT_MAX] {
        assert_eq!(said(DAY, &filled(bytes)), Ok(vec![evaluation(7, ROW_SAID)]));
    }
    assert_eq!(said(DAY, &filled(TEXT_MAX + 1)), Err(0));
    assert_eq!(said(DAY, &"x".repeat(TEXT_MAX + 1)), Err(0));
    assert_eq!(said(DAY, &"x".repeat(TEXT_MAX)), Err(1));
}

#[test]
fn a_heading_is_a_bad_line() {
    assert_eq!(said(DAY, &["# 17 November\n", ROW].concat()), Err(1));
    assert_eq!(said(DAY, &[ROW, "\n", ROW].concat()), Err(2));
    assert_eq!(said(DAY, ROW.trim_end()), Err(1));
}

/// The texts of a seed with their words.
fn texts(seed: u64, count: usize) -> Vec<(Vec<String>, Vec<u8>)> {
    let folder = std::env::temp_dir().join(format!("nights-{}-{seed}", std::process::id()));
    let mut written = Vec::new();
    script::night::write(seed, count, &folder, &mut written).unwrap();
    let mut texts = Vec::new();
    index::each(&written[..], |_, words, text| {
        let words = words
            .iter()
            .map(|word| String::from_utf8(word.to_vec()).unwrap());
        texts.push((words.collect(), text));
        Ok(())
    })
    .unwrap();
    let counted = count_night(&written[..]).unwrap();
    assert!(counted.missing.is_empty(), "{:?}", counted.missing);
    let mut answered = Vec::new();
    index::answer(&written[..], &mut answered).unwrap();
    let heads = answered
        .lines()
        .filter(|line| !is_answer(line.as_ref().unwrap()));
    assert_eq!(heads.count(), count);
    std::fs::remove_dir_all(folder).unwrap();
    texts
}

fn is_answer(line: &str) -> bool {
    let bad = line.strip_prefix("15 ").map(str::parse::<usize>);
    line.starts_with("evaluate ") || matches!(bad, Some(Ok(_)))
}

#[test]
fn the_two_readings_agree_and_the_lines_read_back() {
    for (asked_words, text) in texts(11, 260) {
        let asked_words: Vec<&str> = asked_words.iter().map(String::as_str).collect();
        let bytes: Vec<&[u8]> = asked_words.iter().map(|word| word.as_bytes()).collect();
        let asked = Asked::from_words(&bytes).unwrap();
        let said = evaluations(&asked, &text);
        let bad = first_bad(&text).map(|(line, _)| line);
        assert_eq!(said.as_ref().err().map(|bad| bad.0), bad);
        let lines = match &said {
            Ok(lines) => lines,
            Err(_) => continue,
        };
        let expected = printed(&asked_words, asked.day.len(), &text);
        assert_eq!(lines.lines().collect::<Vec<_>>(), expected);
        read_back(&asked, &text, lines);
    }
}

/// Each line is an evaluation of the day, by the evening's own reading, with the
/// rows that the exchange's text says of its id; each id once.
fn read_back(asked: &Asked, text: &[u8], lines: &str) {
    let mut said = Vec::new();
    for line in lines.lines() {
        let mut heard = words(line.as_bytes());
        assert_eq!(heard.next(), Some(&b"evaluate"[..]));
        let heard: Vec<Word> = heard.map(|word| number_or_pair(word).unwrap()).collect();
        let evaluation = protocol::Asked::from_words(&Kept::default(), &heard).unwrap();
        assert_eq!(heard[1..=asked.day.len()], asked.day);
        if text.len() <= EXCHANGE_MAX {
            assert_eq!(
                evaluation.rows,
                read(text, evaluation.id).unwrap().numbers()
            );
        }
        assert!(!said.contains(&evaluation.id));
        said.push(evaluation.id);
    }
    let of_text = ids(text);
    assert_eq!(said[..of_text.len()], of_text);
    let is_given = |id: &i64| asked.ids.contains(id);
    assert!(said[of_text.len()..].iter().all(is_given));
    assert!(asked.ids.iter().all(|id| said.contains(id)));
}

#[test]
fn a_seed_gives_texts_with_every_edge() {
    for seed in [1, 2] {
        texts(seed, 120);
    }
}

/// What a program prints of its words, so many of them before the ids, and a
/// text.
type Program = fn(&[&str], usize, &[u8]) -> String;

/// What the reference prints.
fn right(words: &[&str], _: usize, text: &[u8]) -> String {
    let words: Vec<&[u8]> = words.iter().map(|word| word.as_bytes()).collect();
    let asked = Asked::from_words(&words).unwrap();
    evaluations(&asked, text).unwrap_or_else(|bad| format!("{bad}\n"))
}

/// The lines in another order, or otherwise.
fn changed(said: String, change: impl Fn(&mut Vec<String>)) -> String {
    let mut lines: Vec<String> = said.lines().map(|line| format!("{line}\n")).collect();
    change(&mut lines);
    lines.concat()
}

/// The id of a line.
fn id_of(line: &str) -> i64 {
    let id = line.split_whitespace().nth(1).unwrap();
    id.parse().unwrap()
}

fn is_bad(said: &str) -> bool {
    said.starts_with("15 ")
}

const WRONG: [(&str, Program); 13] = [
    ("ids ascend", |words, count, text| {
        changed(right(words, count, text), |lines| {
            lines.sort_by_key(|line| id_of(line));
        })
    }),
    ("given ids come first", |words, count, text| {
        let of_text = ids(text);
        changed(right(words, count, text), |lines| {
            let is_given = |line: &String| !is_bad(line) && !of_text.contains(&id_of(line));
            lines.sort_by_key(|line| !is_given(line));
        })
    }),
    ("an id twice has two lines", |words, count, text| {
        let said = right(words, count, text);
        let twice = words[count..].windows(2).any(|two| two[0] == two[1]);
        changed(said, |lines| {
            if twice {
                lines.push(lines[0].clone());
            }
        })
    }),
    (
        "an id in two spellings has two lines",
        |words, count, text| {
            let given = &words[count..];
            let padded = given.iter().find(|id| id.starts_with('0') && id.len() > 1);
            changed(right(words, count, text), |lines| {
                if padded.is_some() {
                    lines.push(lines[0].clone());
                }
            })
        },
    ),
    ("given ids are ignored", |words, count, text| {
        right(&words[..count], count, text)
    }),
    ("words stand as they are spelled", |words, count, text| {
        changed(right(words, count, text), |lines| {
            for line in lines.iter_mut().filter(|line| !is_bad(line)) {
                let mut parts: Vec<&str> = line.split_whitespace().collect();
                parts.splice(2..2 + count, words[..count].iter().copied());
                *line = parts.join(" ") + "\n";
            }
        })
    }),
    ("the rows are turned round", |words, count, text| {
        changed(right(words, count, text), |lines| {
            for line in lines.iter_mut().filter(|line| !is_bad(line)) {
                let parts: Vec<&str> = line.split_whitespace().collect();
                let (head, rows) = parts.split_at(2 + count);
                let rows: Vec<&str> = rows.chunks(7).rev().flatten().copied().collect();
                *line = [head, &rows].concat().join(" ") + "\n";
            }
        })
    }),
    (
        "a text is bad beyond the exchange's most",
        |words, count, text| {
            if text.len() > EXCHANGE_MAX {
                return "15 0\n".to_string();
            }
            right(words, count, text)
        },
    ),
    ("the most bytes are too many", |words, count, text| {
        if text.len() == TEXT_MAX {
            return "15 0\n".to_string();
        }
        right(words, count, text)
    }),
    ("a text that is too long is cut", |words, count, text| {
        right(words, count, &text[..text.len().min(TEXT_MAX)])
    }),
    ("512 securities are too many", |words, count, text| {
        if ids(text).len() >= SECURITIES_MAX && !is_bad(&right(words, count, text)) {
            return "15 512\n".to_string();
        }
        right(words, count, text)
    }),
    ("a 513th security is passed over", |words, count, text| {
        let of_text = ids(text);
        let is_513th = first_bad(text).map(|(_, why)| why) == Some(Why::TooManySecurities);
        let last = of_text.last().filter(|_| is_513th);
        let lines = text.split_inclusive(|byte| *byte == b'\n');
        let kept = lines.filter(|line| {
            let id = line.split(|byte| *byte == b';').next().unwrap();
            last.map_or(true, |last| id != last.to_string().as_bytes())
        });
        right(words, count, &kept.collect::<Vec<_>>().concat())
    }),
    ("the last bad line is told", |words, count, text| {
        let said = right(words, count, text);
        let bad = reference::night::plain::lines(text);
        match bad.iter().rposition(|line| line.is_err()) {
            Some(last) if is_bad(&said) => format!("15 {}\n", last + 1),
            _ => said,
        }
    }),
];

#[test]
fn the_texts_tell_wrong_programs() {
    let texts = texts(3, 90);
    for (name, wrong) in WRONG {
        let is_told = |(words, text): &(Vec<String>, Vec<u8>)| {
            let words: Vec<&str> = words.iter().map(String::as_str).collect();
            let bytes: Vec<&[u8]> = words.iter().map(|word| word.as_bytes()).collect();
            let count = Asked::from_words(&bytes).unwrap().day.len();
            wrong(&words, count, text) != right(&words, count, text)
        };
        assert!(texts.iter().any(is_told), "it is not seen that {name}");
    }
}
