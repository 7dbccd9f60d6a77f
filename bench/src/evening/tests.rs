//! The rival beside the reference: random evenings, the examples, and what the random evenings have seldom.

use std::collections::BTreeMap;
use std::io::{self, Read};

use reference::compare::compare;
use reference::count::{count, Answers};
use reference::protocol;
use reference::random::Random;
use reference::script::evening::script;
use reference::words::{words, EVENING, EVENING_LINE_MAX};

use super::{evening, PIECE};

/// Short evenings, and a long one, which meets every edge that the script aims at: how many, and their lines.
const EVENINGS: [(usize, usize); 2] = [(8, 2_500), (1, 20_000)];
/// How often each call has to be accepted at least in all of them.
const OFTEN: usize = 100;

const EXAMPLES: [&[u8]; 4] = [
    include_bytes!("../../../examples/evening.txt"),
    include_bytes!("../../../examples/cases.txt"),
    include_bytes!("../../../examples/older.txt"),
    include_bytes!("../../../examples/why.txt"),
];

fn by_reference(text: &[u8]) -> Vec<u8> {
    let mut answers = Vec::new();
    protocol::evening(text, &mut answers).expect("a vector can be written");
    answers
}

fn by_rival(text: &[u8]) -> Vec<u8> {
    let mut answers = Vec::new();
    evening(text, &mut answers).expect("a vector can be written");
    answers
}

/// Where a program's answers to a text differ from the reference's, in words.
fn difference(text: &[u8], expected: &[u8], answers: &[u8]) -> Option<String> {
    match compare(expected, answers, text, &EVENING) {
        Some(difference) => Some(difference.to_string()),
        None => (expected != answers).then(|| "the bytes of equal answers differ".to_string()),
    }
}

fn must_agree(text: &[u8]) {
    let said = difference(text, &by_reference(text), &by_rival(text));
    assert_eq!(said, None);
}

/// The seeds and lengths of the random evenings.
fn drawn() -> Vec<(u64, usize)> {
    let mut random = Random::new(101_024);
    let mut seed = || random.between(1, 1_000_000_000) as u64;
    let of_length = |(evenings, lines): (usize, usize)| vec![lines; evenings];
    let lengths = EVENINGS.iter().copied().flat_map(of_length);
    lengths.map(|lines| (seed(), lines)).collect()
}

/// Counts the calls of a text that are accepted, by their word.
fn count_accepted(text: &[u8], answers: &[u8], accepted: &mut BTreeMap<Vec<u8>, usize>) {
    let lines = text.split(|byte| *byte == b'\n');
    let calls = lines.filter(|line| EVENING.is_answered(line));
    for (call, answer) in calls.zip(answers.split(|byte| *byte == b'\n')) {
        if answer == b"0" || answer.starts_with(b"0 ") {
            let word = words(call).next().expect("an accepted call has a word");
            *accepted.entry(word.to_vec()).or_default() += 1;
        }
    }
}

#[test]
fn the_rival_is_the_reference_on_random_evenings() {
    let mut accepted = BTreeMap::new();
    let mut all = Vec::new();
    for (seed, lines) in drawn() {
        let text = script(seed, lines);
        let expected = by_reference(&text);
        let said = difference(&text, &expected, &by_rival(&text));
        assert_eq!(said, None, "seed {seed}, {lines} lines");
        count_accepted(&text, &expected, &mut accepted);
        all.extend(expected);
    }
    let counted = count(&all[..], Answers::Evening).expect("a slice can be read");
    assert!(counted.missing.is_empty(), "{counted:?}");
    assert_eq!(accepted.len(), 11, "a call is never accepted");
    for (word, times) in accepted {
        let word = String::from_utf8_lossy(&word).into_owned();
        println!("{word}: {times}");
        assert!(times >= OFTEN, "{word} is accepted {times} times only");
    }
}

#[test]
fn the_rival_is_the_reference_on_the_examples() {
    for text in EXAMPLES {
        must_agree(text);
    }
    let said = by_rival(EXAMPLES[1]);
    assert_eq!(said, include_bytes!("../../../examples/cases.answers.txt"));
}

/// A text that comes in pieces of so many bytes at most.
struct Pieces<'a>(&'a [u8], usize);

impl Read for Pieces<'_> {
    fn read(&mut self, into: &mut [u8]) -> io::Result<usize> {
        let Pieces(text, most) = self;
        let most = into.len().min(*most);
        text.read(&mut into[..most])
    }
}

#[test]
fn the_pieces_of_the_input_do_not_matter() {
    let text = script(7, 1_500);
    let expected = by_reference(&text);
    for most in [1, 2, 3, 10, 1_000, 65_536] {
        let mut answers = Vec::new();
        evening(Pieces(&text, most), &mut answers).expect("a vector can be written");
        assert_eq!(difference(&text, &expected, &answers), None, "{most}");
    }
}

#[test]
fn a_line_past_its_most_bytes_is_no_call() {
    let lengths = [0, 1, 2, PIECE - EVENING_LINE_MAX, PIECE, 3 * PIECE];
    for length in lengths.map(|past| EVENING_LINE_MAX - 1 + past) {
        for (start, filling) in [
            ("", b' '),
            ("read 7 ", b' '),
            ("read ", b'0'),
            ("x", b'x'),
            ("#", b' '),
            (" #", b'#'),
        ] {
            let mut line = start.as_bytes().to_vec();
            line.resize(length, filling);
            must_agree(&line);
            must_agree(&[&line[..], b"\n"].concat());
            must_agree(&[b"read 1\n", &line[..], b"\r\n\nread 2\n", &line[..]].concat());
        }
    }
}

#[test]
fn a_heading_says_nothing() {
    let admit = admission(7, 600);
    let headings = [
        "#",
        " \t\r#",
        "# read 7",
        "#read 7",
        "##",
        "#\u{0}\u{ff}",
        "#\r",
    ];
    for heading in headings {
        assert!(by_rival(heading.as_bytes()).is_empty(), "{heading}");
        let text = format!(
            "{heading}\n{admit}\n{heading}\nx\n{heading}\n\nread 7 #\n#{admit}\nread 7\n{heading}"
        );
        must_agree(text.as_bytes());
    }
    for line in [
        "read 7 #",
        "read #7",
        "read 7#",
        "read# 7",
        "-#",
        "\u{b}#",
        "\u{feff}#",
    ] {
        assert_eq!(by_rival(line.as_bytes()), b"bad 1\n", "{line}");
        must_agree(line.as_bytes());
    }
}

/// An evaluation, an interest line or a bond with so many numbers, the last one spelled in this way.
fn line_of(word: &str, numbers: usize, last: &str) -> String {
    format!("{word}{} {last}\n", " 1".repeat(numbers - 1))
}

#[test]
fn a_line_may_have_any_count_of_numbers() {
    let last = [
        "1",
        "-",
        "1/2",
        "1x",
        "9223372036854775807",
        "9223372036854775808",
    ];
    let counts = (1..=40).chain(120..=130).chain([500, 5_000]);
    let mut text = String::new();
    for numbers in counts {
        for last in last {
            for word in [
                "evaluate", "interest", "bond", "admit", "read", "quote", "move",
            ] {
                text += &line_of(word, numbers, last);
            }
        }
    }
    must_agree(text.as_bytes());
}

/// The first admission of the example evening, with another id, and a volatility that tells it from others.
fn admission(id: i64, volatility: usize) -> String {
    let example = std::str::from_utf8(EXAMPLES[0]).expect("the example is text");
    let admit = example.lines().find(|line| line.starts_with("admit "));
    let mut words: Vec<String> = admit
        .expect("the example admits a security")
        .split_whitespace()
        .map(str::to_string)
        .collect();
    words[1] = id.to_string();
    words[5] = volatility.to_string();
    words.join(" ")
}

#[test]
fn a_full_table_has_each_id_in_its_own_place() {
    // Ids that follow one another, ones that would be alike in 32 bits, and those at the ends and past them.
    let alike = (0..20).map(|k| (k << 32) + 5);
    let ends = [0, -1, -5, 1_000_000_000, 1_000_000_001, i64::MIN, i64::MAX];
    let ids: Vec<i64> = alike.chain(ends).chain(1..=600).collect();
    let mut lines: Vec<String> = ids
        .iter()
        .enumerate()
        .map(|(place, id)| admission(*id, place))
        .collect();
    lines.extend(ids.iter().map(|id| format!("read {id}")));
    lines.extend(ids.iter().map(|id| admission(*id, 0)));
    let text = lines.join("\n");
    let admitted = by_rival(text.as_bytes());
    let admitted = admitted.split(|byte| *byte == b'\n');
    assert_eq!(admitted.filter(|answer| *answer == b"0").count(), 512);
    must_agree(text.as_bytes());
}

/// A wrong program: it hears one call as another, or has one answer wrong.
type Wrong = fn(&[u8]) -> Vec<u8>;

const WRONG: [(&str, Wrong); 13] = [
    ("no security is admitted", |text| {
        misheard(text, "admit", "read")
    }),
    ("no day is evaluated", |text| {
        misheard(text, "evaluate", "evaluate 0")
    }),
    ("a quote is of another term", |text| {
        misheard(text, "quote", "quote 0")
    }),
    ("a move is an opening", |text| {
        misheard(text, "move", "open")
    }),
    ("an opening only reads", |text| {
        misheard(text, "open", "read")
    }),
    ("a pair is a notice", |text| {
        misheard(text, "outside", "notice")
    }),
    ("a withdrawal only reads", |text| {
        misheard(text, "withdraw", "read")
    }),
    ("a heading is no call", |text| {
        misheard(text, "#", "hello #")
    }),
    ("a heading is not counted", |text| {
        let is_heard = |line: &&[u8]| !line.starts_with(b"#");
        let lines = text.split_inclusive(|byte| *byte == b'\n');
        by_rival(&lines.filter(is_heard).collect::<Vec<_>>().concat())
    }),
    ("no band is kept", |text| {
        misheard(text, "interest", "interest 0")
    }),
    ("the last answer is missing", |text| {
        let answers = by_rival(text);
        let last = answers[..answers.len() - 1]
            .iter()
            .rposition(|byte| *byte == b'\n');
        answers[..=last.expect("there are two answers")].to_vec()
    }),
    ("the last digit is another", |text| {
        let mut answers = by_rival(text);
        let last = answers.len() - 2;
        answers[last] ^= 1;
        answers
    }),
    ("the last line is not ended", |text| {
        let mut answers = by_rival(text);
        answers.pop();
        answers
    }),
];

/// The rival's answers where each line that begins with a word is heard with another.
fn misheard(text: &[u8], word: &str, other: &str) -> Vec<u8> {
    let lines = text.split_inclusive(|byte| *byte == b'\n');
    let heard = lines.map(|line| match line.strip_prefix(word.as_bytes()) {
        Some(rest) => [other.as_bytes(), rest].concat(),
        None => line.to_vec(),
    });
    by_rival(&heard.collect::<Vec<_>>().concat())
}

#[test]
fn the_comparison_tells_wrong_programs() {
    let text = script(2, 3_000);
    let expected = by_reference(&text);
    assert_eq!(difference(&text, &expected, &by_rival(&text)), None);
    for (name, wrong) in WRONG {
        let said = difference(&text, &expected, &wrong(&text));
        assert!(said.is_some(), "it is not seen that {name}");
    }
}
