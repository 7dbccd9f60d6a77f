//! W-212: what an evening sends to members, and the damaged streams.

use reference::broadcast::broadcast;
use reference::count_listen::count_listen;
use reference::listen::{listen, turns};
use reference::message::LENGTH_BYTES;
use reference::script;
use reference::stream::{begin, whole};

fn said(stream: impl AsRef<[u8]>) -> Vec<String> {
    let mut output = Vec::new();
    listen(stream.as_ref(), &mut output).unwrap();
    let text = String::from_utf8(output).unwrap();
    text.lines().map(str::to_string).collect()
}

/// What is sent of a script from a line on.
fn sent(script: &str, from: u64) -> Vec<u8> {
    let mut output = Vec::new();
    broadcast(script.as_bytes(), from, &mut output).unwrap();
    output
}

/// The messages between `begin` and `end`.
fn messages_of<'l>(lines: impl Iterator<Item = &'l str>) -> Vec<u8> {
    let script: Vec<&str> = lines.collect();
    let stream = sent(&script.join("\n"), 1);
    let last = turns(&stream).last().unwrap().place;
    stream[begin().bytes().len()..last].to_vec()
}

/// The bytes of a table of a section of the page.
fn page_bytes(title: &str) -> Vec<u8> {
    let page = include_str!("../../docs/BROADCAST.md");
    let section = page.split(title).nth(1).unwrap();
    let section = section.split("\n## ").next().unwrap();
    let rows = section.lines().filter(|line| line.starts_with('|')).skip(2);
    let hexadecimal: String = rows
        .filter_map(|row| row.split('`').nth(1))
        .map(|bytes| format!("{bytes} "))
        .collect();
    let byte = |word: &str| u8::from_str_radix(word, 16).unwrap();
    hexadecimal.split_whitespace().map(byte).collect()
}

#[test]
fn the_pages_message_is_written_and_read() {
    let page = include_str!("../../docs/BROADCAST.md");
    let bytes = page_bytes("## A message, byte by byte");
    let line = "move 7 0 1 1133000 1174200 1205100 1091800 1091800 1091800";
    assert_eq!(said(&bytes), [line]);
    assert!(page.contains(line));
    let evening = include_str!("../../examples/evening.txt");
    let before: usize = messages_of(evening.lines().take(8)).len();
    assert_eq!(messages_of(evening.lines().take(9))[before..], bytes);
}

const ADMIT: &str = "admit 7 0 1000000 1000000 20000 600 10 100 300 1000 500 5 2 5 8 50 \
500 700 900 4000 200 25 2000 2000 1000 60 1 1 120 1 2 0";
const CASE_1: &str = "evaluate 7 1 0 0 0 0 0 2 -730 1460 0 0 0 0 10000 0 1030000 0 0 1";

#[test]
fn the_pages_stream_is_written_and_read() {
    let page = include_str!("../../docs/BROADCAST.md");
    let bytes = page_bytes("## A stream, byte by byte");
    let evening = include_str!("../../examples/evening.txt");
    let lines: Vec<&str> = evening.lines().take(96).collect();
    assert_eq!(sent(&lines.join("\n"), 96), bytes);
    let said = said(&bytes);
    assert_eq!(said[..2], ["begin 1", "session 16 4"]);
    for line in said {
        assert!(page.contains(&format!("`{line}`")), "{line}");
    }
}

#[test]
fn accepted_calls_are_sent() {
    let script = format!(
        "{ADMIT}\n{ADMIT}\nmove 7 0\nread 7\nhello\n{CASE_1}\n{CASE_1}\nquote 7 100 0 1062970 0\n\
         move 7 0\nmove 7 1\nmove 7 2\nopen 7\nmove 7 1\nwithdraw 7\nevaluate 7 2 0 0 0 0 0 0 0 0 0 0 0"
    );
    let said = said(messages_of(script.lines()));
    let statics: Vec<&str> = ADMIT.split(' ').skip(7).collect();
    assert_eq!(said[0], format!("statics 7 {}", statics.join(" ")));
    let expected = [
        "rates 7 1 1030000 21214 700 0 800 1200 1500 1112400 1153600 1184500 947600 906400 875500",
        "bands 7 1 0 0 0 988800 1071200 2 -730 1460 988410 1072050 0 0 0 988800 1071200",
        "reasons 7 1 1 2 2 1 1 1 1",
        "move 7 0 1 1133000 1174200 1205100 1091800 1092670 1091800",
        "move 7 1 1 927000 885800 854900 968200 967820 968200",
        "session 7 1",
        "move 7 1 2 906400 865200 834300 947600 947230 947600",
    ];
    assert_eq!(said[1..8], expected);
    assert!(said[8].starts_with("rates 7 2 1030000 "));
    assert!(said[9].starts_with("bands 7 2 0 0 0 "));
    assert_eq!(said[10], "reasons 7 2 4 2 2 4 1 1 1");
    assert_eq!(said.len(), 11);
    assert!(messages_of("".lines()).is_empty());
}

#[test]
fn an_evening_is_one_whole_stream() {
    assert_eq!(sent("", 1), whole::<Vec<u8>>(&[]));
    let evening = include_str!("../../examples/evening.txt");
    let mut output = Vec::new();
    assert!(listen(&sent(evening, 1)[..], &mut output).unwrap());
    assert!(output.starts_with(b"begin 1\n"));
}

#[test]
fn reasons_are_numbered_as_the_evening_lists_them() {
    // The share is not modelled: its rates are the minima, and there is no trade.
    let unmodelled = ADMIT.replace(" 1 1 120 ", " 1 0 120 ");
    let script = format!("{unmodelled}\nevaluate 7 1 0 0 0 0 0 0 0 0 0 0 0");
    assert_eq!(
        said(messages_of(script.lines()))[3],
        "reasons 7 1 4 0 0 0 2 2 2"
    );
    // Two days off: no weight. The rate of level 1 is held at the maximum.
    let script = format!("{ADMIT}\nevaluate 7 1 2 0 0 0 0 0 0 0 0 0 0");
    assert_eq!(
        said(messages_of(script.lines()))[3],
        "reasons 7 1 4 1 2 4 1 1 1"
    );
    let script = format!("{ADMIT}\nevaluate 7 1 0 0 0 0 0 0 0 0 0 0 0 0 10000 0 1700000 0 0 1");
    assert_eq!(
        said(messages_of(script.lines()))[3],
        "reasons 7 1 1 2 1 1 3 3 3"
    );
}

#[test]
fn lines_before_the_first_one_asked_for_are_performed_and_not_told() {
    let lines = [ADMIT, "# tonight", CASE_1, "move 7 0"];
    let script = lines.join("\n");
    let inner = |from: u64| {
        let said = said(sent(&script, from));
        said[1..said.len() - 1].to_vec()
    };
    assert_eq!(inner(2), inner(1)[1..]);
    assert_eq!(inner(3), inner(2));
    assert_eq!(inner(4), inner(1)[4..]);
    assert!(inner(4)[0].starts_with("move 7 0 1 "));
    assert!(inner(5).is_empty());
    assert_eq!(sent(&script, u64::MAX), whole::<Vec<u8>>(&[]));
}

#[test]
fn an_accepted_message_is_the_only_one_of_its_fields() {
    for stream in script::listen::streams(3, 800) {
        for turn in turns(&stream) {
            if let Some(message) = turn.message() {
                let bytes = message.bytes();
                assert_eq!(bytes.len(), LENGTH_BYTES + message.kind().length());
                assert_eq!(stream[turn.place..turn.place + bytes.len()], bytes);
            }
        }
    }
}

#[test]
fn a_seed_gives_the_same_streams_and_they_meet_every_edge() {
    assert_eq!(
        script::listen::streams(5, 30),
        script::listen::streams(5, 30)
    );
    assert_ne!(
        script::listen::streams(5, 30),
        script::listen::streams(6, 30)
    );
    for seed in [1, 2] {
        let folder = std::env::temp_dir().join(format!("reference-{}-{seed}", std::process::id()));
        let mut index = Vec::new();
        script::listen::write(seed, 900, &folder, &mut index).unwrap();
        let counted = count_listen(&index[..]).unwrap();
        std::fs::remove_dir_all(&folder).unwrap();
        assert!(counted.missing.is_empty(), "{:?}", counted.missing);
    }
    let counted = count_listen(&b""[..]).unwrap();
    assert_eq!(counted.missing.len(), counted.line.lines().count());
}
