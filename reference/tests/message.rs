//! W-212: messages to members, written and read, each sentence on both sides.

mod common;

use common::Z;
use reference::listen::listen;
use reference::message::{read, Heard, Kind, Message, LENGTH_BYTES};
use reference::refusal::Refusal;

/// Places of kind 1's fields.
const H: usize = 2;
const RH1: usize = 7;
const RH2: usize = 8;
const RH3: usize = 9;
const MIN1: usize = 11;
const MIN2: usize = 12;
const SMAX: usize = 14;
const MONITORING: usize = 21;

/// The page from which a member writes a reader.
const PAGE: &str = include_str!("../../docs/BROADCAST.md");

/// What is printed of the statics Z of security 7.
const STATICS_SAID: &str = "statics 7 10 100 300 1000 500 5 2 5 8 50 500 700 900 4000 200 25 \
2000 2000 1000 60 1 1 120 1 2 0";

/// The statics Z of security 7.
fn statics() -> Message {
    Message::new(Kind::Statics, [&[7], &Z[..]].concat())
}

/// A good message of a kind.
fn good(kind: Kind) -> Message {
    let fields = kind.fields().iter();
    match kind {
        Kind::Statics => statics(),
        _ => Message::new(kind, fields.map(|field| *field.range.start()).collect()),
    }
}

fn with(message: &Message, changes: &[(usize, i64)]) -> Message {
    let mut fields = message.fields().to_vec();
    for (place, value) in changes {
        fields[*place] = *value;
    }
    Message::new(message.kind(), fields)
}

fn said(stream: impl AsRef<[u8]>) -> Vec<String> {
    let mut output = Vec::new();
    listen(stream.as_ref(), &mut output).unwrap();
    let text = String::from_utf8(output).unwrap();
    text.lines().map(str::to_string).collect()
}

/// The bytes of a message with another length and other bytes behind it.
fn relengthed(message: &Message, length: u32, counted: usize) -> Vec<u8> {
    let mut bytes = message.bytes();
    bytes[..LENGTH_BYTES].copy_from_slice(&length.to_le_bytes());
    bytes.resize(LENGTH_BYTES + counted, 0);
    bytes
}

fn unknown(kind: u16, length: usize) -> Vec<u8> {
    let mut bytes = (length as u32).to_le_bytes().to_vec();
    bytes.extend(kind.to_le_bytes());
    bytes.resize(LENGTH_BYTES + length, 1);
    bytes
}

#[test]
fn kinds_have_the_lengths_of_their_fields() {
    let counted = Kind::ALL.map(|kind| (kind.number(), kind.fields().len(), kind.length()));
    let first = [(1, 27, 98), (2, 15, 94), (3, 17, 94), (4, 9, 62)];
    assert_eq!(counted[..4], first);
    assert_eq!(
        counted[4..],
        [(5, 9, 17), (6, 1, 6), (7, 2, 14), (8, 2, 10)]
    );
}

/// The cells of a row of a table.
fn cells(row: &str) -> Vec<&str> {
    row.split('|').map(str::trim).collect()
}

fn page_number(word: &str) -> i64 {
    word.replace(',', "").parse().unwrap()
}

#[test]
fn the_page_lists_the_fields() {
    for kind in Kind::ALL {
        let title = format!("### Kind {}, ", kind.number());
        let section = PAGE.split(&title).nth(1).unwrap();
        let section = section.split("\n#").next().unwrap();
        let (length, count) = (kind.length(), kind.fields().len());
        let fields = if count == 1 { "field" } else { "fields" };
        let length = format!(": length {length}, {count} {fields}");
        assert!(section.contains(&length), "{kind:?}");
        let mut fields = kind.fields().iter();
        let mut offset = 6;
        for row in section.lines().filter(|line| line.starts_with('|')).skip(2) {
            let row = cells(row);
            let (names, offsets) = (row[1].split(' '), row[2].split(' '));
            assert_eq!(names.clone().count(), offsets.clone().count());
            let range: Vec<i64> = row[5].split("..").map(page_number).collect();
            for (name, place) in names.zip(offsets) {
                let field = fields.next().unwrap();
                assert_eq!((name, place), (field.name, &offset.to_string()[..]));
                assert_eq!(row[3], field.bytes.to_string());
                assert_eq!(range, [*field.range.start(), *field.range.end()]);
                offset += field.bytes;
            }
        }
        assert_eq!(fields.count(), 0);
        assert_eq!(offset, LENGTH_BYTES + kind.length());
    }
}

#[test]
fn what_is_written_reads_back() {
    for kind in Kind::ALL {
        let fields = || kind.fields().iter();
        let most = Message::new(kind, fields().map(|field| *field.range.end()).collect());
        // With h 1,000, RH1 5 and every minimum 10,000 kind 1's most is in order.
        for message in [good(kind), most] {
            let bytes = message.bytes();
            assert_eq!(bytes.len(), LENGTH_BYTES + kind.length());
            let after = bytes.len();
            assert_eq!(read(&bytes, 0), Ok((Heard::Message(message), after)));
        }
    }
}

#[test]
fn a_writer_refuses_fields_and_then_room() {
    for kind in Kind::ALL {
        let message = good(kind);
        let length = message.bytes().len();
        let mut buffer = vec![0xaa; length + 3];
        assert_eq!(message.write(&mut buffer), Ok(length));
        assert_eq!(buffer, [message.bytes(), vec![0xaa; 3]].concat());
        assert_eq!(message.write(&mut buffer[..length]), Ok(length));
        for short in [0, 1, length - 1] {
            let mut buffer = vec![0xaa; short];
            assert_eq!(message.write(&mut buffer), Err(Refusal::NoRoom));
            assert_eq!(buffer, vec![0xaa; short]);
        }
        let bad = with(&message, &[(0, kind.fields()[0].range.start() - 1)]);
        for room in [0, length - 1, length] {
            let mut buffer = vec![0xaa; room];
            assert_eq!(bad.write(&mut buffer), Err(Refusal::FieldOutOfRange));
            assert_eq!(buffer, vec![0xaa; room]);
        }
    }
}

#[test]
fn every_field_has_its_range() {
    for kind in Kind::ALL {
        for (place, field) in kind.fields().iter().enumerate() {
            let (least, most) = (*field.range.start(), *field.range.end());
            for past in [i128::from(least) - 1, i128::from(most) + 1] {
                // Every number of a sum, and every count from 0 on, is in range.
                if !field.has(past) {
                    assert_eq!(kind, Kind::End);
                    continue;
                }
                let message = with(&good(kind), &[(place, past as i64)]);
                assert_eq!(said(message.bytes()), ["refused 23 0"], "{}", field.name);
            }
        }
    }
}

#[test]
fn statics_have_orders_and_multiples() {
    let is_good = |changes: &[(usize, i64)]| {
        let said = said(with(&statics(), changes).bytes());
        assert!(said[0].starts_with("statics ") || said == ["refused 23 0"]);
        said[0].starts_with("statics ")
    };
    assert!(is_good(&[(RH1, 2), (RH2, 2), (RH3, 2)]));
    assert!(!is_good(&[(RH1, 3), (RH2, 2)]));
    assert!(!is_good(&[(RH2, 9)]));
    assert!(is_good(&[(MIN1, 700)]));
    assert!(!is_good(&[(MIN1, 800)]));
    assert!(!is_good(&[(MIN2, 1_000)]));
    assert!(is_good(&[(SMAX, 900)]));
    assert!(!is_good(&[(SMAX, 800)]));
    assert!(is_good(&[(SMAX, 4_100)]));
    for place in MIN1..=SMAX {
        let value = statics().fields()[place];
        assert!(!is_good(&[(place, value + 1)]));
        assert!(!is_good(&[(place, value - 1)]));
    }
    assert!(is_good(&[(H, 50)]));
    assert!(!is_good(&[(H, 300)]));
}

#[test]
fn a_flag_is_0_or_1() {
    let place = 6 + (MONITORING * 4);
    for byte in 0..=255 {
        let mut bytes = statics().bytes();
        bytes[place] = byte;
        let said = said(&bytes);
        assert_eq!(said == ["refused 23 0"], byte > 1, "{byte}");
    }
}

#[test]
fn a_number_below_zero_is_in_twos_complement() {
    let message = with(&good(Kind::Bands), &[(3, -730), (4, -1)]);
    assert_eq!(
        message.bytes()[18..26],
        [0x26, 0xfd, 0xff, 0xff, 0xff, 0xff, 0xff, 0xff]
    );
    assert!(said(message.bytes())[0].starts_with("bands 1 0 0 -730 -1 0 0 0 "));
}

#[test]
fn a_message_is_cut_short_at_every_byte() {
    for kind in Kind::ALL {
        let bytes = good(kind).bytes();
        for cut in 1..bytes.len() {
            assert_eq!(said(&bytes[..cut]), ["refused 21 0"]);
        }
        assert!(said(&bytes[..0]).is_empty());
        assert_ne!(said(&bytes), ["refused 21 0"]);
    }
}

#[test]
fn a_length_is_judged_before_what_follows_it() {
    for kind in Kind::ALL {
        let (message, own) = (good(kind), kind.length());
        let refused = |length: usize, counted: usize| {
            let said = said(relengthed(&message, length as u32, counted));
            assert_eq!(said.len(), 1);
            said[0].clone()
        };
        for length in [0, 1, 4_097, 65_536 + own, 1 << 31] {
            assert_eq!(refused(length, own), "refused 22 0");
            assert_eq!(refused(length, 0), "refused 22 0");
        }
        for length in [2, 3, own - 1, own + 1, 4_096] {
            assert_eq!(refused(length, length), "refused 22 0");
            assert_eq!(refused(length, length - 1), "refused 21 0");
        }
    }
    assert_eq!(said([0; 3]), ["refused 21 0"]);
    assert_eq!(said([0; 4]), ["refused 22 0"]);
}

#[test]
fn a_cut_comes_before_a_length_and_a_length_before_a_field() {
    let bad = with(&statics(), &[(0, 0)]);
    assert_eq!(said(&bad.bytes()[..101]), ["refused 21 0"]);
    assert_eq!(said(relengthed(&bad, 99, 99)), ["refused 22 0"]);
    assert_eq!(said(relengthed(&bad, 99, 98)), ["refused 21 0"]);
    assert_eq!(said(bad.bytes()), ["refused 23 0"]);
}

#[test]
fn an_unknown_kind_is_skipped_by_its_length() {
    let last = good(Kind::Move).bytes();
    let line = &said(&last)[0];
    for kind in [0, 9, 255, 256, 257, 1_024, 65_535] {
        for length in [2, 3, 62, 98, 4_095, 4_096] {
            let stream = [unknown(kind, length), last.clone()].concat();
            assert_eq!(
                said(stream),
                [format!("unknown {kind} {length}"), line.clone()]
            );
        }
        let cut = unknown(kind, 4_096);
        assert_eq!(said(&cut[..4_099]), ["refused 21 0"]);
        assert_eq!(said(unknown(kind, 4_097)), ["refused 22 0"]);
    }
}

#[test]
fn a_reader_stops_at_a_refused_message_and_says_where() {
    let (first, second) = (statics().bytes(), good(Kind::Rates).bytes());
    let bad = with(&good(Kind::Bands), &[(1, -1)]).bytes();
    let stream = [&first[..], &unknown(9, 5), &second, &bad, &first].concat();
    let said = said(&stream);
    assert_eq!(said[1..], ["unknown 9 5", &said[2], "refused 23 209"]);
    assert_eq!(said[0], STATICS_SAID);
    assert_eq!(read(&stream, stream.len()), Err(Refusal::MessageCut));
    assert_eq!(read(&stream, stream.len() + 1), Err(Refusal::MessageCut));
}
