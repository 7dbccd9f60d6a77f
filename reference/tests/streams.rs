//! Whole streams of messages: what `begin` and `end` bound, what a reader says
//! where they do not, and the twenty damages.

use reference::count_damage::count_damage;
use reference::damage::{Answer, Damage};
use reference::listen::{is_one_whole, listen_index, turns, NOT_WHOLE};
use reference::message::{Kind, Message};
use reference::refusal::Refusal;
use reference::script;
use reference::stream::{begin, end, sum, whole};

/// The page from which a member writes a reader.
const PAGE: &str = include_str!("../../docs/BROADCAST.md");

fn said(stream: impl AsRef<[u8]>) -> Vec<String> {
    let turns = turns(stream.as_ref());
    turns.iter().map(ToString::to_string).collect()
}

fn is_whole(stream: impl AsRef<[u8]>) -> bool {
    is_one_whole(&turns(stream.as_ref()))
}

fn session(id: i64) -> Vec<u8> {
    Message::new(Kind::Session, vec![id, 4]).bytes()
}

fn bytes_of(parts: &[&[u8]]) -> Vec<u8> {
    parts.concat()
}

#[test]
fn a_whole_stream_is_from_its_begin_to_its_end() {
    let inner = [session(7), session(8)];
    let stream = whole(&inner);
    let bytes = bytes_of(&[&begin().bytes(), &inner.concat()]);
    let last = format!("end 3 {}", sum(&bytes));
    assert_eq!(
        said(&stream),
        ["begin 1", "session 7 4", "session 8 4", &last]
    );
    assert!(is_whole(&stream));
    assert!(is_whole(whole::<Vec<u8>>(&[])));
    assert!(!is_whole(b""));
    assert!(!is_whole(inner.concat()));
}

#[test]
fn an_end_is_judged_behind_21_22_and_23() {
    let bytes = begin().bytes();
    let right = end(1, &bytes).bytes();
    for (count, sum) in [
        (0, sum(&bytes)),
        (2, sum(&bytes)),
        (1, sum(&bytes) ^ 1),
        (1, 0),
    ] {
        let other = Message::new(Kind::End, vec![count, i64::from(sum)]).bytes();
        assert_eq!(
            said(bytes_of(&[&bytes, &other])),
            ["begin 1", "refused 25 10"]
        );
    }
    let below = Message::new(Kind::End, vec![-1, 0]).bytes();
    assert_eq!(
        said(bytes_of(&[&bytes, &below])),
        ["begin 1", "refused 23 10"]
    );
    assert_eq!(
        said(bytes_of(&[&bytes, &right[..17]])),
        ["begin 1", "refused 21 10"]
    );
    let mut longer = right.clone();
    longer[0] += 1;
    longer.push(0);
    assert_eq!(
        said(bytes_of(&[&bytes, &longer])),
        ["begin 1", "refused 22 10"]
    );
    assert_eq!(said(end(0, b"").bytes()), ["refused 25 0"]);
    let headless = bytes_of(&[&session(7), &end(1, &session(7)).bytes()]);
    assert_eq!(said(headless), ["session 7 4", "refused 25 14"]);
}

#[test]
fn bytes_behind_an_end_begin_a_new_stream() {
    let stream = whole(&[session(7)]);
    let twice = bytes_of(&[&stream, &stream]);
    assert_eq!(said(&twice), [said(&stream), said(&stream)].concat());
    assert!(!is_whole(&twice));
    let end_of_all = bytes_of(&[&stream, &begin().bytes()]);
    let all = end(4, &end_of_all).bytes();
    assert_eq!(said(bytes_of(&[&end_of_all, &all]))[4], "refused 25 52");
    let again = bytes_of(&[&stream, &stream[stream.len() - 18..]]);
    assert_eq!(said(again)[3], "refused 25 42");
    let behind = bytes_of(&[&stream, &session(8)]);
    assert_eq!(said(&behind)[3..], ["session 8 4"]);
    assert!(!is_whole(behind));
    let before = bytes_of(&[&session(8), &stream]);
    assert_eq!(said(&before)[1..], said(&stream));
    assert!(!is_whole(before));
}

#[test]
fn a_stream_without_its_end_is_unended() {
    assert_eq!(said(begin().bytes()), ["begin 1", "unended 1"]);
    let unended = bytes_of(&[&begin().bytes(), &session(7), &session(8)]);
    assert_eq!(said(&unended).last().unwrap(), "unended 3");
    assert!(!is_whole(&unended));
    let anew = bytes_of(&[&unended, &whole(&[session(9)])]);
    assert_eq!(said(&anew)[3..5], ["unended 3", "begin 1"]);
    assert!(said(&anew).last().unwrap().starts_with("end 2 "));
    assert!(!is_whole(&anew));
    // A reader stops at a refusal, and says nothing behind it.
    let cut = &unended[..unended.len() - 1];
    assert_eq!(said(cut).last().unwrap(), "refused 21 24");
}

#[test]
fn unknown_kinds_are_counted() {
    let unknown = [4, 0, 0, 0, 9, 0, 1, 2].to_vec();
    let stream = whole(&[unknown, session(7)]);
    assert!(is_whole(&stream));
    assert!(said(&stream)[3].starts_with("end 3 "));
}

#[test]
fn an_index_says_what_is_not_one_whole_stream() {
    let folder = std::env::temp_dir().join(format!("reference-{}-index", std::process::id()));
    std::fs::create_dir_all(&folder).unwrap();
    let file = folder.join("stream");
    std::fs::write(&file, session(7)).unwrap();
    let (plain, asked) = (
        format!("{}", file.display()),
        format!("--whole {}", file.display()),
    );
    let mut output = Vec::new();
    listen_index(format!("{plain}\n{asked}\n").as_bytes(), &mut output).unwrap();
    std::fs::remove_dir_all(&folder).unwrap();
    let expected = format!("{plain}\nsession 7 4\n{asked}\nsession 7 4\n{NOT_WHOLE}\n");
    assert_eq!(String::from_utf8(output).unwrap(), expected);
}

/// What the page says of a damage.
fn page_answer(answer: Answer) -> String {
    let refused = |refusal: &Refusal| format!("{}", refusal.number());
    match answer {
        Answer::Refused(by) => {
            let numbers: Vec<String> = by.iter().map(refused).collect();
            format!("`refused {} ..`", numbers.join(" ..` or `refused "))
        }
        Answer::Unended => "`unended N`".to_string(),
        Answer::UnendedThenWhole => "`unended N`, and a whole stream behind it".to_string(),
        Answer::TwoWhole => "two whole streams".to_string(),
        Answer::NotOneWhole => "no whole stream, mostly `refused`".to_string(),
        Answer::WholeOfAnotherDay => "one whole stream: its DAY tells it".to_string(),
    }
}

#[test]
fn the_page_lists_the_damages_with_their_answers() {
    let section = PAGE.split("## Twenty damages").nth(1).unwrap();
    let section = section.split("\n## ").next().unwrap();
    let rows: Vec<Vec<&str>> = section
        .lines()
        .filter(|line| line.starts_with('|'))
        .skip(2)
        .map(|row| row.split('|').map(str::trim).collect())
        .collect();
    assert_eq!(rows.len(), Damage::ALL.len());
    for ((row, damage), number) in rows.iter().zip(Damage::ALL).zip(1..) {
        let answer = page_answer(damage.answer());
        assert_eq!(row[1..4], [&number.to_string(), damage.name(), &answer]);
    }
}

#[test]
fn every_damage_is_answered() {
    for seed in [1, 2, 3] {
        let folder =
            std::env::temp_dir().join(format!("reference-{}-damage-{seed}", std::process::id()));
        let mut index = Vec::new();
        script::damage::write(seed, 20, &folder, &b""[..], &mut index).unwrap();
        let counted = count_damage(&index[..]).unwrap();
        std::fs::remove_dir_all(&folder).unwrap();
        assert!(counted.missing.is_empty(), "{:?}", counted.missing);
    }
    assert_eq!(
        count_damage(&b""[..]).unwrap().missing.len(),
        1 + Damage::ALL.len()
    );
}
