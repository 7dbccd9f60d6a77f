//! The scripts are the same for a seed, as long as asked, and meet every
//! number and every edge of each request.

use std::io;

use reference::count::{count, Answers, Count};
use reference::count_admission::count_admission;
use reference::count_bond::count_bond;
use reference::count_crossed::count_crossed;
use reference::count_headings::count_headings;
use reference::count_interest::count_interest;
use reference::count_inward::count_inward;
use reference::count_outside::count_outside;
use reference::count_replacement::count_replacement;
use reference::count_session::count_session;
use reference::count_tentative::count_tentative;
use reference::count_why::count_why;
use reference::gateway::gateway;
use reference::protocol::evening;
use reference::script;

/// A count of the edges that a script meets.
type CountOf = fn(&[u8]) -> io::Result<Count>;

const COUNTS: &[(&str, CountOf)] = &[
    ("interest", |script| count_interest(script)),
    ("replacement", |script| count_replacement(script)),
    ("crossed", |script| count_crossed(script)),
    ("bond", |script| count_bond(script)),
    ("why", |script| count_why(script)),
    ("admission", |script| count_admission(script)),
    ("tentative", |script| count_tentative(script)),
    ("inward", |script| count_inward(script)),
    ("session", |script| count_session(script)),
    ("outside", |script| count_outside(script)),
    ("headings", |script| count_headings(script)),
];

fn lines(text: &[u8]) -> usize {
    text.split_inclusive(|byte| *byte == b'\n').count()
}

#[test]
fn scripts_have_the_lines_asked_for() {
    for asked in [0, 1, 10, 100] {
        for seed in [1, 2] {
            // A last blank line without its end is no line at all.
            let evening = lines(&script::evening::script(seed, asked));
            assert!(asked - evening <= 1);
            let gateway = lines(&script::gateway::script(seed, asked));
            assert!(asked - gateway <= 1);
        }
    }
}

#[test]
fn a_seed_gives_one_script() {
    assert_eq!(
        script::evening::script(5, 500),
        script::evening::script(5, 500)
    );
    assert_ne!(
        script::evening::script(5, 500),
        script::evening::script(6, 500)
    );
    assert_eq!(
        script::gateway::script(5, 500),
        script::gateway::script(5, 500)
    );
    assert_ne!(
        script::gateway::script(5, 500),
        script::gateway::script(6, 500)
    );
}

#[test]
fn an_evening_meets_every_number_and_every_edge() {
    for seed in [1, 2] {
        let script = script::evening::script(seed, 20_000);
        let mut answers = Vec::new();
        evening(&script[..], &mut answers).unwrap();
        let counted = count(&answers[..], Answers::Evening).unwrap();
        assert!(counted.missing.is_empty(), "{counted:?}");
        for (name, count) in COUNTS {
            let counted = count(&script[..]).unwrap();
            assert!(
                counted.missing.is_empty(),
                "{name}, seed {seed}: {:?}",
                counted.missing
            );
        }
    }
}

#[test]
fn an_evening_without_such_lines_meets_no_edge() {
    for (name, count) in COUNTS {
        let counted = count(&b"read 1\nevaluate 1\nbond 1\nread 2"[..]).unwrap();
        assert_eq!(
            counted.missing.len(),
            counted.line.lines().count(),
            "{name}"
        );
    }
}

#[test]
fn the_gateway_meets_every_answer() {
    let script = script::gateway::script(1, 5_000);
    let mut answers = Vec::new();
    gateway(&script[..], &mut answers).unwrap();
    let counted = count(&answers[..], Answers::Gateway).unwrap();
    assert!(counted.missing.is_empty(), "{counted:?}");
}
