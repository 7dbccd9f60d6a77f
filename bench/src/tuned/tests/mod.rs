//! The tuned version beside the reference on random days.

mod edges;
mod inputs;

use reference::random::Random;
use reference::record::Record;
use reference::refusal::Refusal;
use reference::security::{evaluated, Day};

use super::evaluate;
use edges::{Judged, EDGES};

const SECURITIES: usize = 12_000;
const DAYS: usize = 10;
/// How often each edge has to be met at least, of 120,000 days.
const OFTEN: usize = 100;

/// What the reference answers, with the test of the record that finding it makes.
fn expected(record: &Record, day: &Day) -> Result<Record, Refusal> {
    if record.is_sound() {
        evaluated(record, day)
    } else {
        Err(Refusal::NoSuchId)
    }
}

/// What the tuned version answers; a refusal has to leave the record.
fn answered(record: &Record, day: &Day) -> Result<Record, Refusal> {
    let mut after = *record;
    let answer = evaluate(&mut after, day);
    assert!(
        answer.is_ok() || after == *record,
        "a refusal changed {record:?}"
    );
    answer.map(|()| after)
}

/// One day of a record, by both; counts what it meets, and gives the record after it.
fn judge(random: &mut Random, record: Record, met: &mut [usize]) -> Record {
    let mut before = record;
    if random.chance(10) {
        inputs::damage(random, &mut before);
    }
    let price = inputs::near(random, record.p1);
    let rows = inputs::rows(random, price);
    let day = inputs::day(random, record.last_day(), &rows);
    let answer = expected(&before, &day);
    assert_eq!(answered(&before, &day), answer, "{before:?}, {day:?}");
    let judged = Judged {
        before: &before,
        day: &day,
        answer: &answer,
    };
    for (count, (_, is_met)) in met.iter_mut().zip(&EDGES) {
        *count += usize::from(is_met(&judged));
    }
    answer.unwrap_or(record)
}

#[test]
fn the_tuned_version_is_the_reference_on_random_days() {
    let mut random = Random::new(214);
    let mut met = [0; EDGES.len()];
    for _ in 0..SECURITIES {
        let mut record = inputs::security(&mut random);
        for _ in 0..DAYS {
            if random.chance(40) {
                inputs::trouble(&mut random, &mut record);
            }
            record = judge(&mut random, record, &mut met);
        }
    }
    for ((edge, _), times) in EDGES.iter().zip(met) {
        println!("{edge}: {times}");
        assert!(times >= OFTEN, "{edge} is met {times} times only");
    }
}
