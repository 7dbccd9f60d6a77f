//! Counts the damages of whole streams, and holds each to its answer
//! (`damage`): a stream that is answered otherwise is named.

use std::io::{self, BufRead};

use crate::count::Count;
use crate::damage::{last_day, Damage};
use crate::listen::{each, is_one_whole, turns, WHOLE};
use crate::tally::Tally;

/// The name of a stream that has no damage.
const WHOLE_STREAM: &str = "one whole stream";

/// The number behind a file's name: 0 for a whole stream, else that of its
/// damage, from 1 on; none for the file of another index.
fn number_of(line: &str) -> Option<usize> {
    let name = line.strip_prefix(WHOLE)?.rsplit('/').next()?;
    let (_, number) = name.split_once('-')?;
    number.parse().ok()
}

/// Counts the damages of an index, in which those of a stream stand behind it.
/// Lines that do not ask for one whole stream are passed over.
pub fn count_damage(index: impl BufRead) -> io::Result<Count> {
    let names = Damage::ALL.iter().map(|damage| damage.name().to_string());
    let mut tally = Tally::new([WHOLE_STREAM.to_string()].into_iter().chain(names));
    let mut wrong = Vec::new();
    let mut tonight = None;
    each(index, |line, bytes| {
        let number = match number_of(line) {
            Some(number) => number,
            None => return Ok(()),
        };
        let turns = turns(&bytes);
        let (name, is_answered) = match number.checked_sub(1) {
            None => {
                tonight = last_day(&turns);
                (WHOLE_STREAM, is_one_whole(&turns))
            }
            Some(place) => {
                let damage = Damage::ALL[place];
                (damage.name(), damage.answer().is_of(&turns, tonight))
            }
        };
        tally.meet(name);
        if !is_answered {
            wrong.push(format!("another answer to '{name}' ({line})"));
        }
        Ok(())
    })?;
    let mut count = tally.count();
    count.missing.extend(wrong);
    Ok(count)
}
