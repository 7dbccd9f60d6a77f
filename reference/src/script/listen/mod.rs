//! Streams of messages, good and damaged: one for each edge of a length, a kind
//! and a field, and for each byte at which a message may be cut; then streams of
//! any kind, and whole ones, with every way in which an `end` may not be theirs.

mod bounds;
mod damage;
mod last;
mod messages;
mod themes;

use std::io::{self, Write};
use std::path::Path;

use crate::listen::{turns, Turn, WHOLE};
use crate::message::Kind;
use crate::random::Random;

pub use damage::any_unknown;
pub use messages::{message as of_securities, message_with};

/// So many streams: every theme once, then any theme.
pub fn streams(seed: u64, count: usize) -> Vec<Vec<u8>> {
    let mut random = Random::new(seed);
    let themes = themes::every();
    let theme = |number: usize, random: &mut Random| match themes.get(number) {
        Some(theme) => *theme,
        None if random.chance(80) => themes::Theme::Any,
        None => random.pick(&themes),
    };
    (0..count)
        .map(|number| theme(number, &mut random).stream(&mut random))
        .collect()
}

/// Writes each stream to a file of the folder, and a line FILE for each; of one
/// with a `begin`, and of an empty one, a line that asks for one whole stream too.
pub fn write(seed: u64, count: usize, folder: &Path, mut index: impl Write) -> io::Result<()> {
    std::fs::create_dir_all(folder)?;
    for (number, stream) in streams(seed, count).iter().enumerate() {
        let file = folder.join(format!("{:04}", number + 1));
        std::fs::write(&file, stream)?;
        writeln!(index, "{}", file.display())?;
        let has_begin = || {
            let turns = turns(stream);
            let mut messages = turns.iter().filter_map(Turn::message);
            messages.any(|message| message.kind() == Kind::Begin)
        };
        if stream.is_empty() || has_begin() {
            writeln!(index, "{WHOLE} {}", file.display())?;
        }
    }
    index.flush()
}
