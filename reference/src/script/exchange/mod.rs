//! Random texts of the exchange: one for each fault of each field and for each
//! edge of a text, then texts of any kind.

mod fields;
pub(super) mod sheet;
pub(super) mod themes;

use std::io::{self, Write};
use std::path::Path;

use crate::random::Random;

/// A text, and the id that is asked of it.
pub struct Text {
    pub id: String,
    pub bytes: Vec<u8>,
}

/// So many texts: every theme once, then any theme.
pub fn texts(seed: u64, count: usize) -> Vec<Text> {
    let mut random = Random::new(seed);
    let themes = themes::every();
    let theme = |number: usize, random: &mut Random| match themes.get(number) {
        Some(theme) => *theme,
        None if random.chance(40) => themes::Theme::Any,
        None => random.pick(&themes),
    };
    (0..count)
        .map(|number| theme(number, &mut random).text(&mut random))
        .collect()
}

/// Writes each text to a file of the folder, and a line `ID FILE` for each.
pub fn write(seed: u64, count: usize, folder: &Path, mut index: impl Write) -> io::Result<()> {
    std::fs::create_dir_all(folder)?;
    for (number, text) in texts(seed, count).iter().enumerate() {
        let file = folder.join(format!("{:04}", number + 1));
        std::fs::write(&file, &text.bytes)?;
        writeln!(index, "{} {}", text.id, file.display())?;
    }
    index.flush()
}
