//! Many texts at once: an index has a line `WORD... FILE` a text.

use std::io::{self, BufRead, Write};

use super::{evaluations, Asked};

/// Shows the words and the text of each line.
pub fn each(
    index: impl BufRead,
    mut see: impl FnMut(&str, &[&[u8]], Vec<u8>) -> io::Result<()>,
) -> io::Result<()> {
    for line in index.lines() {
        let line = line?;
        let (words, file) = line.rsplit_once(' ').ok_or_else(|| wrong(&line))?;
        let words: Vec<&[u8]> = words.split(' ').map(str::as_bytes).collect();
        see(&line, &words, std::fs::read(file)?)?;
    }
    Ok(())
}

/// Prints each line of the index, and behind it the evaluations of its text, or
/// what is bad in it.
pub fn answer(index: impl BufRead, mut output: impl Write) -> io::Result<()> {
    each(index, |line, words, text| {
        let asked = Asked::from_words(words).ok_or_else(|| wrong(line))?;
        writeln!(output, "{line}")?;
        match evaluations(&asked, &text) {
            Ok(lines) => output.write_all(lines.as_bytes()),
            Err(bad) => writeln!(output, "{bad}"),
        }
    })?;
    output.flush()
}

fn wrong(line: &str) -> io::Error {
    io::Error::new(io::ErrorKind::Other, format!("no line of an index: {line}"))
}
