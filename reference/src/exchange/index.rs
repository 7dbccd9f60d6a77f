//! Many texts at once: an index has a line `ID FILE` a text.

use std::io::{self, BufRead, Write};

use super::{asked_id, read, Printed};

/// Shows the asked word and the text of each line.
pub fn each(
    index: impl BufRead,
    mut see: impl FnMut(&[u8], Vec<u8>) -> io::Result<()>,
) -> io::Result<()> {
    for line in index.lines() {
        let line = line?;
        let (asked, file) = line.split_once(' ').ok_or_else(|| wrong(&line))?;
        see(asked.as_bytes(), std::fs::read(file)?)?;
    }
    Ok(())
}

/// Answers each text.
pub fn answer(index: impl BufRead, mut output: impl Write) -> io::Result<()> {
    each(index, |asked, text| {
        let id = asked_id(asked).ok_or_else(|| wrong(&String::from_utf8_lossy(asked)))?;
        writeln!(output, "{}", Printed(read(&text, id)))
    })?;
    output.flush()
}

fn wrong(line: &str) -> io::Error {
    io::Error::new(io::ErrorKind::Other, format!("no line of an index: {line}"))
}
