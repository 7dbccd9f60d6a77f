//! Compares two programs' answers to one script.

use std::fmt;

use crate::words::Manner;

/// The first place where two files of answers part.
#[derive(Debug, PartialEq, Eq)]
pub struct Difference {
    /// The line of the script that is answered, from 1, and what it says;
    /// none where the script has no such call.
    pub call: Option<(usize, String)>,
    pub first: Option<String>,
    pub second: Option<String>,
}

/// The calls of a script with their line numbers: blank lines and headings have
/// no answer, unless they are too long.
fn calls<'s>(script: &'s [u8], manner: &'s Manner) -> impl Iterator<Item = (usize, &'s [u8])> {
    lines(script)
        .enumerate()
        .map(|(index, line)| (index + 1, line))
        .filter(|(_, line)| manner.is_answered(line))
}

/// Lines without their ends; the last may lack its end.
fn lines(text: &[u8]) -> impl Iterator<Item = &[u8]> {
    text.split_inclusive(|byte| *byte == b'\n')
        .map(|line| line.strip_suffix(b"\n").unwrap_or(line))
}

/// The first difference between two files of answers, if any. Files that are
/// equal but do not answer each call of the script once differ from it.
pub fn compare(first: &[u8], second: &[u8], script: &[u8], manner: &Manner) -> Option<Difference> {
    let (mut first, mut second) = (lines(first), lines(second));
    let mut calls = calls(script, manner);
    loop {
        let (a, b, call) = (first.next(), second.next(), calls.next());
        if a == b && a.is_some() == call.is_some() {
            a?;
            continue;
        }
        return Some(Difference {
            call: call.map(|(number, line)| (number, text(line))),
            first: a.map(text),
            second: b.map(text),
        });
    }
}

fn text(line: &[u8]) -> String {
    String::from_utf8_lossy(line).into_owned()
}

impl fmt::Display for Difference {
    fn fmt(&self, f: &mut fmt::Formatter<'_>) -> fmt::Result {
        match &self.call {
            Some((number, line)) => writeln!(f, "line {number}: {line}")?,
            None => writeln!(f, "after the last line of the script")?,
        }
        let said = |answer: &Option<String>| answer.clone().unwrap_or("(no answer)".to_string());
        writeln!(f, "  first:  {}", said(&self.first))?;
        write!(f, "  second: {}", said(&self.second))
    }
}

#[cfg(test)]
mod tests {
    use super::*;
    use crate::words::{EVENING, GATEWAY};

    const SCRIPT: &[u8] = b"read 1\n\n \t\r\nread 2\nx";

    fn compare(first: &[u8], second: &[u8], script: &[u8]) -> Option<Difference> {
        super::compare(first, second, script, &EVENING)
    }

    #[test]
    fn equal_answers_have_no_difference() {
        assert_eq!(compare(b"1\n1\nbad 5\n", b"1\n1\nbad 5\n", SCRIPT), None);
        assert_eq!(compare(b"1\n1\nbad 5", b"1\n1\nbad 5\n", SCRIPT), None);
    }

    #[test]
    fn the_first_difference_names_its_line() {
        let difference = compare(b"1\n1\nbad 5\n", b"1\n0\nbad 5\n", SCRIPT).unwrap();
        assert_eq!(difference.call, Some((4, "read 2".to_string())));
        assert_eq!(difference.first.as_deref(), Some("1"));
        assert_eq!(difference.second.as_deref(), Some("0"));
    }

    #[test]
    fn a_missing_answer_is_a_difference() {
        let difference = compare(b"1\n1\n", b"1\n1\nbad 5\n", SCRIPT).unwrap();
        assert_eq!(difference.call, Some((5, "x".to_string())));
        assert_eq!(difference.first, None);
    }

    #[test]
    fn equal_files_must_answer_the_whole_script() {
        assert!(compare(b"", b"", SCRIPT).is_some());
        assert!(compare(b"1\n1\n1\n1\n", b"1\n1\n1\n1\n", SCRIPT).is_some());
    }

    #[test]
    fn a_heading_is_answered_by_the_gateway_alone() {
        let script = b" # read 1\nread 2";
        assert_eq!(compare(b"1\n", b"1\n", script), None);
        assert!(super::compare(b"1\n", b"1\n", script, &GATEWAY).is_some());
        let answers = b"bad 1\nbad 2\n";
        assert!(compare(answers, answers, script).is_some());
        assert_eq!(super::compare(answers, answers, script, &GATEWAY), None);
    }
}
