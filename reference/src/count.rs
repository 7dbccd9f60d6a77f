//! Counts how often each number occurs among answers.

use std::io::{self, BufRead};

use crate::refusal::Refusal;

/// Which program's answers are counted.
#[derive(Clone, Copy, Debug, PartialEq, Eq)]
pub enum Answers {
    Evening,
    Gateway,
}

/// What the count says, and what is missing from it.
#[derive(Debug, PartialEq, Eq)]
pub struct Count {
    pub line: String,
    pub missing: Vec<String>,
}

/// The kinds of answer that must all occur.
fn kinds(answers: Answers) -> Vec<String> {
    match answers {
        // An evening has no exchange's text.
        Answers::Evening => (0..=Refusal::EVENING_LAST)
            .filter(|number| *number != Refusal::BadLine.number())
            .map(|number| number.to_string())
            .collect(),
        Answers::Gateway => {
            let static_refused = -Refusal::AdmissionOutOfRange.number();
            let value_refused = -Refusal::ValueOutOfRange.number();
            vec![
                "figures".to_string(),
                static_refused.to_string(),
                value_refused.to_string(),
            ]
        }
    }
}

/// The kind of one answer by its first word.
fn kind(answers: Answers, line: &[u8]) -> String {
    let word = crate::words::words(line).next().unwrap_or_default();
    let figure = matches!(crate::words::number(word), Some(0..));
    if answers == Answers::Gateway && figure {
        "figures".to_string()
    } else {
        String::from_utf8_lossy(word).into_owned()
    }
}

/// Counts the answers of one program.
pub fn count(input: impl BufRead, answers: Answers) -> io::Result<Count> {
    let kinds = kinds(answers);
    let mut found = vec![0_u64; kinds.len()];
    let (mut bad, mut strange) = (0_u64, 0_u64);
    for line in input.split(b'\n') {
        let said = kind(answers, &line?);
        match kinds.iter().position(|kind| *kind == said) {
            Some(place) => found[place] += 1,
            None if said == "bad" => bad += 1,
            None => strange += 1,
        }
    }
    let mut line = "answers:".to_string();
    for (kind, times) in kinds.iter().zip(&found) {
        line += &format!(" {kind}={times}");
    }
    line += &format!(" bad={bad}");
    let mut missing: Vec<String> = kinds
        .iter()
        .zip(&found)
        .filter(|(_, times)| **times == 0)
        .map(|(kind, _)| format!("no answer {kind}"))
        .collect();
    if strange > 0 {
        missing.push(format!("{strange} lines are no answers"));
    }
    Ok(Count { line, missing })
}

#[cfg(test)]
mod tests {
    use super::*;

    #[test]
    fn counts_first_words() {
        let said = b"0 1 1\n0\n4\nbad 7\n13\n";
        let counted = count(&said[..], Answers::Evening).unwrap();
        assert_eq!(
            counted.line,
            "answers: 0=2 1=0 2=0 3=0 4=1 5=0 6=0 7=0 8=0 9=0 10=0 11=0 12=0 13=1 14=0 16=0 17=0 18=0 19=0 20=0 bad=1"
        );
        assert_eq!(counted.missing.len(), 17);
    }

    #[test]
    fn counts_figures_of_the_gateway() {
        let counted = count(&b"0\n1500\n-4\n-6\nbad 4"[..], Answers::Gateway).unwrap();
        assert_eq!(counted.line, "answers: figures=2 -4=1 -6=1 bad=1");
        assert!(counted.missing.is_empty());
    }

    #[test]
    fn a_line_that_is_no_answer_is_told() {
        let counted = count(&b"1500\n-4\n-6\n-5\n\n"[..], Answers::Gateway).unwrap();
        assert_eq!(counted.missing, ["2 lines are no answers"]);
    }
}
