//! How a call is spelled on its line: plainly, oddly but rightly, or wrongly.

use crate::interest::Pair;
use crate::random::Random;
use crate::words::Word;

/// In how many of a hundred lines the spelling is odd, though right.
const ODD_PERCENT: usize = 5;

const NO_NUMBERS: [&[u8]; 22] = [
    b"+5",
    b"1.0",
    b"--1",
    b"-",
    b"+",
    b"1e3",
    b"0x10",
    b"1_000",
    b"1,000",
    b"5-",
    b"-5-",
    b"9223372036854775808",
    b"-9223372036854775809",
    b"18446744073709551616",
    b"99999999999999999999999999999999999999999",
    b"\xd9\xa3",
    b"\xe2\x88\x921",
    b"\xff",
    b"7\0",
    b"nan",
    b"read",
    b"1\x0c2",
];

/// What is no pair, or two words with a blank where the slash is.
const NO_PAIRS: [&[u8]; 20] = [
    b"0/",
    b"/1",
    b"/",
    b"0/1/2",
    b"0//1",
    b"0 /1",
    b"0/ 1",
    b"0 / 1",
    b"0\t/1",
    b"0/\r1",
    b"0\\1",
    b"0:1",
    b"+0/1",
    b"0/+1",
    b"0/-",
    b"-/1",
    b"0/1.0",
    b"0/9223372036854775808",
    b"-9223372036854775809/1",
    b"0/1\0",
];

const NO_VERBS: [&[u8]; 26] = [
    b"Admit",
    b"READ",
    b"rea",
    b"reads",
    b"#",
    b"1",
    b"-",
    b"quote:",
    b"\xefevaluate",
    b"evaluate\0",
    b"moveup",
    b"ranges",
    b"band\x0b",
    b"\xc2\xa0read",
    b"Interest",
    b"interests",
    b"interes",
    b"Bond",
    b"bonds",
    b"bon",
    b"Outside",
    b"outsides",
    b"notic",
    b"Notice",
    b"withdrawn",
    b"withdra",
];

const BLANK_LINES: [&[u8]; 5] = [b"", b" ", b"\t", b"\r", b"  \t \r"];

/// A line with nothing on it.
pub fn blank(random: &mut Random) -> Vec<u8> {
    random.pick(&BLANK_LINES).to_vec()
}

/// The line of a call, now and then with odd blanks, zeros and ends.
pub fn spelled<W: Copy + Into<Word>>(random: &mut Random, verb: &str, words: &[W]) -> Vec<u8> {
    let odd = random.chance(ODD_PERCENT);
    let mut line = Vec::new();
    if odd && random.chance(30) {
        line.extend(random.pick(&[&b" "[..], b"\t", b"\r", b"   "]));
    }
    line.extend(verb.as_bytes());
    for word in words {
        let gap = if odd && random.chance(10) {
            random.pick(&[&b"  "[..], b"\t", b"\r", b" \t "])
        } else {
            b" "
        };
        line.extend(gap);
        let spell = if odd && random.chance(10) {
            padded
        } else {
            plain
        };
        line.extend(spelled_word((*word).into(), spell).as_bytes());
    }
    if odd && random.chance(50) {
        line.extend(random.pick(&[&b" "[..], b"\t", b"\r", b" \r"]));
    }
    line
}

/// A word with each of its numbers as `spell` has it.
fn spelled_word(word: Word, spell: fn(i64) -> String) -> String {
    match word {
        Word::Number(number) => spell(number),
        Word::Pair(Pair { ym, yn }) => format!("{}/{}", spell(ym), spell(yn)),
    }
}

fn plain(number: i64) -> String {
    number.to_string()
}

/// A number with leading zeros; 0 with a minus.
fn padded(number: i64) -> String {
    match number {
        0 => "-0".to_string(),
        1.. => format!("0000000000000000000000{number}"),
        _ => format!("-000{}", number.unsigned_abs()),
    }
}

/// The call's line with one fault in it; a few faults still leave a call.
pub fn damaged<W: Copy + Into<Word>>(random: &mut Random, verb: &str, words: &[W]) -> Vec<u8> {
    let mut words = parted(verb, words);
    let any = random.below(words.len());
    let mut gap: &[u8] = b" ";
    match random.below(10) {
        0 => words[0] = random.pick(&NO_VERBS).to_vec(),
        1 => {
            words.pop();
        }
        2 => words.push(b"0".to_vec()),
        3 => words.truncate(1),
        4 => words.insert(any, b"0".to_vec()),
        5 => {
            words.remove(any);
        }
        6 => gap = random.pick(&[&b"\x0b"[..], b"\x0c", b"\xc2\xa0", b",", b"\0"]),
        7 => words.push(vec![b'9'; random.pick(&[19, 20, 300, 5_000])]),
        _ => words[any.max(1)] = random.pick(&NO_NUMBERS).to_vec(),
    }
    words.join(gap)
}

/// The words of a call's line, each plain.
fn parted<W: Copy + Into<Word>>(verb: &str, words: &[W]) -> Vec<Vec<u8>> {
    let spelled = |word: &W| spelled_word((*word).into(), plain).into_bytes();
    let mut parted = vec![verb.as_bytes().to_vec()];
    parted.extend(words.iter().map(spelled));
    parted
}

/// The call's line with a pair that is spelled wrongly, or stands where it may
/// not; a few of them may.
pub fn wrongly_paired<W: Copy + Into<Word>>(
    random: &mut Random,
    verb: &str,
    words: &[W],
) -> Vec<u8> {
    let mut words = parted(verb, words);
    let place = 1 + random.below(words.len() - 1);
    let slash = |word: &Vec<u8>| word.contains(&b'/');
    let place = match words.iter().position(slash) {
        Some(pair) if random.chance(70) => pair,
        _ => place,
    };
    words[place] = if random.chance(80) {
        random.pick(&NO_PAIRS).to_vec()
    } else {
        b"0/1".to_vec()
    };
    words.join(&b" "[..])
}
