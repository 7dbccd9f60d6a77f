//! Answers, gathered and written together (docs/EVENING.md, "The answers").

use std::io::{self, Write};

use reference::record::Record;
use reference::refusal::Refusal;
use reference::security::Alerts;

/// Bytes that are gathered before they are written; an answer more has room behind them.
const FULL: usize = 1 << 16;
const ROOM: usize = 1 << 11;
/// The digits of the numbers from 0 to 99.
const PAIRS: [[u8; 2]; 100] = pairs();
/// The most digits of a number of 64 bits.
const DIGITS_MOST: usize = 20;

const fn pairs() -> [[u8; 2]; 100] {
    let mut pairs = [[0; 2]; 100];
    let mut n = 0;
    while n < pairs.len() {
        pairs[n] = [b'0' + (n / 10) as u8, b'0' + (n % 10) as u8];
        n += 1;
    }
    pairs
}

pub struct Answers<W> {
    bytes: Vec<u8>,
    output: W,
}

impl<W: Write> Answers<W> {
    pub fn new(output: W) -> Answers<W> {
        Answers {
            bytes: Vec::with_capacity(FULL + ROOM),
            output,
        }
    }

    /// Writes what is gathered.
    pub fn write(&mut self) -> io::Result<()> {
        self.output.write_all(&self.bytes)?;
        self.bytes.clear();
        self.output.flush()
    }

    #[inline(always)]
    pub fn write_where_full(&mut self) -> io::Result<()> {
        if self.bytes.len() >= FULL {
            return self.write();
        }
        Ok(())
    }

    #[cold]
    pub fn bad(&mut self, line: u64) {
        self.bytes.extend_from_slice(b"bad ");
        self.digits(line);
        self.bytes.push(b'\n');
    }

    fn refused(&mut self, refusal: Refusal) {
        self.digits(refusal.number() as u64);
        self.bytes.push(b'\n');
    }

    pub fn done(&mut self, done: Result<(), Refusal>) {
        match done {
            Ok(()) => self.bytes.extend_from_slice(b"0\n"),
            Err(refusal) => self.refused(refusal),
        }
    }

    #[inline(always)]
    pub fn alerts(&mut self, alerts: Result<Alerts, Refusal>) {
        match alerts {
            Ok(Alerts { top, bottom }) => {
                let [top, bottom] = [top, bottom].map(|alert| b'0' + u8::from(alert));
                self.bytes
                    .extend_from_slice(&[b'0', b' ', top, b' ', bottom, b'\n']);
            }
            Err(refusal) => self.refused(refusal),
        }
    }

    pub fn figures(&mut self, figures: Result<&[i64], &Refusal>) {
        match figures {
            Ok(figures) => {
                self.bytes.push(b'0');
                figures.iter().for_each(|figure| self.figure(*figure));
                self.bytes.push(b'\n');
            }
            Err(refusal) => self.refused(*refusal),
        }
    }

    #[inline(never)]
    pub fn record(&mut self, record: Result<&mut Record, Refusal>) {
        let record = match record {
            Ok(record) => record,
            Err(refusal) => return self.refused(refusal),
        };
        self.figures(Ok(&record.figures()))
    }

    /// A number with a space before it.
    #[inline(always)]
    fn figure(&mut self, figure: i64) {
        self.bytes.push(b' ');
        if figure < 0 {
            self.bytes.push(b'-');
        }
        self.digits(figure.unsigned_abs());
    }

    #[inline(always)]
    fn digits(&mut self, number: u64) {
        if number < 10 {
            self.bytes.push(b'0' + number as u8);
            return;
        }
        let mut digits = [0; DIGITS_MOST];
        let mut first = DIGITS_MOST;
        let mut rest = number;
        while rest >= 10 {
            first -= 2;
            digits[first..first + 2].copy_from_slice(&PAIRS[(rest % 100) as usize]);
            rest /= 100;
        }
        if rest > 0 {
            first -= 1;
            digits[first] = b'0' + rest as u8;
        }
        self.bytes.extend_from_slice(&digits[first..]);
    }
}
