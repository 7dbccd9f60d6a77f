//! What is evaluated: a sheet of securities, each with the same rows on 40 days. It is the same on every machine and
//! has been the same since the first measurement, so that figures can be compared.

use reference::statics::STATICS;

/// Numbers of an admission: six before the statics.
pub const ADMISSION: usize = 6 + STATICS;
pub const SECURITIES: usize = 512;
pub const ROWS: usize = 16;
pub const DAYS: u64 = 40;
const ROW: usize = 7;
const ROUBLE: i64 = 10_000;
/// A currency of 12.5 roubles.
const CURRENCY: i64 = 125_000;

/// The numbers of one security: `admit`'s 32, a day's DAY B M K RRCL RRCH, and the rows.
#[derive(Clone)]
pub struct Security {
    pub admit: [i64; ADMISSION],
    pub day: [i64; 6],
    pub rows: Vec<i64>,
}

/// A small generator, so that all sides and every run have the same inputs.
pub struct Random(u64);

impl Random {
    pub fn new() -> Random {
        Random(0x9E37_79B9_7F4A_7C15)
    }

    pub fn below(&mut self, n: u64) -> i64 {
        self.0 ^= self.0 << 13;
        self.0 ^= self.0 >> 7;
        self.0 ^= self.0 << 17;
        (self.0 % n) as i64
    }
}

fn security(id: i64, random: &mut Random) -> Security {
    let p1 = 10 * (50_000 + random.below(500_000));
    let mut admit = [0; ADMISSION];
    admit[..6].copy_from_slice(&[
        id,
        3,
        p1,
        p1 + 10 * random.below(2_000),
        20_000 + random.below(10_000),
        600,
    ]);
    admit[6..].copy_from_slice(&[
        10, 100, 300, 1000, 500, 5, 2, 5, 8, 50, 500, 700, 900, 4000, 200, 25, 2000, 2000, 1000,
        60, 1, 1, 120, 1, 2, 0,
    ]);
    let rows = (0..ROWS).flat_map(|place| row(place, p1, random)).collect();
    Security {
        admit,
        day: [4, 0, random.below(3), 2, -730, 1_460],
        rows,
    }
}

/// Half of the rows are roubles today, the others a currency on a day up to 29 days later.
fn row(place: usize, p1: i64, random: &mut Random) -> [i64; ROW] {
    let close = p1 + random.below(30_000) - 15_000;
    let (term, central, repo) = if place % 2 == 0 {
        (0, ROUBLE, 0)
    } else {
        (random.below(30), CURRENCY, random.below(3_000) - 500)
    };
    let price = close * ROUBLE / central;
    let volume = 1 + random.below(1_000);
    [
        term,
        central,
        repo,
        price,
        price - price / 50,
        price + price / 50,
        volume,
    ]
}

/// The first securities of the sheet.
pub fn sheet(securities: usize) -> Vec<Security> {
    let mut random = Random::new();
    (1..=securities as i64)
        .map(|id| security(id, &mut random))
        .collect()
}

/// The sheet with something changed in every security.
pub fn changed(securities: usize, change: impl Fn(&mut Security)) -> Vec<Security> {
    let mut sheet = sheet(securities);
    sheet.iter_mut().for_each(change);
    sheet
}

/// The first securities with their first rows alone.
pub fn sheet_with_rows(securities: usize, rows: usize) -> Vec<Security> {
    changed(securities, |security| security.rows.truncate(ROW * rows))
}

pub fn evaluations(sheet: &[Security]) -> f64 {
    (sheet.len() as u64 * DAYS) as f64
}

/// What the rows are like.
pub fn describe(sheet: &[Security]) {
    let rows: Vec<&[i64]> = sheet.iter().flat_map(|s| s.rows.chunks(ROW)).collect();
    let count = |is_so: fn(&&&[i64]) -> bool| rows.iter().filter(is_so).count();
    println!(
        "the sheet: {} securities with {} rows; {} are roubles today, {} a currency today, {} a currency later (T > 0)",
        sheet.len(),
        rows.len(),
        count(|row| row[0] == 0 && row[1] == ROUBLE),
        count(|row| row[0] == 0 && row[1] != ROUBLE),
        count(|row| row[0] > 0),
    );
}
