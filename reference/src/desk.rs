//! The nine calls on a lent table (document 01, "What the desk covers" and
//! "Numbers a member may see"; opening the evening is W-210's, the three calls
//! of outside prices are W-211's). A refusal writes nothing.

use crate::record::Record;
use crate::refusal::Refusal;
use crate::security::{
    admitted, evaluated, moved, noticed, opened, quoted, sent, withdrawn, Admission, Alerts, Day,
    Quote,
};

/// The most slots a table may have.
pub const SLOTS_MAX: usize = 512;
/// The id of an empty slot.
const EMPTY: i64 = 0;

/// A fresh table: every slot empty.
pub fn fresh_table(slots: usize) -> Vec<Record> {
    vec![Record::EMPTY; slots]
}

fn is_table(table: &[Record]) -> bool {
    (1..=SLOTS_MAX).contains(&table.len())
}

/// The slot of an id. Where an id stands in several slots the first alone
/// counts, even if it is damaged; a damaged record counts as no such id.
fn find(table: &[Record], id: i64) -> Result<usize, Refusal> {
    if !is_table(table) || id == EMPTY {
        return Err(Refusal::NoSuchId);
    }
    table
        .iter()
        .position(|record| record.id == id)
        .filter(|slot| table[*slot].is_sound())
        .ok_or(Refusal::NoSuchId)
}

/// Admits a security into the first empty slot: refused 4, 2, 3.
pub fn admit(table: &mut [Record], admission: &Admission) -> Result<(), Refusal> {
    if !is_table(table) {
        return Err(Refusal::AdmissionOutOfRange);
    }
    let record = admitted(admission).ok_or(Refusal::AdmissionOutOfRange)?;
    if table.iter().any(|other| other.id == record.id) {
        return Err(Refusal::AlreadyAdmitted);
    }
    let slot = table
        .iter_mut()
        .find(|slot| slot.id == EMPTY)
        .ok_or(Refusal::NoEmptySlot)?;
    *slot = record;
    Ok(())
}

/// Evaluates a day: refused 1, 6, 16, 5, 7, 8, 9.
pub fn evaluate<'t>(table: &'t mut [Record], id: i64, day: &Day) -> Result<&'t Record, Refusal> {
    let slot = find(table, id)?;
    table[slot] = evaluated(&table[slot], day)?;
    Ok(&table[slot])
}

/// Takes a quote: refused 1, 6, 10, 11, 13.
pub fn quote(table: &mut [Record], id: i64, quote: &Quote) -> Result<Alerts, Refusal> {
    let slot = find(table, id)?;
    let (after, alerts) = quoted(&table[slot], quote)?;
    table[slot] = after;
    Ok(alerts)
}

/// Opens the evening: refused 1, 10, 19.
pub fn open(table: &mut [Record], id: i64) -> Result<&Record, Refusal> {
    let slot = find(table, id)?;
    table[slot] = opened(&table[slot])?;
    Ok(&table[slot])
}

/// Moves one side, 0 upper or 1 lower: refused 1, 6, 10, 11, 18, 12.
pub fn move_side(table: &mut [Record], id: i64, side: i64) -> Result<&Record, Refusal> {
    let slot = find(table, id)?;
    table[slot] = moved(&table[slot], side)?;
    Ok(&table[slot])
}

/// Takes an outside bid and ask, the bits of two floats: refused 1, 20.
pub fn send(table: &mut [Record], id: i64, bid: i64, ask: i64) -> Result<&Record, Refusal> {
    let slot = find(table, id)?;
    table[slot] = sent(&table[slot], bid, ask)?;
    Ok(&table[slot])
}

/// Takes a notice of one side, 0 a bid or 1 an ask, and the bits of a float:
/// refused 1, 6, 20.
pub fn notice(table: &mut [Record], id: i64, side: i64, bits: i64) -> Result<&Record, Refusal> {
    let slot = find(table, id)?;
    table[slot] = noticed(&table[slot], side, bits)?;
    Ok(&table[slot])
}

/// Takes a withdrawal: refused 1.
pub fn withdraw(table: &mut [Record], id: i64) -> Result<&Record, Refusal> {
    let slot = find(table, id)?;
    table[slot] = withdrawn(&table[slot]);
    Ok(&table[slot])
}

/// Reads a record: refused 1.
pub fn read(table: &[Record], id: i64) -> Result<&Record, Refusal> {
    Ok(&table[find(table, id)?])
}
