//! The table: its records in the order of their admission, and the index over their ids.

use reference::desk::SLOTS_MAX;
use reference::record::Record;
use reference::refusal::Refusal;
use reference::security::{admitted, Admission};

use super::index::Index;

pub struct Desk {
    records: Vec<Record>,
    index: Index,
}

impl Desk {
    pub fn new() -> Desk {
        Desk {
            records: Vec::with_capacity(SLOTS_MAX),
            index: Index::new(),
        }
    }

    /// The record of an id: refused 1.
    #[inline(always)]
    pub fn find(&mut self, id: i64) -> Result<&mut Record, Refusal> {
        let slot = self.index.slot(id);
        let found = slot.and_then(|slot| self.records.get_mut(slot));
        found.ok_or(Refusal::NoSuchId)
    }

    /// The record of an id after a rule has changed it.
    #[inline(always)]
    pub fn change(
        &mut self,
        id: i64,
        rule: impl FnOnce(&mut Record) -> Result<(), Refusal>,
    ) -> Result<&mut Record, Refusal> {
        let record = self.find(id)?;
        rule(record)?;
        Ok(record)
    }

    /// Admits a security: refused 4, 2, 3.
    pub fn admit(&mut self, admission: &Admission) -> Result<(), Refusal> {
        let record = admitted(admission).ok_or(Refusal::AdmissionOutOfRange)?;
        if self.index.slot(record.id).is_some() {
            return Err(Refusal::AlreadyAdmitted);
        }
        if self.records.len() == SLOTS_MAX {
            return Err(Refusal::NoEmptySlot);
        }
        self.index.add(record.id, self.records.len());
        self.records.push(record);
        Ok(())
    }
}
