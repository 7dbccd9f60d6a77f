//! The slot of an id: a hash with open places, which never loses an id.

/// Twice the most ids, so that a search passes few.
const PLACES: usize = 1 << PLACE_BITS;
const PLACE_BITS: u32 = 10;
/// 2^32 over the golden ratio: ids that follow one another fall far apart.
const SPREAD: u32 = 0x9E37_79B9;
/// No id.
const OPEN: u32 = 0;

#[derive(Clone, Copy)]
struct Place {
    id: u32,
    slot: u32,
}

pub struct Index {
    places: [Place; PLACES],
}

impl Index {
    pub fn new() -> Index {
        Index {
            places: [Place { id: OPEN, slot: 0 }; PLACES],
        }
    }

    /// The place of an id, or the open one where it would stand.
    #[inline(always)]
    fn place(&self, id: u32) -> usize {
        let mut place = (id.wrapping_mul(SPREAD) >> (u32::BITS - PLACE_BITS)) as usize;
        loop {
            let held = self.places[place].id;
            if held == id || held == OPEN {
                return place;
            }
            place = (place + 1) % PLACES;
        }
    }

    #[inline(always)]
    pub fn slot(&self, id: i64) -> Option<usize> {
        let id = u32::try_from(id).ok()?;
        let Place { id: held, slot } = self.places[self.place(id)];
        (held != OPEN).then_some(slot as usize)
    }

    /// Takes in an id that has no slot. An id of a security fits 32 bits.
    pub fn add(&mut self, id: i64, slot: usize) {
        let id = id as u32;
        let slot = slot as u32;
        self.places[self.place(id)] = Place { id, slot };
    }
}
