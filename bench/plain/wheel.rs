//! Slot counters of tags that wait in arbitrate, which a QueryRep lowers all at once: each tag stands on the place that its counter
//! has behind the base of its session, and the base is raised.

/// How many values a slot counter has: 15 bits (6.3.2.4.8).
const SLOTS: usize = 1 << 15;
/// What stands in place of the place of a tag that doesn't wait.
const NOWHERE: u32 = u32::MAX;

/// Where a tag stands, and the tag behind it there, counted from 1, or 0.
#[derive(Clone, Copy)]
struct Seat {
    place: u32,
    next: u16,
}

#[derive(Clone)]
pub struct Wheel {
    /// By session, the place of slot counter 0 among its places.
    bases: [u16; 4],
    /// By place, the first tag there, counted from 1, or 0.
    firsts: Vec<u16>,
    /// By tag.
    seats: Vec<Seat>,
}

impl Wheel {
    pub fn new() -> Wheel {
        Wheel { bases: [0; 4], firsts: vec![0; 4 * SLOTS], seats: Vec::new() }
    }

    /// Adds a tag that doesn't wait.
    pub fn push(&mut self) {
        self.seats.push(Seat { place: NOWHERE, next: 0 });
    }

    /// Whether a tag waits in the session.
    pub fn waits_in(&self, tag: usize, session: u8) -> bool {
        self.seats[tag].place as usize / SLOTS == usize::from(session)
    }

    /// The slot counter of a tag, if it waits.
    pub fn slot(&self, tag: usize) -> Option<u16> {
        let place = self.seats[tag].place;
        (place != NOWHERE).then(|| (place as u16).wrapping_sub(self.bases[place as usize / SLOTS]) % SLOTS as u16)
    }

    /// Lets a tag that doesn't wait do so.
    pub fn put(&mut self, tag: usize, session: u8, slot: u16) {
        let place = self.place(session, slot);
        let first = &mut self.firsts[place];
        self.seats[tag] = Seat { place: place as u32, next: *first };
        *first = tag as u16 + 1;
    }

    /// Lets a tag wait no longer, and gives the slot counter that it had, if it waited.
    pub fn take(&mut self, tag: usize) -> Option<u16> {
        let slot = self.slot(tag)?;
        let Seat { place, next } = self.seats[tag];
        let first = &mut self.firsts[place as usize];
        if usize::from(*first) == tag + 1 {
            *first = next;
        } else {
            // It is taken out of turn.
            let mut before = usize::from(*first) - 1;
            while usize::from(self.seats[before].next) != tag + 1 {
                before = usize::from(self.seats[before].next) - 1;
            }
            self.seats[before].next = next;
        }
        self.seats[tag].place = NOWHERE;
        Some(slot)
    }

    /// Empties all places. Each tag that waited has its slot counter until it is taken with the others.
    pub fn empty_places(&mut self) {
        for seat in self.seats.iter().filter(|seat| seat.place != NOWHERE) {
            self.firsts[seat.place as usize] = 0;
        }
    }

    /// Takes a tag with the others, where the places are emptied: the slot counter that it had, if it waited.
    pub fn take_with_others(&mut self, tag: usize) -> Option<u16> {
        let slot = self.slot(tag)?;
        self.seats[tag].place = NOWHERE;
        Some(slot)
    }

    /// A tag that waits in the session with slot counter 1, if there is one.
    pub fn due(&self, session: u8) -> Option<usize> {
        usize::from(self.firsts[self.place(session, 1)]).checked_sub(1)
    }

    /// Lowers all slot counters of the session.
    pub fn count_down(&mut self, session: u8) {
        let base = &mut self.bases[usize::from(session)];
        *base = (*base + 1) % SLOTS as u16;
    }

    fn place(&self, session: u8, slot: u16) -> usize {
        let session = usize::from(session);
        session * SLOTS + usize::from(self.bases[session] + slot) % SLOTS
    }
}
