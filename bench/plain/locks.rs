//! The locks of a tag's passwords and banks (6.3.2.11.3.5).

/// What a pair of lock bits is for, in their order.
#[derive(Clone, Copy)]
pub enum Field {
    KillPassword,
    AccessPassword,
    Epc,
    Tid,
    User,
}

#[derive(Clone, Copy)]
struct Pair {
    /// The field may be changed (a password also read) from secured alone; where permalocked, never.
    locked: bool,
    permalocked: bool,
}

#[derive(Clone, Copy)]
pub struct Locks([Pair; 5]);

impl Locks {
    /// The locks of ten binary digits.
    pub fn read(digits: &str) -> Option<Locks> {
        let digit = |digit| match digit {
            b'0' => Some(false),
            b'1' => Some(true),
            _ => None,
        };
        let bits = digits.bytes().map(digit).collect::<Option<Vec<bool>>>()?;
        let pairs: Vec<Pair> = bits
            .chunks_exact(2)
            .map(|pair| Pair {
                locked: pair[0],
                permalocked: pair[1],
            })
            .collect();
        pairs.try_into().ok().map(Locks)
    }

    /// Their ten binary digits.
    pub fn digits(&self) -> [u8; 10] {
        let mut digits = [0; 10];
        for (digits, pair) in digits.as_chunks_mut().0.iter_mut().zip(&self.0) {
            *digits = [pair.locked, pair.permalocked].map(|bit| b'0' + u8::from(bit));
        }
        digits
    }

    /// Whether the field may be changed, or a password read.
    pub fn allow(&self, field: Field, secured: bool) -> bool {
        let pair = self.0[field as usize];
        !pair.locked || secured && !pair.permalocked
    }

    /// Changes the bits that the payload's mask names to its actions, and answers whether it may: not where it would
    /// take a permalock away. A permalocked pair stays as it is.
    pub fn apply(&mut self, payload: u32) -> bool {
        let bit = |place: usize| payload >> (19 - place) & 1 == 1;
        let mask = |field: usize| (bit(2 * field), bit(2 * field + 1));
        let action = |field: usize| (bit(10 + 2 * field), bit(11 + 2 * field));
        let frees = |field: usize| self.0[field].permalocked && mask(field).1 && !action(field).1;
        if (0..5).any(frees) {
            return false;
        }
        for field in 0..5 {
            let pair = &mut self.0[field];
            if pair.permalocked {
                continue;
            }
            if mask(field).0 {
                pair.locked = action(field).0;
            }
            if mask(field).1 {
                pair.permalocked = action(field).1;
            }
        }
        true
    }
}
