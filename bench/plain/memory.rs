//! A tag's four banks and their locks: what may be read and changed (6.3.2.1).

use crate::access::{Password, Place};
use std::ops::Range;

use crate::bits::crc16_of_words;
use crate::command::Bank;
use crate::locks::{Field, Locks};

/// Why a tag refuses an access command: its error codes (annex I).
#[derive(Clone, Copy)]
pub enum Refusal {
    Other = 0x00,
    Overrun = 0x03,
    Locked = 0x04,
}

#[derive(Clone)]
pub struct Memory {
    pub reserved: Vec<u16>,
    /// StoredCRC, PC, and the EPC.
    pub epc: Vec<u16>,
    pub tid: Vec<u16>,
    pub user: Vec<u16>,
    pub locks: Locks,
}

impl Memory {
    pub fn bank(&self, bank: Bank) -> &[u16] {
        match bank {
            Bank::Reserved => &self.reserved,
            Bank::Epc => &self.epc,
            Bank::Tid => &self.tid,
            Bank::User => &self.user,
        }
    }

    fn bank_mut(&mut self, bank: Bank) -> &mut [u16] {
        match bank {
            Bank::Reserved => &mut self.reserved,
            Bank::Epc => &mut self.epc,
            Bank::Tid => &mut self.tid,
            Bank::User => &mut self.user,
        }
    }

    /// PC and as many words of the EPC as its length field says.
    pub fn pc_and_epc(&self) -> &[u16] {
        &self.epc[1..self.end_of_epc()]
    }

    /// The place behind the last word of the EPC.
    fn end_of_epc(&self) -> usize {
        2 + usize::from(self.epc[1] >> 11)
    }

    pub fn store_crc(&mut self) {
        self.epc[0] = crc16_of_words(self.pc_and_epc());
    }

    pub fn password(&self, password: Password) -> u32 {
        let upper = match password {
            Password::Kill => 0,
            Password::Access => 2,
        };
        u32::from(self.reserved[upper]) << 16 | u32::from(self.reserved[upper + 1])
    }

    /// Where the words from the place on stand in its bank, with a count of 0 to the end of the bank or of the EPC.
    pub fn read(&self, place: Place, count: u8, secured: bool) -> Result<Range<usize>, Refusal> {
        let bank = self.bank(place.bank);
        let from = place.pointer as usize;
        let to = match (count, place.bank) {
            (0, Bank::Epc) if from < self.end_of_epc() => self.end_of_epc(),
            (0, _) => bank.len(),
            _ => from + usize::from(count),
        };
        if from >= to || to > bank.len() {
            return Err(Refusal::Overrun);
        }
        let hidden = matches!(place.bank, Bank::Reserved)
            && (from..to).any(|at| !self.locks.allow(field_of(Bank::Reserved, at), secured));
        if hidden {
            return Err(Refusal::Locked);
        }
        Ok(from..to)
    }

    /// Changes all words from the place on, or none.
    pub fn change(&mut self, place: Place, words: &[u16], secured: bool) -> Result<(), Refusal> {
        let from = place.pointer as usize;
        let to = from + words.len();
        let size = self.bank(place.bank).len();
        let in_epc = matches!(place.bank, Bank::Epc);
        // A new PC may not ask for more words than the bank has.
        let is_long = |pc: u16| 2 + usize::from(pc >> 11) > size;
        let new_pc = (in_epc && from <= 1).then(|| words.get(1 - from)).flatten();
        if to > size || new_pc.is_some_and(|&pc| is_long(pc)) {
            return Err(Refusal::Overrun);
        }
        let has_stored_crc = in_epc && from == 0;
        if has_stored_crc
            || !(from..to).all(|at| self.locks.allow(field_of(place.bank, at), secured))
        {
            return Err(Refusal::Locked);
        }
        self.bank_mut(place.bank)[from..to].copy_from_slice(words);
        Ok(())
    }

    /// Applies a Lock's payload.
    pub fn lock(&mut self, payload: u32) -> Result<(), Refusal> {
        // The last two of the ten mask bits are those of User.
        if self.user.is_empty() && payload >> 10 & 0b11 != 0 {
            return Err(Refusal::Overrun);
        }
        if self.locks.apply(payload) {
            Ok(())
        } else {
            Err(Refusal::Locked)
        }
    }
}

fn field_of(bank: Bank, at: usize) -> Field {
    match bank {
        Bank::Reserved if at < 2 => Field::KillPassword,
        Bank::Reserved => Field::AccessPassword,
        Bank::Epc => Field::Epc,
        Bank::Tid => Field::Tid,
        Bank::User => Field::User,
    }
}
