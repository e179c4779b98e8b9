//! The access commands and their bits (6.3.2.11.3).

use std::borrow::Cow;

use crate::bits::{push_crc16, push_field, push_words, value_of, without_crc16, words_of};
use crate::command::{push_ebv, take_ebv, Bank};

/// A password that a tag holds.
#[derive(Clone, Copy, PartialEq)]
pub enum Password {
    Kill,
    Access,
}

/// Where words stand: a bank, and the place of the first of them.
#[derive(Clone, Copy)]
pub struct Place {
    pub bank: Bank,
    pub pointer: u32,
}

/// What an access command asks for.
#[derive(Clone)]
pub enum Order<'a> {
    ReqRn,
    Read {
        place: Place,
        count: u8,
    },
    Write {
        place: Place,
        covered: u16,
    },
    /// Half of a password, covered.
    Half {
        password: Password,
        covered: u16,
    },
    Lock {
        payload: u32,
    },
    BlockWrite {
        place: Place,
        words: Cow<'a, [u16]>,
    },
    BlockErase {
        place: Place,
        count: u8,
    },
}

/// An access command, with the RN16 or the handle of the tag that it is meant for.
#[derive(Clone)]
pub struct Access<'a> {
    pub order: Order<'a>,
    pub rn: u16,
}

impl Order<'_> {
    fn code(&self) -> u32 {
        match self {
            Order::ReqRn => 0b1100_0001,
            Order::Read { .. } => 0b1100_0010,
            Order::Write { .. } => 0b1100_0011,
            Order::Half {
                password: Password::Kill,
                ..
            } => 0b1100_0100,
            Order::Lock { .. } => 0b1100_0101,
            Order::Half {
                password: Password::Access,
                ..
            } => 0b1100_0110,
            Order::BlockWrite { .. } => 0b1100_0111,
            Order::BlockErase { .. } => 0b1100_1000,
        }
    }
}

impl<'a> Access<'a> {
    pub fn encode(&self, bits: &mut Vec<bool>) {
        push_field(bits, self.order.code(), 8);
        match &self.order {
            Order::ReqRn => {}
            Order::Read { place, count } | Order::BlockErase { place, count } => {
                push_place(bits, place);
                push_field(bits, u32::from(*count), 8);
            }
            Order::Write { place, covered } => {
                push_place(bits, place);
                push_field(bits, u32::from(*covered), 16);
            }
            Order::Half { password, covered } => {
                push_field(bits, u32::from(*covered), 16);
                if *password == Password::Kill {
                    push_field(bits, 0b000, 3);
                }
            }
            Order::Lock { payload } => push_field(bits, *payload, 20),
            Order::BlockWrite { place, words } => {
                push_place(bits, place);
                push_field(bits, words.len() as u32, 8);
                push_words(bits, words);
            }
        }
        push_field(bits, u32::from(self.rn), 16);
        push_crc16(bits, 0);
    }

    pub fn decode(bits: &'a [bool]) -> Option<Access<'a>> {
        let body = without_crc16(bits)?;
        let (fields, rn) = body.split_at(body.len().checked_sub(16)?);
        let rn = value_of(rn) as u16;
        let (code, fields) = (fields.get(..8)?, fields.get(8..)?);
        let order = match value_of(code) {
            0b1100_0001 if fields.is_empty() => Order::ReqRn,
            0b1100_0010 => {
                let (place, rest) = take_place(fields)?;
                let count = whole_value(rest, 8)? as u8;
                Order::Read { place, count }
            }
            0b1100_0011 => {
                let (place, rest) = take_place(fields)?;
                let covered = whole_value(rest, 16)? as u16;
                Order::Write { place, covered }
            }
            0b1100_0100 => {
                let value = whole_value(fields, 19)?;
                (value & 0b111 == 0).then_some(Order::Half {
                    password: Password::Kill,
                    covered: (value >> 3) as u16,
                })?
            }
            0b1100_0101 => Order::Lock {
                payload: whole_value(fields, 20)?,
            },
            0b1100_0110 => Order::Half {
                password: Password::Access,
                covered: whole_value(fields, 16)? as u16,
            },
            0b1100_0111 => {
                let (place, rest) = take_place(fields)?;
                let (count, words) = (rest.get(..8)?, rest.get(8..)?);
                let whole = !words.is_empty() && words.len() == 16 * value_of(count) as usize;
                let words = whole.then(|| words_of(words).collect())?;
                Order::BlockWrite { place, words }
            }
            0b1100_1000 => {
                let (place, rest) = take_place(fields)?;
                let count = whole_value(rest, 8).filter(|&count| count > 0)? as u8;
                Order::BlockErase { place, count }
            }
            _ => return None,
        };
        Some(Access { order, rn })
    }
}

/// The number that the bits spell, where there are so many.
fn whole_value(bits: &[bool], width: usize) -> Option<u32> {
    (bits.len() == width).then(|| value_of(bits))
}

fn push_place(bits: &mut Vec<bool>, place: &Place) {
    push_field(bits, place.bank.field(), 2);
    push_ebv(bits, place.pointer);
}

fn take_place(bits: &[bool]) -> Option<(Place, &[bool])> {
    let bank = Bank::of_field(value_of(bits.get(..2)?));
    let (pointer, rest) = take_ebv(&bits[2..])?;
    Some((Place { bank, pointer }, rest))
}
