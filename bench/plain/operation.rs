//! The access operations of a round, as the interrogator goes through them behind each tag that it lists.

use std::borrow::Cow;

use crate::access::{Access, Order, Password, Place};
use crate::bits::{value_of, without_crc16, words_of};

pub enum Operation {
    Read { place: Place, count: u8 },
    Write { place: Place, word: u16 },
    BlockWrite { place: Place, words: Vec<u16> },
    BlockErase { place: Place, count: u8 },
    Lock { payload: u32 },
    Give { password: Password, value: u32 },
}

#[derive(Default)]
pub struct Operations {
    /// The EPC without PC that they are for, where not for every one.
    pub only: Option<Vec<u16>>,
    pub list: Vec<Operation>,
}

pub enum Outcome {
    Ok(Vec<u16>),
    Error(u8),
    Silent,
    Broken,
    Denied,
}

/// The reply that a command awaits.
#[derive(Clone, Copy)]
pub enum Await {
    /// Any number with its CRC-16.
    Handle,
    /// The handle with its CRC-16.
    SameHandle,
    /// Header, so many words (where the count is 0, from 1 to 512), handle and CRC-16; or an error.
    Words(u8),
    /// Header, handle and CRC-16, with the extended preamble; or an error.
    Header,
}

impl Await {
    pub fn is_extended(self) -> bool {
        matches!(self, Await::Header)
    }
}

/// What an awaited reply says.
pub enum Answer {
    Number(u16),
    Words(Vec<u16>),
    Error(u8),
}

/// Reads a reply, from bits that came whole over the line code.
pub fn read_reply(bits: &[bool], awaited: Await, handle: u16) -> Option<Answer> {
    let body = without_crc16(bits)?;
    let (front, number) = body.split_at(body.len().checked_sub(16)?);
    let number = value_of(number) as u16;
    if let Await::Handle | Await::SameHandle = awaited {
        let fits = matches!(awaited, Await::Handle) || number == handle;
        return (front.is_empty() && fits).then_some(Answer::Number(number));
    }
    let (&is_error, front) = front.split_first()?;
    if number != handle {
        return None;
    }
    let words = front.len() / 16;
    let fits = match awaited {
        Await::Words(0) => (1..=512).contains(&words),
        Await::Words(count) => words == usize::from(count),
        _ => words == 0,
    };
    match (is_error, front.len()) {
        (true, 8) => Some(Answer::Error(value_of(front) as u8)),
        (false, length) if length == 16 * words && fits => Some(Answer::Words(words_of(front).collect())),
        _ => None,
    }
}

/// What goes wrong on the air: nothing came, or what came is no awaited reply.
pub enum Failure {
    Silent,
    Broken,
}

/// Sends an access command, and gives the awaited reply.
pub trait Exchange {
    fn exchange(&mut self, access: Access, awaited: Await, handle: u16) -> Result<Answer, Failure>;
}

/// One operation with the tag of this handle.
pub fn operate(
    air: &mut impl Exchange,
    operation: &Operation,
    handle: u16,
) -> Result<Answer, Failure> {
    let send = |air: &mut _, order, awaited| {
        Exchange::exchange(air, Access { order, rn: handle }, awaited, handle)
    };
    match operation {
        Operation::Read { place, count } => {
            let (place, count) = (*place, *count);
            send(air, Order::Read { place, count }, Await::Words(count))
        }
        Operation::Write { place, word } => {
            let covered = word ^ ask_number(air, handle)?;
            let place = *place;
            send(air, Order::Write { place, covered }, Await::Header)
        }
        Operation::BlockWrite { place, words } => {
            let (place, words) = (*place, Cow::Borrowed(&words[..]));
            send(air, Order::BlockWrite { place, words }, Await::Header)
        }
        Operation::BlockErase { place, count } => {
            let (place, count) = (*place, *count);
            send(air, Order::BlockErase { place, count }, Await::Header)
        }
        Operation::Lock { payload } => {
            let payload = *payload;
            send(air, Order::Lock { payload }, Await::Header)
        }
        Operation::Give { password, value } => {
            let password = *password;
            let covered = (value >> 16) as u16 ^ ask_number(air, handle)?;
            send(air, Order::Half { password, covered }, Await::SameHandle)?;
            let covered = *value as u16 ^ ask_number(air, handle)?;
            let last = match password {
                Password::Kill => Await::Header,
                Password::Access => Await::SameHandle,
            };
            send(air, Order::Half { password, covered }, last)
        }
    }
}

/// A new number from a tag: its handle for the RN16, a cover for the handle.
pub fn ask_number(air: &mut impl Exchange, rn: u16) -> Result<u16, Failure> {
    let access = Access {
        order: Order::ReqRn,
        rn,
    };
    match air.exchange(access, Await::Handle, rn)? {
        Answer::Number(number) => Ok(number),
        _ => Err(Failure::Broken),
    }
}
