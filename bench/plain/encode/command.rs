//! Reads commands as `decode` prints them.

use crate::access::{Access, Order, Password, Place};
use crate::command::{Bank, Change, Command, Flag, Query, Sel, Select, Target};
use crate::decode::fields::{code_of, number, one_bit, read_bits, word, Fields};
use crate::decode::Fault;

const MOST_POINTER: u64 = 268_435_455;

/// The command that the fields spell.
pub fn read(mut fields: Fields) -> Result<Command<'static>, Fault> {
    let name = fields.next().ok_or(Fault::Shape)?;
    let access = |order, rn| Ok(Command::Access(Access { order, rn: rn16(rn)? }));
    match name {
        b"queryrep" => {
            let [session] = fields.exactly()?;
            Ok(Command::QueryRep { session: session_of(session)? })
        }
        b"ack" => {
            let [rn] = fields.exactly()?;
            Ok(Command::Ack { rn: rn16(rn)? })
        }
        b"query" => read_query(fields.exactly()?).map(Command::Query),
        b"queryadjust" => {
            let [session, change] = fields.exactly()?;
            let change = match change {
                b"up" => Change::Up,
                b"same" => Change::Same,
                b"down" => Change::Down,
                _ => return Err(Fault::Number),
            };
            Ok(Command::QueryAdjust { session: session_of(session)?, change })
        }
        b"select" => read_select(fields.exactly()?).map(Command::Select),
        b"nak" => fields.end().map(|()| Command::Nak),
        b"req_rn" => {
            let [rn] = fields.exactly()?;
            access(Order::ReqRn, rn)
        }
        b"read" => {
            let [bank, pointer, count, rn] = fields.exactly()?;
            let (place, count) = (place(bank, pointer)?, number(count, 255)? as u8);
            access(Order::Read { place, count }, rn)
        }
        b"write" => {
            let [bank, pointer, covered, rn] = fields.exactly()?;
            let (place, covered) = (place(bank, pointer)?, rn16(covered)?);
            access(Order::Write { place, covered }, rn)
        }
        b"kill" | b"access" => {
            let [covered, rn] = fields.exactly()?;
            let password = if name == b"kill" { Password::Kill } else { Password::Access };
            access(Order::Half { password, covered: rn16(covered)? }, rn)
        }
        b"lock" => {
            let [payload, rn] = fields.exactly()?;
            access(Order::Lock { payload: payload_of(payload)? }, rn)
        }
        b"blockwrite" => {
            let [bank, pointer, block, rn] = fields.exactly()?;
            let (place, words) = (place(bank, pointer)?, words(block, 255)?);
            if words.is_empty() {
                return Err(Fault::Number);
            }
            access(Order::BlockWrite { place, words: words.into() }, rn)
        }
        b"blockerase" => {
            let [bank, pointer, count, rn] = fields.exactly()?;
            let (place, count) = (place(bank, pointer)?, number(count, 255)? as u8);
            if count == 0 {
                return Err(Fault::Number);
            }
            access(Order::BlockErase { place, count }, rn)
        }
        _ => Err(Fault::Word),
    }
}

fn read_query([ratio, code, trext, sel, session, target, q]: [&[u8]; 7]) -> Result<Query, Fault> {
    Ok(Query {
        divide_ratio: u32::from(one_bit(ratio)?),
        code: code_of(code).ok_or(Fault::Number)? as u32,
        trext: one_bit(trext)?,
        sel: match sel {
            b"00" => Sel::All,
            b"01" => Sel::All01,
            b"10" => Sel::NotSl,
            b"11" => Sel::Sl,
            _ => return Err(Fault::Number),
        },
        session: session_of(session)?,
        target: match target {
            b"a" => Flag::A,
            b"b" => Flag::B,
            _ => return Err(Fault::Number),
        },
        q: number(q, 15)? as u8,
    })
}

fn read_select([target, action, bank, pointer, mask]: [&[u8]; 5]) -> Result<Select<'static>, Fault> {
    let mut bits = Vec::new();
    read_bits(mask, 255, &mut bits)?;
    Ok(Select {
        target: match target {
            b"sl" => Target::Sl,
            [b's', session @ b'0'..=b'3'] => Target::Session(session - b'0'),
            _ => return Err(Fault::Number),
        },
        action: number(action, 7)? as u32,
        bank: bank_of(bank).filter(|bank| !matches!(bank, Bank::Reserved)).ok_or(Fault::Number)?,
        pointer: number(pointer, MOST_POINTER)? as u32,
        mask: bits.into(),
    })
}

fn session_of(field: &[u8]) -> Result<u8, Fault> {
    number(field, 3).map(|session| session as u8)
}

/// One word.
pub fn rn16(field: &[u8]) -> Result<u16, Fault> {
    word(field).ok_or(Fault::Number)
}

/// At most so many words; `-` is none.
pub fn words(field: &[u8], most: usize) -> Result<Vec<u16>, Fault> {
    if field == b"-" {
        return Ok(Vec::new());
    }
    if field.len() % 4 != 0 || field.len() > 4 * most {
        return Err(Fault::Number);
    }
    field.chunks_exact(4).map(rn16).collect()
}

fn bank_of(field: &[u8]) -> Option<Bank> {
    match field {
        b"res" => Some(Bank::Reserved),
        b"epc" => Some(Bank::Epc),
        b"tid" => Some(Bank::Tid),
        b"user" => Some(Bank::User),
        _ => None,
    }
}

fn place(bank: &[u8], pointer: &[u8]) -> Result<Place, Fault> {
    Ok(Place {
        bank: bank_of(bank).ok_or(Fault::Number)?,
        pointer: number(pointer, MOST_POINTER)? as u32,
    })
}

/// Five upper-case hexadecimal digits.
fn payload_of(field: &[u8]) -> Result<u32, Fault> {
    let (first, rest) = field.split_first().ok_or(Fault::Number)?;
    let first = rn16(&[b'0', b'0', b'0', *first])?;
    Ok(u32::from(first) << 16 | u32::from(rn16(rest)?))
}
