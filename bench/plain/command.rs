//! The commands and their bits (6.3.2.11).

use std::borrow::Cow;

use crate::access::Access;
use crate::bits::{crc5, push_crc16, push_field, value_of, without_crc16};

/// The inventoried flag of a session.
#[derive(Clone, Copy, PartialEq)]
pub enum Flag {
    A,
    B,
}

impl Flag {
    pub fn inverse(self) -> Flag {
        if self == Flag::A {
            Flag::B
        } else {
            Flag::A
        }
    }
}

/// Which tags a Query asks, by their SL flag.
#[derive(Clone, Copy)]
pub enum Sel {
    /// All, by the code 00 and by the code 01.
    All,
    All01,
    NotSl,
    Sl,
}

#[derive(Clone, Copy)]
pub enum Change {
    Up,
    Same,
    Down,
}

impl Change {
    /// What it makes of Q.
    pub fn apply(self, q: u8) -> u8 {
        match self {
            Change::Up => (q + 1).min(15),
            Change::Same => q,
            Change::Down => q.saturating_sub(1),
        }
    }
}

#[derive(Clone, Copy)]
pub enum Bank {
    Reserved,
    Epc,
    Tid,
    User,
}

impl Bank {
    pub fn field(self) -> u32 {
        self as u32
    }

    /// The bank whose field of two bits this is.
    pub fn of_field(field: u32) -> Bank {
        match field {
            0 => Bank::Reserved,
            1 => Bank::Epc,
            2 => Bank::Tid,
            _ => Bank::User,
        }
    }
}

/// What a Select changes.
#[derive(Clone, Copy)]
pub enum Target {
    Session(u8),
    Sl,
}

#[derive(Clone)]
pub struct Query {
    pub divide_ratio: u32,
    /// The code's field M: 0 to 3 for FM0 and Miller 2, 4 and 8.
    pub code: u32,
    pub trext: bool,
    pub sel: Sel,
    pub session: u8,
    pub target: Flag,
    pub q: u8,
}

#[derive(Clone)]
pub struct Select<'a> {
    pub target: Target,
    pub action: u32,
    pub bank: Bank,
    pub pointer: u32,
    pub mask: Cow<'a, [bool]>,
}

#[derive(Clone)]
pub enum Command<'a> {
    QueryRep { session: u8 },
    Ack { rn: u16 },
    Query(Query),
    QueryAdjust { session: u8, change: Change },
    Select(Select<'a>),
    Nak,
    Access(Access<'a>),
}

impl<'a> Command<'a> {
    /// Writes the command's bits.
    pub fn encode(&self, bits: &mut Vec<bool>) {
        bits.clear();
        match self {
            Command::QueryRep { session } => push_field(bits, u32::from(*session), 4),
            Command::Ack { rn } => push_field(bits, 0b01 << 16 | u32::from(*rn), 18),
            Command::Query(query) => encode_query(query, bits),
            Command::QueryAdjust { session, change } => {
                push_field(bits, 0b1001 << 2 | u32::from(*session), 6);
                push_field(bits, change_field(*change), 3);
            }
            Command::Select(select) => encode_select(select, bits),
            Command::Nak => push_field(bits, 0b1100_0000, 8),
            Command::Access(access) => access.encode(bits),
        }
    }

    /// The command that the bits spell.
    pub fn decode(bits: &'a [bool]) -> Option<Command<'a>> {
        match (bits.len(), value_of(&bits[..bits.len().min(4)])) {
            (4, head @ 0b0000..=0b0011) => Some(Command::QueryRep {
                session: head as u8,
            }),
            (18, 0b0100..=0b0111) => Some(Command::Ack {
                rn: value_of(&bits[2..]) as u16,
            }),
            (22, 0b1000) => decode_query(bits).map(Command::Query),
            (9, 0b1001) => {
                let change = [Change::Up, Change::Same, Change::Down]
                    .into_iter()
                    .find(|&change| change_field(change) == value_of(&bits[6..]))?;
                Some(Command::QueryAdjust {
                    session: value_of(&bits[4..6]) as u8,
                    change,
                })
            }
            (_, 0b1010) => decode_select(bits).map(Command::Select),
            (8, _) => (value_of(bits) == 0b1100_0000).then_some(Command::Nak),
            _ => Access::decode(bits).map(Command::Access),
        }
    }
}

fn change_field(change: Change) -> u32 {
    match change {
        Change::Up => 0b110,
        Change::Same => 0b000,
        Change::Down => 0b011,
    }
}

fn encode_query(query: &Query, bits: &mut Vec<bool>) {
    push_field(bits, 0b1000, 4);
    push_field(bits, query.divide_ratio, 1);
    push_field(bits, query.code, 2);
    bits.push(query.trext);
    let sel = match query.sel {
        Sel::All => 0b00,
        Sel::All01 => 0b01,
        Sel::NotSl => 0b10,
        Sel::Sl => 0b11,
    };
    push_field(bits, sel, 2);
    push_field(bits, u32::from(query.session), 2);
    bits.push(query.target == Flag::B);
    push_field(bits, u32::from(query.q), 4);
    let crc = crc5(bits);
    push_field(bits, crc, 5);
}

fn decode_query(bits: &[bool]) -> Option<Query> {
    let (body, crc) = bits.split_at(17);
    (value_of(crc) == crc5(body)).then(|| Query {
        divide_ratio: value_of(&body[4..5]),
        code: value_of(&body[5..7]),
        trext: body[7],
        sel: match value_of(&body[8..10]) {
            0b00 => Sel::All,
            0b01 => Sel::All01,
            0b10 => Sel::NotSl,
            _ => Sel::Sl,
        },
        session: value_of(&body[10..12]) as u8,
        target: if body[12] { Flag::B } else { Flag::A },
        q: value_of(&body[13..]) as u8,
    })
}

fn encode_select(select: &Select, bits: &mut Vec<bool>) {
    push_field(bits, 0b1010, 4);
    let target = match select.target {
        Target::Session(session) => u32::from(session),
        Target::Sl => 0b100,
    };
    push_field(bits, target, 3);
    push_field(bits, select.action, 3);
    push_field(bits, select.bank.field(), 2);
    push_ebv(bits, select.pointer);
    push_field(bits, select.mask.len() as u32, 8);
    bits.extend_from_slice(&select.mask);
    bits.push(false);
    push_crc16(bits, 0);
}

fn decode_select(bits: &[bool]) -> Option<Select<'_>> {
    let body = without_crc16(bits)?;
    let target = match value_of(body.get(4..7)?) {
        session @ 0..=3 => Target::Session(session as u8),
        0b100 => Target::Sl,
        _ => return None,
    };
    let bank = Bank::of_field(value_of(body.get(10..12)?));
    if matches!(bank, Bank::Reserved) {
        return None;
    }
    let (pointer, rest) = take_ebv(&body[12..])?;
    let length = value_of(rest.get(..8)?) as usize;
    let mask = Cow::Borrowed(rest.get(8..8 + length)?);
    let whole = rest.len() == 9 + length && !rest[8 + length];
    whole.then(|| Select {
        target,
        action: value_of(&body[7..10]),
        bank,
        pointer,
        mask,
    })
}

/// Appends the shortest spelling of the number as an extensible bit vector (annex A).
pub fn push_ebv(bits: &mut Vec<bool>, value: u32) {
    let blocks = (1..4)
        .rev()
        .find(|&block| value >> (7 * block) != 0)
        .unwrap_or(0);
    for block in (0..=blocks).rev() {
        bits.push(block > 0);
        push_field(bits, value >> (7 * block) & 127, 7);
    }
}

/// The number of the extensible bit vector at the front, and the bits behind it.
pub fn take_ebv(mut bits: &[bool]) -> Option<(u32, &[bool])> {
    let mut value = 0;
    loop {
        let block = bits.get(..8)?;
        value = value << 7 | value_of(&block[1..]);
        bits = &bits[8..];
        if !block[0] {
            return Some((value, bits));
        }
    }
}
