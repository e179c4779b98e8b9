//! A frame as a tag hears it: symbol by symbol (6.3.1.2), and the bits of its command one by one (6.3.2.11).

use std::borrow::Cow;

use crate::access::{Access, Order, Password, Place};
use crate::bits::{crc16_behind, crc5_behind};
use crate::command::{Bank, Change, Command, Flag, Query, Sel, Select, Target};

/// Where a frame stands.
#[derive(Clone, Copy, PartialEq)]
enum Stage {
    Tari,
    Rtcal,
    /// TRcal, or the first data bit.
    First,
    Data,
    Refused,
}

/// Reads a frame by the interrogator's own Tari, RTcal and TRcal, a symbol at a time, high and low.
pub struct Edges {
    stage: Stage,
    tari: u32,
    rtcal: u32,
}

impl Edges {
    /// Behind the delimiter.
    pub fn behind(delimiter: u32) -> Edges {
        let fits = (11_875..=13_125).contains(&delimiter);
        Edges { stage: if fits { Stage::Tari } else { Stage::Refused }, tari: 0, rtcal: 0 }
    }

    /// The data bit that the symbol is.
    #[inline]
    pub fn push(&mut self, [high, low]: [u32; 2]) -> Option<bool> {
        let symbol = high + low;
        if self.stage == Stage::Data {
            return self.data_bit(symbol);
        }
        self.head(symbol)
    }

    #[inline]
    fn data_bit(&mut self, symbol: u32) -> Option<bool> {
        if symbol > 4 * self.rtcal {
            self.stage = Stage::Refused;
            return None;
        }
        Some(2 * symbol >= self.rtcal)
    }

    fn head(&mut self, symbol: u32) -> Option<bool> {
        let Edges { tari, rtcal, .. } = *self;
        let (fits, next) = match self.stage {
            Stage::Tari => {
                self.tari = symbol;
                ((6_250..=25_000).contains(&symbol), Stage::Rtcal)
            }
            Stage::Rtcal => {
                self.rtcal = symbol;
                (2 * symbol >= 5 * tari && symbol <= 3 * tari, Stage::First)
            }
            Stage::First if symbol > rtcal => (10 * symbol >= 11 * rtcal && symbol <= 3 * rtcal, Stage::Data),
            Stage::First => {
                self.stage = Stage::Data;
                return self.data_bit(symbol);
            }
            Stage::Data | Stage::Refused => (false, Stage::Refused),
        };
        self.stage = if fits { next } else { Stage::Refused };
        None
    }

    /// Whether the symbols so far are a frame.
    pub fn is_frame(&self) -> bool {
        matches!(self.stage, Stage::First | Stage::Data)
    }
}

/// A field of a command.
#[derive(Clone, Copy)]
enum Field {
    Number(u32),
    Ebv,
    /// As many bits as the number before says.
    Mask,
    /// As many words as the number before says.
    Words,
    Crc5,
    Crc16,
}

/// The command of some first bits, with its further fields.
fn fields_of(code: u32, width: u32) -> Option<&'static [Field]> {
    use Field::{Crc16, Crc5, Ebv, Mask, Number, Words};
    Some(match (width, code) {
        (2, 0b00) => &[Number(2)],
        (2, 0b01) => &[Number(16)],
        (4, 0b1000) => &[Number(1), Number(2), Number(1), Number(2), Number(2), Number(1), Number(4), Crc5],
        (4, 0b1001) => &[Number(2), Number(3)],
        (4, 0b1010) => &[Number(3), Number(3), Number(2), Ebv, Number(8), Mask, Number(1), Crc16],
        (8, 0b1100_0000) => &[],
        (8, 0b1100_0001) => &[Number(16), Crc16],
        (8, 0b1100_0010 | 0b1100_1000) => &[Number(2), Ebv, Number(8), Number(16), Crc16],
        (8, 0b1100_0011) => &[Number(2), Ebv, Number(16), Number(16), Crc16],
        (8, 0b1100_0100) => &[Number(16), Number(3), Number(16), Crc16],
        (8, 0b1100_0101) => &[Number(20), Number(16), Crc16],
        (8, 0b1100_0110) => &[Number(16), Number(16), Crc16],
        (8, 0b1100_0111) => &[Number(2), Ebv, Number(8), Words, Number(16), Crc16],
        _ => return None,
    })
}

/// The check number so far, of a command that has one.
#[derive(Clone, Copy)]
enum Check {
    None,
    Crc5(u32),
    Crc16(u16),
}

impl Check {
    /// That of a command, behind the bits of its code.
    fn behind_code(code: u32, width: u32) -> Check {
        let check = match (width, code) {
            (4, 0b1000) => Check::Crc5(0b01001),
            (4, 0b1010) => Check::Crc16(0xFFFF),
            (8, code) if code != 0b1100_0000 => Check::Crc16(0xFFFF),
            _ => Check::None,
        };
        check.behind(code, width)
    }

    /// Behind the last `width` bits of the number.
    fn behind(self, number: u32, width: u32) -> Check {
        match self {
            Check::None => Check::None,
            Check::Crc5(register) => Check::Crc5(crc5_behind(register, number, width)),
            Check::Crc16(register) => Check::Crc16(crc16_behind(register, number, width)),
        }
    }

    /// Whether the number is the one that is sent.
    fn is(self, number: u32) -> bool {
        match self {
            Check::None => false,
            Check::Crc5(register) => number == register,
            Check::Crc16(register) => number == u32::from(!register),
        }
    }
}

/// Reads the bits of a command, one at a time.
pub struct Framer {
    /// The first bits, where they tell the command.
    code: Option<u32>,
    fields: &'static [Field],
    /// The field that is read, of how many bits the number is that is read of it, and how many of these are missing.
    field: usize,
    width: u32,
    missing: u32,
    number: u32,
    numbers: [u32; 8],
    count: usize,
    /// What is still to come of a mask or a list of words.
    items: u32,
    mask: Vec<bool>,
    words: Vec<u16>,
    check: Check,
    is_done: bool,
    is_refused: bool,
}

impl Framer {
    pub fn new() -> Framer {
        Framer {
            code: None,
            fields: &[],
            field: 0,
            width: 2,
            missing: 2,
            number: 0,
            numbers: [0; 8],
            count: 0,
            items: 0,
            mask: Vec::new(),
            words: Vec::new(),
            check: Check::None,
            is_done: false,
            is_refused: false,
        }
    }

    /// As new, with the room that it has.
    pub fn begin(&mut self) {
        self.mask.clear();
        self.words.clear();
        let (mask, words) = (std::mem::take(&mut self.mask), std::mem::take(&mut self.words));
        *self = Framer { mask, words, ..Framer::new() };
    }

    #[inline]
    pub fn push(&mut self, bit: bool) {
        self.number = self.number << 1 | u32::from(bit);
        self.missing = self.missing.wrapping_sub(1);
        if self.missing == 0 {
            self.take_number();
        } else if self.is_done {
            self.is_refused = true;
        }
    }

    /// Takes the bits that are complete, and says how many come next.
    fn take_number(&mut self) {
        let number = std::mem::take(&mut self.number);
        if self.code.is_none() {
            self.take_code(number);
            return;
        }
        if !matches!(self.fields[self.field], Field::Crc5 | Field::Crc16) {
            self.check = self.check.behind(number, self.width);
        }
        let is_over = match self.fields[self.field] {
            Field::Number(_) => {
                self.keep(number);
                true
            }
            Field::Ebv => {
                let (goes_on, block) = (number >> 7 == 1, number & 127);
                self.numbers[self.count] = self.numbers[self.count] << 7 | block;
                self.count += usize::from(!goes_on);
                self.missing = 8;
                !goes_on
            }
            Field::Mask => {
                self.mask.push(number == 1);
                self.was_last()
            }
            Field::Words => {
                self.words.push(number as u16);
                self.was_last()
            }
            Field::Crc5 | Field::Crc16 => {
                self.is_refused |= !self.check.is(number);
                true
            }
        };
        if is_over {
            self.field += 1;
            self.begin_field();
        }
    }

    fn keep(&mut self, number: u32) {
        self.numbers[self.count] = number;
        self.count += 1;
    }

    /// Whether the item was the last of its list.
    fn was_last(&mut self) -> bool {
        self.items -= 1;
        self.missing = self.width;
        self.items == 0
    }

    fn take_code(&mut self, number: u32) {
        let width = match number {
            0b00 | 0b01 => 2,
            0b1000..=0b1011 => 4,
            0b10 | 0b11 if self.count == 0 => {
                // The code goes on: by two bits, or by six.
                self.count = 1;
                (self.number, self.missing) = (number, if number == 0b10 { 2 } else { 6 });
                return;
            }
            _ => 8,
        };
        self.count = 0;
        match fields_of(number, width) {
            Some(fields) => {
                (self.code, self.fields, self.check) = (Some(number), fields, Check::behind_code(number, width));
                self.begin_field();
            }
            None => self.is_refused = true,
        }
    }

    /// Says how many bits the next field begins with, if there is one.
    fn begin_field(&mut self) {
        self.width = match self.fields.get(self.field) {
            None => {
                self.is_done = true;
                0
            }
            Some(Field::Number(width)) => *width,
            Some(Field::Ebv) => 8,
            Some(Field::Crc5) => 5,
            Some(Field::Crc16) => 16,
            Some(field) => {
                self.items = self.numbers[self.count - 1];
                if self.items == 0 {
                    self.field += 1;
                    return self.begin_field();
                }
                if let Field::Mask = field { 1 } else { 16 }
            }
        };
        self.missing = self.width;
    }

    /// The command that the bits spell.
    pub fn command(&self) -> Option<Command<'_>> {
        if !self.is_done || self.is_refused {
            return None;
        }
        let [first, second, third, fourth, ..] = self.numbers;
        let place = || Place { bank: Bank::of_field(first), pointer: second };
        let access = |order, rn: u32| Some(Command::Access(Access { order, rn: rn as u16 }));
        match self.code? {
            0b00 => Some(Command::QueryRep { session: first as u8 }),
            0b01 => Some(Command::Ack { rn: first as u16 }),
            0b1000 => Some(Command::Query(self.query())),
            0b1001 => {
                let change = match second {
                    0b110 => Change::Up,
                    0b000 => Change::Same,
                    0b011 => Change::Down,
                    _ => return None,
                };
                Some(Command::QueryAdjust { session: first as u8, change })
            }
            0b1010 => self.select(),
            0b1100_0000 => Some(Command::Nak),
            0b1100_0001 => access(Order::ReqRn, first),
            0b1100_0010 => access(Order::Read { place: place(), count: third as u8 }, fourth),
            0b1100_0011 => access(Order::Write { place: place(), covered: third as u16 }, fourth),
            0b1100_0100 if second != 0 => None,
            0b1100_0100 => access(Order::Half { password: Password::Kill, covered: first as u16 }, third),
            0b1100_0101 => access(Order::Lock { payload: first }, second),
            0b1100_0110 => access(Order::Half { password: Password::Access, covered: first as u16 }, second),
            0b1100_0111 if third == 0 => None,
            0b1100_0111 => access(Order::BlockWrite { place: place(), words: Cow::Borrowed(&self.words) }, fourth),
            _ if third == 0 => None,
            _ => access(Order::BlockErase { place: place(), count: third as u8 }, fourth),
        }
    }

    fn query(&self) -> Query {
        let [divide_ratio, code, trext, sel, session, target, q, _] = self.numbers;
        Query {
            divide_ratio,
            code,
            trext: trext == 1,
            sel: [Sel::All, Sel::All01, Sel::NotSl, Sel::Sl][sel as usize],
            session: session as u8,
            target: if target == 1 { Flag::B } else { Flag::A },
            q: q as u8,
        }
    }

    fn select(&self) -> Option<Command<'_>> {
        let [target, action, bank, pointer, _, truncate, ..] = self.numbers;
        let target = match target {
            session @ 0..=3 => Target::Session(session as u8),
            0b100 => Target::Sl,
            _ => return None,
        };
        let (bank, mask) = (Bank::of_field(bank), Cow::Borrowed(&self.mask[..]));
        let is_legal = truncate == 0 && !matches!(bank, Bank::Reserved);
        is_legal.then_some(Command::Select(Select { target, action, bank, pointer, mask }))
    }
}
