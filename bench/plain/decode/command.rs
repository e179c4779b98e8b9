//! Commands, read from left to right, one field after another, and explained (6.3.2.11).

use super::fields::{push_bits, push_hex, push_number, push_word, push_words};
use crate::bits::{crc16, crc5, value_of};

/// Why bits are no command.
enum Stop {
    /// They begin one.
    Short,
    /// With the bit at this place they begin none, and it stands in this field.
    At(usize, &'static str),
}

/// The codes of commands (Table 6.18), as text.
const CODES: [&str; 14] = [
    "00", "01", "1000", "1001", "1010", "11000000", "11000001", "11000010", "11000011", "11000100",
    "11000101", "11000110", "11000111", "11001000",
];
const LINE_CODES: [&[u8]; 4] = [b"fm0", b"m2", b"m4", b"m8"];
const BANKS: [&[u8]; 4] = [b"res", b"epc", b"tid", b"user"];
const TARGETS: [&[u8]; 5] = [b"s0", b"s1", b"s2", b"s3", b"sl"];

/// The bits of a command, and how many were read.
struct Reader<'a> {
    bits: &'a [bool],
    at: usize,
}

/// Adds the command that the bits are, or why they are none.
pub fn answer(bits: &[bool], output: &mut Vec<u8>) {
    let start = output.len();
    let Err(stop) = read_command(bits, output) else {
        return;
    };
    output.truncate(start);
    match stop {
        Stop::Short => {
            output.extend_from_slice(b"short ");
            push_number(output, bits.len());
        }
        Stop::At(place, reason) => {
            output.extend_from_slice(b"refused ");
            push_number(output, place);
            output.push(b' ');
            output.extend_from_slice(reason.as_bytes());
        }
    }
}

fn read_command(bits: &[bool], output: &mut Vec<u8>) -> Result<(), Stop> {
    let mut reader = Reader { bits, at: 0 };
    let code = reader.choice("code", &CODES)?;
    match code {
        0 => reader.number(b"queryrep", 2, output)?,
        1 => reader.word(b"ack", output)?,
        2 => reader.query(output)?,
        3 => reader.query_adjust(output)?,
        4 => reader.select(output)?,
        5 => output.extend_from_slice(b"nak"),
        _ => reader.access(code, output)?,
    }
    match bits.len() == reader.at {
        true => Ok(()),
        false => Err(Stop::At(reader.at, "extra")),
    }
}

impl<'a> Reader<'a> {
    fn take(&mut self, width: usize) -> Result<&'a [bool], Stop> {
        let field = self.bits[self.at..].get(..width).ok_or(Stop::Short)?;
        self.at += width;
        Ok(field)
    }

    fn value(&mut self, width: usize) -> Result<u32, Stop> {
        self.take(width).map(value_of)
    }

    fn bit(&mut self) -> Result<bool, Stop> {
        Ok(self.take(1)?[0])
    }

    /// The place of the one of the codes that stands here. None is the beginning of another.
    fn choice(&mut self, reason: &'static str, codes: &[&str]) -> Result<usize, Stop> {
        let start = self.at;
        loop {
            let read = &self.bits[start..self.at];
            let fits = |code: &&str| {
                code.len() >= read.len()
                    && code
                        .bytes()
                        .zip(read)
                        .all(|(digit, &bit)| (digit == b'1') == bit)
            };
            match codes.iter().position(fits) {
                Some(place) if codes[place].len() == read.len() => return Ok(place),
                Some(_) => self.bit()?,
                None => return Err(Stop::At(self.at - 1, reason)),
            };
        }
    }

    /// These bits alone.
    fn exactly(&mut self, wanted: u32, width: usize, reason: &'static str) -> Result<(), Stop> {
        let field = &self.bits[self.at..];
        let wrong = (0..width)
            .zip(field)
            .position(|(place, &bit)| (wanted >> (width - 1 - place) & 1 == 1) != bit);
        match wrong {
            Some(place) => Err(Stop::At(self.at + place, reason)),
            None => self.take(width).map(|_| ()),
        }
    }

    /// An extensible bit vector of at most four blocks, in its shortest spelling (annex A).
    fn vector(&mut self) -> Result<u32, Stop> {
        let mut value = 0;
        for block in 0.. {
            let more = self.bit()?;
            if block == 3 && more {
                return Err(Stop::At(self.at - 1, "ebv"));
            }
            let digit = self.value(7)?;
            if block == 0 && more && digit == 0 {
                return Err(Stop::At(self.at - 1, "ebv"));
            }
            value = value << 7 | digit;
            if !more {
                break;
            }
        }
        Ok(value)
    }

    /// A number of words, which is not 0.
    fn count(&mut self) -> Result<u32, Stop> {
        match self.value(8)? {
            0 => Err(Stop::At(self.at - 1, "count")),
            count => Ok(count),
        }
    }

    fn check_number(&mut self) -> Result<(), Stop> {
        let check = u32::from(crc16(&self.bits[..self.at]));
        self.exactly(check, 16, "crc16")
    }

    fn number(&mut self, name: &[u8], width: usize, output: &mut Vec<u8>) -> Result<(), Stop> {
        let value = self.value(width)?;
        output.extend_from_slice(name);
        output.push(b' ');
        push_number(output, value as usize);
        Ok(())
    }

    fn word(&mut self, name: &[u8], output: &mut Vec<u8>) -> Result<(), Stop> {
        let value = self.value(16)?;
        output.extend_from_slice(name);
        output.push(b' ');
        push_word(output, value as u16);
        Ok(())
    }

    fn push_digit(&mut self, output: &mut Vec<u8>) -> Result<(), Stop> {
        let bit = self.bit()?;
        output.extend([b' ', b'0' + u8::from(bit)]);
        Ok(())
    }

    fn query(&mut self, output: &mut Vec<u8>) -> Result<(), Stop> {
        output.extend_from_slice(b"query");
        self.push_digit(output)?;
        output.push(b' ');
        output.extend_from_slice(LINE_CODES[self.value(2)? as usize]);
        self.push_digit(output)?;
        self.push_digit(output)?;
        let sel = self.bit()?;
        output.push(b'0' + u8::from(sel));
        self.number(b"", 2, output)?;
        let target = self.bit()?;
        output.extend([b' ', if target { b'b' } else { b'a' }]);
        self.number(b"", 4, output)?;
        let check = crc5(&self.bits[..self.at]);
        self.exactly(check, 5, "crc5")
    }

    fn query_adjust(&mut self, output: &mut Vec<u8>) -> Result<(), Stop> {
        self.number(b"queryadjust", 2, output)?;
        let change = self.choice("updn", &["000", "011", "110"])?;
        output.extend_from_slice([&b" same"[..], b" down", b" up"][change]);
        Ok(())
    }

    fn select(&mut self, output: &mut Vec<u8>) -> Result<(), Stop> {
        let target = self.choice("target", &["000", "001", "010", "011", "100"])?;
        output.extend_from_slice(b"select ");
        output.extend_from_slice(TARGETS[target]);
        self.number(b"", 3, output)?;
        let bank = self.choice("bank", &["01", "10", "11"])?;
        output.push(b' ');
        output.extend_from_slice(BANKS[bank + 1]);
        output.push(b' ');
        push_number(output, self.vector()? as usize);
        let length = self.value(8)? as usize;
        output.push(b' ');
        push_bits(output, self.take(length)?);
        self.exactly(0, 1, "truncate")?;
        self.check_number()
    }

    /// An access command, by the place of its code (6.3.2.11.3).
    fn access(&mut self, code: usize, output: &mut Vec<u8>) -> Result<(), Stop> {
        let names: [&[u8]; 8] = [
            b"req_rn",
            b"read",
            b"write",
            b"kill",
            b"lock",
            b"access",
            b"blockwrite",
            b"blockerase",
        ];
        let name = names[code - 6];
        match name {
            b"req_rn" => output.extend_from_slice(name),
            b"kill" => {
                self.word(name, output)?;
                self.exactly(0b000, 3, "killbits")?;
            }
            b"access" => self.word(name, output)?,
            b"lock" => {
                output.extend_from_slice(b"lock ");
                push_hex(output, self.value(20)?, 5);
            }
            _ => {
                output.extend_from_slice(name);
                self.place(output)?;
            }
        }
        match name {
            b"read" => self.number(b"", 8, output)?,
            b"write" => self.word(b"", output)?,
            b"blockwrite" => {
                let count = self.count()?;
                output.push(b' ');
                let words = (0..count).map(|_| Ok(self.value(16)? as u16));
                push_words(output, words.collect::<Result<Vec<_>, Stop>>()?);
            }
            b"blockerase" => {
                output.push(b' ');
                push_number(output, self.count()? as usize);
            }
            _ => {}
        }
        self.word(b"", output)?;
        self.check_number()
    }

    /// A bank and a pointer.
    fn place(&mut self, output: &mut Vec<u8>) -> Result<(), Stop> {
        output.push(b' ');
        output.extend_from_slice(BANKS[self.value(2)? as usize]);
        output.push(b' ');
        push_number(output, self.vector()? as usize);
        Ok(())
    }
}
