//! Replies of tags, explained by what is expected (6.3.2.11).

use super::fields::{number, push_hex, push_word, push_words, word};
use crate::bits::{crc16, value_of, words_of};

/// The bits of an error reply.
const ERROR_LENGTH: usize = 41;

/// What an interrogator expects.
#[derive(Clone, Copy)]
pub enum Expect {
    Rn16,
    Epc,
    Handle,
    Same(u16),
    Words(usize, u16),
    AnyWords(u16),
    Header(u16),
}

impl Expect {
    /// The expectation that a field writes.
    pub fn read(field: &[u8]) -> Option<Expect> {
        match field {
            b"rn16" => return Some(Expect::Rn16),
            b"epc" => return Some(Expect::Epc),
            b"handle" => return Some(Expect::Handle),
            _ => {}
        }
        let (name, handle) = field.split_at_checked(field.len().checked_sub(4)?)?;
        let handle = word(handle)?;
        match name {
            b"same-" => Some(Expect::Same(handle)),
            b"any-" => Some(Expect::AnyWords(handle)),
            b"header-" => Some(Expect::Header(handle)),
            _ => {
                let count = name.strip_prefix(b"words-")?.strip_suffix(b"-")?;
                let count = number(count, 255).ok().filter(|&count| count > 0)?;
                Some(Expect::Words(count as usize, handle))
            }
        }
    }

    fn fits_length(self, bits: &[bool]) -> bool {
        let length = bits.len();
        match self {
            Expect::Rn16 => length == 16,
            Expect::Epc => length >= 16 && length == 32 + 16 * value_of(&bits[..5]) as usize,
            Expect::Handle | Expect::Same(_) => length == 32,
            Expect::Words(count, _) => length == 33 + 16 * count || length == ERROR_LENGTH,
            Expect::AnyWords(_) => {
                length == ERROR_LENGTH
                    || ((49..=33 + 16 * 512).contains(&length) && length % 16 == 1)
            }
            Expect::Header(_) => length == 33 || length == ERROR_LENGTH,
        }
    }

    /// The handle that the bits have to end with, before their CRC-16.
    fn handle(self) -> Option<u16> {
        match self {
            Expect::Same(handle)
            | Expect::Words(_, handle)
            | Expect::AnyWords(handle)
            | Expect::Header(handle) => Some(handle),
            _ => None,
        }
    }

    fn has_header(self) -> bool {
        matches!(
            self,
            Expect::Words(..) | Expect::AnyWords(_) | Expect::Header(_)
        )
    }
}

/// Adds the reply that the bits are, or says why they are none that is expected.
pub fn answer(expect: Expect, bits: &[bool], output: &mut Vec<u8>) -> Result<(), &'static str> {
    let length = bits.len();
    if !expect.fits_length(bits) {
        return Err("length");
    }
    let body = &bits[..length.saturating_sub(16)];
    if !matches!(expect, Expect::Rn16) && value_of(&bits[length - 16..]) != u32::from(crc16(body)) {
        return Err("crc");
    }
    let is_error = length == ERROR_LENGTH;
    if expect.has_header() && bits[0] != is_error {
        return Err("header");
    }
    if let Some(handle) = expect.handle() {
        if value_of(&bits[length - 32..length - 16]) != u32::from(handle) {
            return Err("number");
        }
    }
    match expect {
        Expect::Rn16 => push_named_word(output, b"rn16 ", bits),
        Expect::Handle | Expect::Same(_) => push_named_word(output, b"handle ", &bits[..16]),
        Expect::Epc => {
            push_named_word(output, b"epc ", &bits[..16]);
            output.push(b' ');
            push_words(output, words_of(&body[16..]));
        }
        _ if is_error => {
            output.extend_from_slice(b"error ");
            push_hex(output, value_of(&bits[1..9]), 2);
        }
        Expect::Header(_) => output.extend_from_slice(b"header"),
        Expect::Words(..) | Expect::AnyWords(_) => {
            output.extend_from_slice(b"words ");
            push_words(output, words_of(&bits[1..length - 32]));
        }
    }
    Ok(())
}

fn push_named_word(output: &mut Vec<u8>, name: &[u8], bits: &[bool]) {
    output.extend_from_slice(name);
    push_word(output, value_of(bits) as u16);
}
