//! Reads replies as `decode` prints them, and spells them (6.3.2.11).

use super::command::{rn16, words};
use crate::bits::{push_crc16, push_field, push_words};
use crate::decode::fields::Fields;
use crate::decode::reply::Expect;
use crate::decode::Fault;

pub enum Reply {
    Rn16(u16),
    Epc(u16, Vec<u16>),
    Handle(u16),
    Words(Vec<u16>),
    Header,
    Error(u8),
}

impl Reply {
    /// The reply that the fields spell.
    pub fn read(mut fields: Fields) -> Result<Reply, Fault> {
        let name = fields.next().ok_or(Fault::Shape)?;
        match name {
            b"rn16" => {
                let [rn] = fields.exactly()?;
                rn16(rn).map(Reply::Rn16)
            }
            b"epc" => {
                let [pc, epc] = fields.exactly()?;
                Ok(Reply::Epc(rn16(pc)?, words(epc, 31)?))
            }
            b"handle" => {
                let [handle] = fields.exactly()?;
                rn16(handle).map(Reply::Handle)
            }
            b"words" => {
                let [list] = fields.exactly()?;
                let list = words(list, 512)?;
                if list.is_empty() {
                    return Err(Fault::Number);
                }
                Ok(Reply::Words(list))
            }
            b"header" => fields.end().map(|()| Reply::Header),
            b"error" => {
                let [code] = fields.exactly()?;
                let [high, low] = *code else { return Err(Fault::Number) };
                rn16(&[b'0', b'0', high, low]).map(|code| Reply::Error(code as u8))
            }
            _ => Err(Fault::Word),
        }
    }

    /// Writes the bits of the reply, and answers whether it is one that is expected.
    pub fn spell(&self, expect: Expect, bits: &mut Vec<bool>) -> bool {
        bits.clear();
        match (self, expect) {
            (Reply::Rn16(rn), Expect::Rn16) => {
                push_field(bits, u32::from(*rn), 16);
                return true;
            }
            (Reply::Epc(pc, epc), Expect::Epc) if usize::from(pc >> 11) == epc.len() => {
                push_field(bits, u32::from(*pc), 16);
                push_words(bits, epc);
            }
            (Reply::Handle(handle), Expect::Handle) => push_field(bits, u32::from(*handle), 16),
            (Reply::Handle(handle), Expect::Same(same)) if *handle == same => {
                push_field(bits, u32::from(*handle), 16);
            }
            (Reply::Words(words), Expect::Words(count, handle)) if words.len() == count => {
                push_result(bits, false, words, handle);
            }
            (Reply::Words(words), Expect::AnyWords(handle)) => {
                push_result(bits, false, words, handle);
            }
            (Reply::Header, Expect::Header(handle)) => push_result(bits, false, &[], handle),
            (
                Reply::Error(code),
                Expect::Words(_, handle) | Expect::AnyWords(handle) | Expect::Header(handle),
            ) => {
                bits.push(true);
                push_field(bits, u32::from(*code), 8);
                push_field(bits, u32::from(handle), 16);
            }
            _ => return false,
        }
        push_crc16(bits, 0);
        true
    }
}

/// Adds a header, words and the handle.
fn push_result(bits: &mut Vec<bool>, header: bool, words: &[u16], handle: u16) {
    bits.push(header);
    push_words(bits, words);
    push_field(bits, u32::from(handle), 16);
}
