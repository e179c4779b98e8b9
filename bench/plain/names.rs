//! Adds its name behind each list line whose EPC is an SGTIN-96, as `gen2run names` does.

use std::fmt::{self, Display, Formatter, Write};

/// The bits and the digits of the company, by the partition.
pub const PARTITIONS: [(u32, usize); 7] = [(40, 12), (37, 11), (34, 10), (30, 9), (27, 8), (24, 7), (20, 6)];

/// The lines with their names, or the number of the last line, where it has no line feed.
pub fn add_names(text: &str) -> Result<String, usize> {
    if !text.is_empty() && !text.ends_with('\n') {
        return Err(text.lines().count());
    }
    let mut output = String::with_capacity(text.len() * 3);
    for line in text.split_terminator('\n') {
        output.push_str(line);
        output.push('\n');
        if let Some(epc) = listed_epc(line) {
            push_name(&mut output, epc);
        }
    }
    Ok(output)
}

/// The EPC of a list line, where it has six words.
fn listed_epc(line: &str) -> Option<u128> {
    let mut fields = line.split(' ');
    let (kind, round, slot, pc, epc) =
        (fields.next()?, fields.next()?, fields.next()?, fields.next()?, fields.next()?);
    let is_list = kind == "list" && !round.is_empty() && !slot.is_empty() && fields.next().is_none();
    if !is_list || pc.len() != 4 || hexadecimal(pc).is_none() || epc.len() != 24 {
        return None;
    }
    hexadecimal(epc)
}

/// The number that upper-case hexadecimal digits write.
fn hexadecimal(digits: &str) -> Option<u128> {
    digits.bytes().try_fold(0u128, |number, digit| {
        let value = match digit {
            b'0'..=b'9' => digit - b'0',
            b'A'..=b'F' => digit - b'A' + 10,
            _ => return None,
        };
        Some(number << 4 | u128::from(value))
    })
}

/// A trade item number, with the number of digits that its company has.
pub struct Sgtin {
    filter: u64,
    digits: usize,
    company: u64,
    item: u64,
    serial: u64,
}

/// Why an EPC has no trade item number.
pub enum EpcFault {
    Length,
    Header,
    Partition,
    Company,
    Item,
}

/// The trade item number of an EPC of 96 bits, or the first reason for which it has none.
pub fn sgtin_of(epc: u128) -> Result<Sgtin, EpcFault> {
    if epc >> 88 != 0x30 {
        return Err(EpcFault::Header);
    }
    let Some(&(company_bits, digits)) = PARTITIONS.get((epc >> 82 & 7) as usize) else {
        return Err(EpcFault::Partition);
    };
    let item_bits = 44 - company_bits;
    let company = (epc >> (38 + item_bits)) as u64 & ((1 << company_bits) - 1);
    let item = (epc >> 38) as u64 & ((1 << item_bits) - 1);
    if company >= 10u64.pow(digits as u32) {
        return Err(EpcFault::Company);
    }
    if item >= 10u64.pow(13 - digits as u32) {
        return Err(EpcFault::Item);
    }
    Ok(Sgtin {
        filter: (epc >> 85 & 7) as u64,
        digits,
        company,
        item,
        serial: epc as u64 & ((1 << 38) - 1),
    })
}

impl Display for Sgtin {
    /// Writes its URI.
    fn fmt(&self, f: &mut Formatter) -> fmt::Result {
        let Sgtin { filter, digits, company, item, serial } = self;
        let item_digits = 13 - digits;
        write!(f, "urn:epc:tag:sgtin-96:{filter}.{company:0digits$}.{item:0item_digits$}.{serial}")
    }
}

/// Adds the name of an EPC of 96 bits, where it is an SGTIN-96.
fn push_name(output: &mut String, epc: u128) {
    if let Ok(sgtin) = sgtin_of(epc) {
        // Writing into a String does not fail.
        let _ = writeln!(output, "name {sgtin}");
    }
}
