//! SGTIN-96: the words of EPCs and the URIs of their trade item numbers, explained.

use super::fields::{number, push_words, word, Fields};
use super::Fault;
use crate::names::{sgtin_of, EpcFault, PARTITIONS};
use std::io::Write;

/// The most words of an EPC in a line.
const MOST_WORDS: usize = 31;

/// Adds the URI of the words, or why they have none.
pub fn answer_words(fields: Fields, output: &mut Vec<u8>) -> Result<(), Fault> {
    let [digits] = fields.exactly()?;
    if digits.len() % 4 != 0 || digits.len() / 4 > MOST_WORDS {
        return Err(Fault::Number);
    }
    let mut epc = 0;
    for digits in digits.chunks_exact(4) {
        epc = epc << 16 | u128::from(word(digits).ok_or(Fault::Number)?);
    }
    let sgtin = if digits.len() == 24 {
        sgtin_of(epc)
    } else {
        Err(EpcFault::Length)
    };
    match sgtin {
        Ok(sgtin) => {
            // Writing into a Vec does not fail.
            let _ = write!(output, "name {sgtin}");
        }
        Err(fault) => {
            let reason = match fault {
                EpcFault::Length => "length",
                EpcFault::Header => "header",
                EpcFault::Partition => "partition",
                EpcFault::Company => "company",
                EpcFault::Item => "item",
            };
            refuse(output, reason);
        }
    }
    Ok(())
}

/// Adds the words of a URI, or why it has none.
pub fn answer_uri(fields: Fields, output: &mut Vec<u8>) -> Result<(), Fault> {
    let [uri] = fields.exactly()?;
    match epc_of(uri) {
        Ok(epc) => {
            output.extend_from_slice(b"sgtin ");
            push_words(
                output,
                (0..6).rev().map(|place| (epc >> (16 * place)) as u16),
            );
        }
        Err(reason) => refuse(output, reason),
    }
    Ok(())
}

fn refuse(output: &mut Vec<u8>, reason: &str) {
    output.extend_from_slice(b"refused ");
    output.extend_from_slice(reason.as_bytes());
}

/// The EPC of a URI, or the first reason for which it has none.
fn epc_of(uri: &[u8]) -> Result<u128, &'static str> {
    let parts = uri.strip_prefix(b"urn:epc:tag:sgtin-96:").ok_or("prefix")?;
    let mut parts = parts.split(|&byte| byte == b'.');
    let [Some(filter), Some(company), Some(item), Some(serial), None] = [
        parts.next(),
        parts.next(),
        parts.next(),
        parts.next(),
        parts.next(),
    ] else {
        return Err("parts");
    };
    let filter = number(filter, 7).map_err(|_| "filter")?;
    let all_digits = |part: &[u8]| part.iter().all(u8::is_ascii_digit);
    let is_company = (6..=12).contains(&company.len()) && all_digits(company);
    if !is_company {
        return Err("company");
    }
    if item.len() + company.len() != 13 || !all_digits(item) {
        return Err("item");
    }
    let serial = number(serial, (1 << 38) - 1).map_err(|_| "serial")?;
    let partition = 12 - company.len();
    let (company_bits, _) = PARTITIONS[partition];
    let value = |part: &[u8]| {
        part.iter()
            .fold(0, |value, &digit| value * 10 + u128::from(digit - b'0'))
    };
    let epc = 0x30 << 6 | u128::from(filter) << 3 | partition as u128;
    let epc = epc << company_bits | value(company);
    let epc = epc << (44 - company_bits) | value(item);
    Ok(epc << 38 | u128::from(serial))
}
