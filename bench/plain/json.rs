//! The lines of a report as objects, one a line, with their keys in alphabetical order.

use crate::decode::fields::{push_hex, push_hex_words, push_number, push_word};
use crate::operation::Outcome;
use crate::tag::Tag;
use crate::world::{push_flags, state_name};

/// Adds what stands in front of a value, and the value.
fn push_count(report: &mut Vec<u8>, front: &str, number: u32) {
    report.extend_from_slice(front.as_bytes());
    push_number(report, number as usize);
}

fn push_words(report: &mut Vec<u8>, front: &str, words: &[u16]) {
    report.extend_from_slice(front.as_bytes());
    push_hex_words(report, words);
}

fn push_text(report: &mut Vec<u8>, front: &str, text: &str) {
    report.extend_from_slice(front.as_bytes());
    report.extend_from_slice(text.as_bytes());
}

pub fn push_list(report: &mut Vec<u8>, round: u32, slot: u32, pc_and_epc: &[u16]) {
    push_words(report, r#"{"epc":""#, &pc_and_epc[1..]);
    push_words(report, r#"","kind":"list","pc":""#, &pc_and_epc[..1]);
    push_count(report, r#"","round":"#, round);
    push_count(report, r#","slot":"#, slot);
    report.extend_from_slice(b"}\n");
}

pub fn push_op(report: &mut Vec<u8>, round: u32, slot: u32, index: u32, outcome: &Outcome) {
    let result = match outcome {
        Outcome::Ok(_) => "ok",
        Outcome::Error(_) => "error",
        Outcome::Silent => "silent",
        Outcome::Broken => "broken",
        Outcome::Denied => "denied",
    };
    push_count(report, r#"{"index":"#, index);
    push_text(report, r#","kind":"op","result":""#, result);
    push_count(report, r#"","round":"#, round);
    push_count(report, r#","slot":"#, slot);
    report.extend_from_slice(br#","value":""#);
    match outcome {
        Outcome::Ok(words) => push_hex_words(report, words),
        Outcome::Error(code) => push_hex(report, u32::from(*code), 2),
        _ => {}
    }
    report.extend_from_slice(b"\"}\n");
}

pub fn push_round(report: &mut Vec<u8>, number: u32, end: &str, slots: u32) {
    push_text(report, r#"{"end":""#, end);
    push_count(report, r#"","kind":"round","round":"#, number);
    push_count(report, r#","slots":"#, slots);
    report.extend_from_slice(b"}\n");
}

pub fn push_seen(report: &mut Vec<u8>, count: u32, pc_and_epc: &[u16]) {
    push_count(report, r#"{"count":"#, count);
    push_words(report, r#","epc":""#, &pc_and_epc[1..]);
    report.extend_from_slice(br#"","kind":"seen","pc":""#);
    push_word(report, pc_and_epc[0]);
    report.extend_from_slice(b"\"}\n");
}

pub fn push_tag(report: &mut Vec<u8>, number: usize, tag: &Tag) {
    let memory = &tag.memory;
    push_words(report, r#"{"epc":""#, &memory.epc);
    report.extend_from_slice(br#"","flags":""#);
    push_flags(report, tag);
    report.extend_from_slice(br#"","kind":"tag","locks":""#);
    report.extend_from_slice(&memory.locks.digits());
    push_count(report, r#"","number":"#, number as u32);
    push_words(report, r#","res":""#, &memory.reserved);
    push_text(report, r#"","state":""#, state_name(tag.state));
    push_words(report, r#"","tid":""#, &memory.tid);
    push_words(report, r#"","user":""#, &memory.user);
    report.extend_from_slice(b"\"}\n");
}

pub fn push_done(report: &mut Vec<u8>) {
    report.extend_from_slice(b"{\"kind\":\"done\"}\n");
}
