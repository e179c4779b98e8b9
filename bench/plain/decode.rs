//! Explains captures line by line, as `gen2run decode` does: each line is read and answered in one pass.

mod command;
pub mod fields;
mod pie;
pub mod reply;
mod samples;
mod sgtin;

use crate::line_code::{Code, LineCode, Refusal};
use fields::{code_of, digits_of, one_bit, push_bits, push_number, read_bits, Fields};
use reply::Expect;
use std::io::{self, BufRead};

/// The most levels and the most bits of a line.
const MOST_LEVELS: usize = 132_000;
const MOST_BITS: usize = 8_240;

/// Why a line is faulty.
#[derive(Clone, Copy)]
pub enum Fault {
    Word,
    Shape,
    Number,
}

/// What was made of an input: the answers, or the line that names the first faulty line.
pub enum Explained {
    Answers(Vec<u8>),
    FaultLine(String),
}

/// Buffers for the items of a line, kept from one line to the next.
struct Explainer {
    codes: [LineCode; 4],
    levels: Vec<u8>,
    bits: Vec<bool>,
    samples: Vec<u8>,
    intervals: Vec<u32>,
}

/// Explains each line that is read.
pub fn explain(mut input: impl BufRead) -> io::Result<Explained> {
    let mut explainer = Explainer {
        codes: [Code::Fm0, Code::Miller(2), Code::Miller(4), Code::Miller(8)].map(LineCode::new),
        levels: Vec::new(),
        bits: Vec::with_capacity(MOST_LEVELS),
        samples: Vec::new(),
        intervals: Vec::new(),
    };
    let mut output = Vec::new();
    let mut line = Vec::new();
    let mut number = 0;
    loop {
        line.clear();
        if input.read_until(b'\n', &mut line)? == 0 {
            return Ok(Explained::Answers(output));
        }
        number += 1;
        let reason = match line.strip_suffix(b"\n") {
            None => "end",
            Some(line) => match explainer.answer(line, &mut output) {
                Ok(()) => continue,
                Err(Fault::Word) => "word",
                Err(Fault::Shape) => "shape",
                Err(Fault::Number) => "number",
            },
        };
        return Ok(Explained::FaultLine(format!("fault {number} {reason}\n")));
    }
}

impl Explainer {
    /// Adds the answer to a line.
    fn answer(&mut self, line: &[u8], output: &mut Vec<u8>) -> Result<(), Fault> {
        let (word, fields) = Fields::of_line(line);
        match word {
            b"samples" => self.answer_samples(fields, output)?,
            b"reply" => self.answer_reply(fields, output)?,
            b"heard" => self.answer_heard(fields, output)?,
            b"pie" => self.answer_pie(fields, output)?,
            b"command" => self.answer_command(fields, output)?,
            b"sgtin" => sgtin::answer_words(fields, output)?,
            b"uri" => sgtin::answer_uri(fields, output)?,
            _ => self.answer_stream(code_of(word).ok_or(Fault::Word)?, fields, output)?,
        }
        output.push(b'\n');
        Ok(())
    }

    fn answer_stream(
        &mut self,
        code: usize,
        fields: Fields,
        output: &mut Vec<u8>,
    ) -> Result<(), Fault> {
        let [trext, levels] = fields.exactly()?;
        let trext = one_bit(trext)?;
        let levels = digits_of(levels, MOST_LEVELS)?;
        match self.codes[code].decode(trext, levels, &mut self.bits) {
            Ok(()) => {
                output.extend_from_slice(b"bits ");
                push_bits(output, &self.bits);
            }
            Err(Refusal::Invalid(place)) => {
                output.extend_from_slice(b"invalid ");
                push_number(output, place);
            }
            Err(Refusal::Unfinished(count)) => {
                output.extend_from_slice(b"unfinished ");
                push_number(output, count);
            }
        }
        Ok(())
    }

    fn answer_heard(&mut self, fields: Fields, output: &mut Vec<u8>) -> Result<(), Fault> {
        let [code, trext, expect, levels] = fields.exactly()?;
        let code = code_of(code).ok_or(Fault::Number)?;
        let trext = one_bit(trext)?;
        let expect = Expect::read(expect).ok_or(Fault::Number)?;
        let levels = digits_of(levels, MOST_LEVELS)?;
        let place = match self.codes[code].decode(trext, levels, &mut self.bits) {
            Ok(()) if reply::answer(expect, &self.bits, output).is_ok() => return Ok(()),
            Ok(()) => levels.len(),
            Err(Refusal::Invalid(place) | Refusal::Unfinished(place)) => place,
        };
        output.extend_from_slice(b"refused ");
        push_number(output, place);
        Ok(())
    }

    fn answer_reply(&mut self, fields: Fields, output: &mut Vec<u8>) -> Result<(), Fault> {
        let [expect, bits] = fields.exactly()?;
        let expect = Expect::read(expect).ok_or(Fault::Number)?;
        read_bits(bits, MOST_BITS, &mut self.bits)?;
        if let Err(refusal) = reply::answer(expect, &self.bits, output) {
            output.extend_from_slice(b"refused ");
            output.extend_from_slice(refusal.as_bytes());
        }
        Ok(())
    }

    fn answer_samples(&mut self, fields: Fields, output: &mut Vec<u8>) -> Result<(), Fault> {
        let [threshold, per_level, digits] = fields.exactly()?;
        samples::answer(
            threshold,
            per_level,
            digits,
            &mut self.samples,
            &mut self.levels,
            output,
        )
    }

    fn answer_pie(&mut self, fields: Fields, output: &mut Vec<u8>) -> Result<(), Fault> {
        pie::read_intervals(fields, &mut self.intervals)?;
        pie::answer(&self.intervals, &mut self.bits, output);
        Ok(())
    }

    fn answer_command(&mut self, fields: Fields, output: &mut Vec<u8>) -> Result<(), Fault> {
        let [bits] = fields.exactly()?;
        read_bits(bits, MOST_BITS, &mut self.bits)?;
        command::answer(&self.bits, output);
        Ok(())
    }
}
