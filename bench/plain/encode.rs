//! Makes lines for `decode` of bits, commands and replies, as `gen2run encode` does: each line is read and answered in one pass.

pub mod command;
mod reply;

use crate::decode::fields::{code_of, number, one_bit, push_bits, push_digits, push_number, read_bits, Fields};
use crate::decode::reply::Expect;
use crate::decode::Fault;
use crate::line_code::{Code, LineCode};
use crate::pie::{self, Timing};
use reply::Reply;

/// The most bits of a stream, as many as the longest reply has, and of a frame.
const MOST_STREAM_BITS: usize = 8_225;
const MOST_FRAME_BITS: usize = 8_240;

/// Buffers for the items of a line, kept from one line to the next.
struct Encoder {
    codes: [LineCode; 4],
    bits: Vec<bool>,
    levels: Vec<u8>,
    intervals: Vec<u32>,
}

/// The answers to all lines, or the line that names the first faulty line.
pub fn lines(input: &[u8]) -> Result<Vec<u8>, String> {
    let mut encoder = Encoder {
        codes: [Code::Fm0, Code::Miller(2), Code::Miller(4), Code::Miller(8)].map(LineCode::new),
        bits: Vec::new(),
        levels: Vec::new(),
        intervals: Vec::new(),
    };
    let mut output = Vec::new();
    for (number, line) in (1..).zip(input.split_inclusive(|&byte| byte == b'\n')) {
        let reason = match line.strip_suffix(b"\n") {
            None => "end",
            Some(line) => match encoder.answer(line, &mut output) {
                Ok(()) => continue,
                Err(Fault::Word) => "word",
                Err(Fault::Shape) => "shape",
                Err(Fault::Number) => "number",
            },
        };
        return Err(format!("fault {number} {reason}\n"));
    }
    Ok(output)
}

impl Encoder {
    /// Adds the answer to a line.
    fn answer(&mut self, line: &[u8], output: &mut Vec<u8>) -> Result<(), Fault> {
        let (word, fields) = Fields::of_line(line);
        match word {
            b"pie" => self.answer_pie(fields, output)?,
            b"command" => self.answer_command(fields, output)?,
            b"reply" => self.answer_reply(fields, output)?,
            b"heard" => self.answer_heard(fields, output)?,
            _ => {
                let code = code_of(word).ok_or(Fault::Word)?;
                let [trext, bits] = fields.exactly()?;
                let is_extended = one_bit(trext)?;
                read_bits(bits, MOST_STREAM_BITS, &mut self.bits)?;
                push_fields(output, &[word, trext]);
                self.push_stream(code, is_extended, output);
            }
        }
        output.push(b'\n');
        Ok(())
    }

    /// Adds the levels of the bits.
    fn push_stream(&mut self, code: usize, trext: bool, output: &mut Vec<u8>) {
        self.codes[code].encode(trext, &self.bits, &mut self.levels);
        push_digits(output, &self.levels);
    }

    fn answer_pie(&mut self, fields: Fields, output: &mut Vec<u8>) -> Result<(), Fault> {
        let [tari, rtcal, trcal, pw, lead, bits] = fields.exactly()?;
        let length = |field| number(field, 999_999).map(|length| length as u32);
        let timing = Timing {
            tari: length(tari)?,
            rtcal: length(rtcal)?,
            trcal: length(trcal)?,
            pw: length(pw)?,
        };
        let preamble = match lead {
            b"sync" => false,
            b"preamble" => true,
            _ => return Err(Fault::Number),
        };
        read_bits(bits, MOST_FRAME_BITS, &mut self.bits)?;
        if let Some(length) = timing.first_out_of_range() {
            push_fields(output, &[b"refused"]);
            output.extend_from_slice(length.as_bytes());
            return Ok(());
        }
        pie::encode_frame(&timing, preamble, &self.bits, &mut self.intervals);
        output.extend_from_slice(b"pie");
        for &interval in &self.intervals {
            output.push(b' ');
            push_number(output, interval as usize);
        }
        Ok(())
    }

    fn answer_command(&mut self, fields: Fields, output: &mut Vec<u8>) -> Result<(), Fault> {
        command::read(fields)?.encode(&mut self.bits);
        push_fields(output, &[b"command"]);
        push_bits(output, &self.bits);
        Ok(())
    }

    fn answer_reply(&mut self, mut fields: Fields, output: &mut Vec<u8>) -> Result<(), Fault> {
        let expect_field = fields.next().ok_or(Fault::Shape)?;
        let reply = Reply::read(fields);
        let expect = expectation(expect_field, &reply)?;
        if reply?.spell(expect, &mut self.bits) {
            push_fields(output, &[b"reply", expect_field]);
            push_bits(output, &self.bits);
        } else {
            output.extend_from_slice(b"refused reply");
        }
        Ok(())
    }

    fn answer_heard(&mut self, mut fields: Fields, output: &mut Vec<u8>) -> Result<(), Fault> {
        let mut next = || fields.next().ok_or(Fault::Shape);
        let [code, trext, expect_field] = [next()?, next()?, next()?];
        let reply = Reply::read(fields);
        let expect = expectation(expect_field, &reply);
        if let Err(fault @ (Fault::Word | Fault::Shape)) = expect {
            return Err(fault);
        }
        if code.is_empty() || trext.is_empty() {
            return Err(Fault::Shape);
        }
        let place = code_of(code).ok_or(Fault::Number)?;
        let is_extended = one_bit(trext)?;
        let expect = expect?;
        if reply?.spell(expect, &mut self.bits) {
            push_fields(output, &[b"heard", code, trext, expect_field]);
            self.push_stream(place, is_extended, output);
        } else {
            output.extend_from_slice(b"refused reply");
        }
        Ok(())
    }
}

/// The expectation that a field writes, where what stands behind it is a reply but for its numbers.
fn expectation(field: &[u8], reply: &Result<Reply, Fault>) -> Result<Expect, Fault> {
    match reply {
        Err(fault @ (Fault::Word | Fault::Shape)) => Err(*fault),
        _ if field.is_empty() => Err(Fault::Shape),
        _ => Expect::read(field).ok_or(Fault::Number),
    }
}

/// Adds fields, with a space behind each.
fn push_fields(output: &mut Vec<u8>, fields: &[&[u8]]) {
    for field in fields {
        output.extend_from_slice(field);
        output.push(b' ');
    }
}
