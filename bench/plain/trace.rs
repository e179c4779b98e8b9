//! The lines of a trace.

use crate::decode::fields::{push_digits, push_number};
use crate::pie::Timing;

/// A pair of intervals with a space before each of them has at most so many bytes.
const MOST_BYTES: usize = 16;

/// How the two intervals of a data bit are written. A frame has hardly any others.
struct SymbolText {
    text: [u8; MOST_BYTES],
    length: usize,
}

/// The data bits of a link, and how they are written.
pub struct SymbolTexts {
    symbols: [[u32; 2]; 2],
    texts: [SymbolText; 2],
}

impl SymbolTexts {
    pub fn new(timing: &Timing) -> SymbolTexts {
        let symbols = timing.symbols();
        let text_of = |symbol| {
            let mut written = Vec::new();
            push_intervals(&mut written, symbol);
            let mut text = [0; MOST_BYTES];
            text[..written.len()].copy_from_slice(&written);
            SymbolText { text, length: written.len() }
        };
        SymbolTexts { symbols, texts: symbols.each_ref().map(|symbol| text_of(symbol)) }
    }

    /// Adds the line of a frame.
    pub fn push_frame(&self, report: &mut Vec<u8>, exchange: u32, intervals: &[u32]) {
        report.extend_from_slice(b"tx ");
        push_number(report, exchange as usize);
        let (delimiter, pairs) = intervals.split_at(1);
        push_intervals(report, delimiter);
        for pair in pairs.as_chunks().0 {
            let bit = usize::from(*pair == self.symbols[1]);
            if *pair == self.symbols[bit] {
                let SymbolText { text, length } = &self.texts[bit];
                let end = report.len() + length;
                report.extend_from_slice(text);
                report.truncate(end);
            } else {
                push_intervals(report, pair);
            }
        }
        report.push(b'\n');
    }
}

fn push_intervals(report: &mut Vec<u8>, intervals: &[u32]) {
    for &interval in intervals {
        report.push(b' ');
        push_number(report, interval as usize);
    }
}

/// Adds the line of what comes back: the number of replies, and the levels.
pub fn push_received(report: &mut Vec<u8>, exchange: u32, replies: usize, levels: &[u8]) {
    report.extend_from_slice(b"rx ");
    push_number(report, exchange as usize);
    report.push(b' ');
    push_number(report, replies);
    report.push(b' ');
    push_digits(report, levels);
    report.push(b'\n');
}
