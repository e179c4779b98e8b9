//! Frames in pulse-interval encoding, explained (6.3.1.2).

use super::fields::{push_bits, push_number, Fields, MOST_INTERVALS};
use super::Fault;

/// Why intervals are no frame.
enum Refusal {
    Delimiter,
    Tari,
    RtCal,
    TrCal,
    Symbol(usize),
    Unfinished,
}

struct Header {
    tari: u32,
    rtcal: u32,
    trcal: Option<u32>,
}

/// Reads the intervals of a line, in place of what the list has. A wrong shape comes before a wrong number.
pub fn read_intervals(fields: Fields, intervals: &mut Vec<u32>) -> Result<(), Fault> {
    let read = fields.read_intervals(intervals);
    if read.count == 0 || read.has_empty || read.count > MOST_INTERVALS {
        Err(Fault::Shape)
    } else if read.are_numbers {
        Ok(())
    } else {
        Err(Fault::Number)
    }
}

/// Adds the frame that the intervals are, or why they are none.
pub fn answer(intervals: &[u32], bits: &mut Vec<bool>, output: &mut Vec<u8>) {
    match decode(intervals, bits) {
        Ok(header) => {
            output.extend_from_slice(if header.trcal.is_some() {
                b"preamble "
            } else {
                b"sync "
            });
            for length in [Some(header.tari), Some(header.rtcal), header.trcal]
                .into_iter()
                .flatten()
            {
                push_number(output, length as usize);
                output.push(b' ');
            }
            push_bits(output, bits);
        }
        Err(Refusal::Delimiter) => output.extend_from_slice(b"refused delimiter"),
        Err(Refusal::Tari) => output.extend_from_slice(b"refused tari"),
        Err(Refusal::RtCal) => output.extend_from_slice(b"refused rtcal"),
        Err(Refusal::TrCal) => output.extend_from_slice(b"refused trcal"),
        Err(Refusal::Symbol(place)) => {
            output.extend_from_slice(b"refused symbol ");
            push_number(output, place);
        }
        Err(Refusal::Unfinished) => {
            output.extend_from_slice(b"unfinished ");
            push_number(output, intervals.len());
        }
    }
}

/// How long the first pair lasts; `most` is the longest that it may last, and each of the two lasts.
fn pair(pairs: &[u32], most: u32, refusal: Refusal) -> Result<u32, Refusal> {
    let Some(&high) = pairs.first() else {
        return Err(Refusal::Unfinished);
    };
    if high == 0 || high >= most {
        return Err(refusal);
    }
    match pairs.get(1) {
        None => Err(Refusal::Unfinished),
        Some(0) => Err(refusal),
        Some(low) => Ok(high + low),
    }
}

/// Reads the header and the bits of a frame.
fn decode(intervals: &[u32], bits: &mut Vec<bool>) -> Result<Header, Refusal> {
    bits.clear();
    let Some((delimiter, mut pairs)) = intervals.split_first() else {
        return Err(Refusal::Unfinished);
    };
    if !(11_875..=13_125).contains(delimiter) {
        return Err(Refusal::Delimiter);
    }
    let tari = pair(pairs, 25_000, Refusal::Tari)?;
    if !(6_250..=25_000).contains(&tari) {
        return Err(Refusal::Tari);
    }
    pairs = &pairs[2..];
    let rtcal = pair(pairs, 3 * tari, Refusal::RtCal)?;
    if 2 * rtcal < 5 * tari || rtcal > 3 * tari {
        return Err(Refusal::RtCal);
    }
    pairs = &pairs[2..];
    let trcal = trcal(pairs, rtcal)?;
    if trcal.is_some() {
        pairs = &pairs[2..];
    }
    for (place, symbol) in pairs.chunks(2).enumerate() {
        let bad = |behind| Refusal::Symbol(intervals.len() - pairs.len() + 2 * place + behind);
        match *symbol {
            [high, low] if high > 0 && low > 0 && high + low <= 4 * rtcal => {
                bits.push(2 * (high + low) >= rtcal)
            }
            [high] if high > 0 && high < 4 * rtcal => return Err(Refusal::Unfinished),
            [high, _] if high > 0 && high < 4 * rtcal => return Err(bad(1)),
            _ => return Err(bad(0)),
        }
    }
    Ok(Header { tari, rtcal, trcal })
}

/// The length of TRcal, where the pair behind RTcal is one: a longer pair than RTcal.
fn trcal(pairs: &[u32], rtcal: u32) -> Result<Option<u32>, Refusal> {
    if let [high, others @ ..] = pairs {
        if *high == 0 {
            return Err(Refusal::Symbol(5));
        }
        if *high < 3 * rtcal && others.first() == Some(&0) {
            return Err(Refusal::Symbol(6));
        }
        let sum = pair(pairs, 3 * rtcal, Refusal::TrCal)?;
        if sum > rtcal {
            let fits = 11 * rtcal <= 10 * sum && sum <= 3 * rtcal;
            return if fits {
                Ok(Some(sum))
            } else {
                Err(Refusal::TrCal)
            };
        }
    }
    Ok(None)
}
