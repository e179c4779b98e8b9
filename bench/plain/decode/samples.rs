//! Samples of a captured wave, and the levels that they stand for.

use super::fields::{number, push_digits, push_number};
use super::Fault;
use crate::line_code::digit;

/// The most samples of a line, and the most of a level.
const MOST_SAMPLES: usize = 132_000;
const MOST_PER_LEVEL: u64 = 64;

/// The value of each byte as a hexadecimal digit, and 255 where it is none.
const DIGIT_VALUES: [u8; 256] = digit_values();

const fn digit_values() -> [u8; 256] {
    let mut values = [255; 256];
    let mut value = 0;
    while value < 16 {
        values[b"0123456789ABCDEF"[value] as usize] = value as u8;
        values[b"0123456789abcdef"[value] as usize] = value as u8;
        value += 1;
    }
    values
}

/// Adds the levels of the samples, or the place of the first group that is none.
pub fn answer(
    threshold: &[u8],
    per_level: &[u8],
    digits: &[u8],
    samples: &mut Vec<u8>,
    levels: &mut Vec<u8>,
    output: &mut Vec<u8>,
) -> Result<(), Fault> {
    let threshold = number(threshold, 255)? as u8;
    let per_level = number(per_level, MOST_PER_LEVEL)? as usize;
    if per_level == 0 {
        return Err(Fault::Number);
    }
    read_samples(digits, samples)?;
    levels.clear();
    let groups = samples.chunks_exact(per_level);
    let rest = groups.remainder();
    for (place, group) in groups.enumerate() {
        let level = group[0] >= threshold;
        if group.iter().any(|&sample| (sample >= threshold) != level) {
            output.extend_from_slice(b"mixed ");
            push_number(output, place * per_level);
            return Ok(());
        }
        levels.push(digit(level));
    }
    if rest.is_empty() {
        output.extend_from_slice(b"levels ");
        push_digits(output, levels);
    } else {
        output.extend_from_slice(b"rest ");
        push_number(output, samples.len() - rest.len());
    }
    Ok(())
}

/// Reads the samples that digits write, two a sample, in place of what the list has.
fn read_samples(digits: &[u8], samples: &mut Vec<u8>) -> Result<(), Fault> {
    samples.clear();
    if digits.len() % 2 != 0 || digits.len() / 2 > MOST_SAMPLES {
        return Err(Fault::Number);
    }
    let mut seen = 0;
    samples.extend(digits.chunks_exact(2).map(|pair| {
        let (high, low) = (
            DIGIT_VALUES[usize::from(pair[0])],
            DIGIT_VALUES[usize::from(pair[1])],
        );
        seen |= high | low;
        high << 4 | low
    }));
    if seen > 15 {
        return Err(Fault::Number);
    }
    Ok(())
}
