//! The fields of a line, and how numbers, bits and words stand in them.

use super::Fault;

/// The digits of hexadecimal numbers.
const HEX_DIGITS: &[u8; 16] = b"0123456789ABCDEF";
/// The two digits of each octet in hexadecimal, and of each number up to 99 in decimal.
const HEX_PAIRS: [[u8; 2]; 256] = pairs(16);
const DECIMAL_PAIRS: [[u8; 2]; 100] = pairs(10);
/// The value of each upper-case hexadecimal digit, and 255 where a byte is none.
const HEX_VALUES: [u8; 256] = hex_values();

/// The most intervals of a line.
pub const MOST_INTERVALS: usize = 20_000;
/// The least number that so many digits write without a leading zero, which nothing is without digits. No interval has more digits.
const LEAST: [u32; 7] = [u32::MAX, 0, 10, 100, 1_000, 10_000, 100_000];

/// What fields are that have to be intervals.
pub struct Intervals {
    pub count: usize,
    pub has_empty: bool,
    pub are_numbers: bool,
}

const fn pairs<const N: usize>(base: usize) -> [[u8; 2]; N] {
    let mut pairs = [[0; 2]; N];
    let mut number = 0;
    while number < N {
        pairs[number] = [HEX_DIGITS[number / base], HEX_DIGITS[number % base]];
        number += 1;
    }
    pairs
}

const fn hex_values() -> [u8; 256] {
    let mut values = [255; 256];
    let mut value = 0;
    while value < 16 {
        values[HEX_DIGITS[value] as usize] = value as u8;
        value += 1;
    }
    values
}

/// The fields that are left of a line.
pub struct Fields<'a> {
    rest: Option<&'a [u8]>,
}

impl<'a> Fields<'a> {
    /// All fields of a line.
    pub fn new(line: &'a [u8]) -> Fields<'a> {
        Fields { rest: Some(line) }
    }

    /// The first field of a line, and the fields behind it.
    pub fn of_line(line: &'a [u8]) -> (&'a [u8], Fields<'a>) {
        let mut fields = Fields::new(line);
        let first = fields.next().unwrap_or_default();
        (first, fields)
    }

    /// All fields that are left, where they are so many and none is empty. The last may be long, so it is looked through at once.
    pub fn exactly<const N: usize>(mut self) -> Result<[&'a [u8]; N], Fault> {
        let mut fields = [&[][..]; N];
        let (last, others) = fields.split_last_mut().ok_or(Fault::Shape)?;
        for field in others {
            *field = self.next().ok_or(Fault::Shape)?;
        }
        *last = self.rest.ok_or(Fault::Shape)?;
        if last.contains(&b' ') || fields.iter().any(|field| field.is_empty()) {
            return Err(Fault::Shape);
        }
        Ok(fields)
    }
}

impl Fields<'_> {
    /// The intervals that are left, in place of what the list has.
    pub fn read_intervals(self, intervals: &mut Vec<u32>) -> Intervals {
        intervals.clear();
        let mut read = Intervals { count: 0, has_empty: false, are_numbers: true };
        let mut rest = self.rest;
        while let Some(text) = rest {
            let (interval, length) = leading_number(text);
            read.count += 1;
            read.has_empty |= matches!(text.first(), None | Some(b' '));
            read.are_numbers &= LEAST.get(length).is_some_and(|&least| interval >= least) && matches!(text.get(length), None | Some(b' '));
            if read.are_numbers && read.count <= MOST_INTERVALS {
                intervals.push(interval);
            }
            let end = if read.are_numbers { length } else { text.iter().position(|&byte| byte == b' ').unwrap_or(text.len()) };
            rest = text.get(end + 1..);
        }
        read
    }

    /// Nothing, where no field is left.
    pub fn end(self) -> Result<(), Fault> {
        self.rest.map_or(Ok(()), |_| Err(Fault::Shape))
    }
}

impl<'a> Iterator for Fields<'a> {
    type Item = &'a [u8];

    fn next(&mut self) -> Option<&'a [u8]> {
        let line = self.rest?;
        match line.iter().position(|&byte| byte == b' ') {
            Some(end) => {
                self.rest = Some(&line[end + 1..]);
                Some(&line[..end])
            }
            None => {
                self.rest = None;
                Some(line)
            }
        }
    }
}

/// The number that the digits at the front write, and how many they are.
#[inline]
fn leading_number(text: &[u8]) -> (u32, usize) {
    let (mut number, mut length) = (0_u32, 0);
    while let Some(digit @ b'0'..=b'9') = text.get(length) {
        number = number.wrapping_mul(10).wrapping_add(u32::from(digit - b'0'));
        length += 1;
    }
    (number, length)
}

/// The place of a line code in the table, by its name.
pub fn code_of(name: &[u8]) -> Option<usize> {
    [&b"fm0"[..], b"m2", b"m4", b"m8"]
        .iter()
        .position(|&code| code == name)
}

pub fn one_bit(field: &[u8]) -> Result<bool, Fault> {
    match field {
        b"0" => Ok(false),
        b"1" => Ok(true),
        _ => Err(Fault::Number),
    }
}

/// The number up to `most` that decimal digits without leading zeros write.
pub fn number(field: &[u8], most: u64) -> Result<u64, Fault> {
    if field.is_empty() || field.len() > 12 || (field[0] == b'0' && field.len() > 1) {
        return Err(Fault::Number);
    }
    let mut value = 0;
    for &digit in field {
        if !digit.is_ascii_digit() {
            return Err(Fault::Number);
        }
        value = value * 10 + u64::from(digit - b'0');
    }
    if value <= most {
        Ok(value)
    } else {
        Err(Fault::Number)
    }
}

/// At most `most` digits 0 and 1, as they stand; a hyphen is none of them.
pub fn digits_of(field: &[u8], most: usize) -> Result<&[u8], Fault> {
    if field == b"-" {
        return Ok(&[]);
    }
    // A 0 and a 1 differ in their last bit alone.
    let is_good = field.len() <= most && field.iter().fold(true, |good, &digit| good & (digit | 1 == b'1'));
    if is_good { Ok(field) } else { Err(Fault::Number) }
}

/// Reads at most `most` bits, in place of what the list has.
pub fn read_bits(field: &[u8], most: usize, bits: &mut Vec<bool>) -> Result<(), Fault> {
    bits.clear();
    bits.extend(digits_of(field, most)?.iter().map(|&digit| digit == b'1'));
    Ok(())
}

/// The word that four upper-case hexadecimal digits write.
pub fn word(digits: &[u8]) -> Option<u16> {
    let &[a, b, c, d] = digits else { return None };
    let [a, b, c, d] = [a, b, c, d].map(|digit| u16::from(HEX_VALUES[usize::from(digit)]));
    (a | b | c | d < 16).then_some(a << 12 | b << 8 | c << 4 | d)
}

pub fn push_bits(output: &mut Vec<u8>, bits: &[bool]) {
    if bits.is_empty() {
        output.push(b'-');
    }
    output.extend(bits.iter().map(|&bit| b'0' + u8::from(bit)));
}

/// Writes digits 0 and 1, or a hyphen for none.
pub fn push_digits(output: &mut Vec<u8>, digits: &[u8]) {
    output.extend_from_slice(if digits.is_empty() { b"-" } else { digits });
}

pub fn push_number(output: &mut Vec<u8>, mut number: usize) {
    let mut digits = [0; 20];
    let mut start = digits.len();
    while number >= 10 {
        start -= 2;
        digits[start..start + 2].copy_from_slice(&DECIMAL_PAIRS[number % 100]);
        number /= 100;
    }
    // What is left is the first digit, or 0 behind an even number of digits.
    if number > 0 || start == digits.len() {
        start -= 1;
        digits[start] = HEX_DIGITS[number];
    }
    output.extend_from_slice(&digits[start..]);
}

pub fn push_word(output: &mut Vec<u8>, word: u16) {
    let [upper, lower] = word.to_be_bytes().map(|octet| HEX_PAIRS[usize::from(octet)]);
    output.extend_from_slice(&[upper[0], upper[1], lower[0], lower[1]]);
}

/// Writes words without anything between them.
pub fn push_hex_words(output: &mut Vec<u8>, words: &[u16]) {
    output.reserve(4 * words.len());
    for &word in words {
        push_word(output, word);
    }
}

/// Writes words without anything between them, or a hyphen for none.
pub fn push_words(output: &mut Vec<u8>, words: impl IntoIterator<Item = u16>) {
    let start = output.len();
    for word in words {
        push_word(output, word);
    }
    if output.len() == start {
        output.push(b'-');
    }
}

/// Writes the last `count` hexadecimal digits of a number.
pub fn push_hex(output: &mut Vec<u8>, number: u32, count: u32) {
    output.extend(
        (0..count)
            .rev()
            .map(|place| HEX_DIGITS[(number >> (4 * place) & 15) as usize]),
    );
}
