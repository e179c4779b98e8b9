//! Lists of bits, most significant first, and the two check numbers of the air interface.

/// The bits of each octet.
const OCTETS: [[bool; 8]; 256] = octets();
/// What eight bits do to a CRC-16 register, and what they do with eight bits 0 behind them.
const CRC_16: [[u16; 256]; 2] = [crc_16_table(8), crc_16_table(16)];
/// What four bits do to a CRC-5 register.
const CRC_5: [u32; 16] = crc_5_table();

const fn octets() -> [[bool; 8]; 256] {
    let mut octets = [[false; 8]; 256];
    let mut at = 0;
    while at < 8 * 256 {
        octets[at / 8][at % 8] = at / 8 >> (7 - at % 8) & 1 == 1;
        at += 1;
    }
    octets
}

const fn crc_16_table(steps: u32) -> [u16; 256] {
    let mut table = [0; 256];
    let mut octet = 0;
    while octet < 256 {
        let mut register = (octet as u16) << 8;
        let mut step = 0;
        while step < steps {
            register = (register << 1) ^ if register >> 15 == 1 { 0x1021 } else { 0 };
            step += 1;
        }
        table[octet] = register;
        octet += 1;
    }
    table
}

const fn crc_5_table() -> [u32; 16] {
    let mut table = [0; 16];
    let mut bits = 0;
    while bits < 16 {
        let mut register = (bits as u32) << 1;
        let mut step = 0;
        while step < 4 {
            register = (register << 1 & 0b11111) ^ if register >> 4 & 1 == 1 { 0b01001 } else { 0 };
            step += 1;
        }
        table[bits] = register;
        bits += 1;
    }
    table
}

/// Appends the last `width` bits of `value`.
#[inline]
pub fn push_field(bits: &mut Vec<bool>, value: u32, width: u32) {
    let octets = width / 8;
    bits.extend((8 * octets..width).rev().map(|place| value >> place & 1 == 1));
    for octet in (0..octets).rev() {
        bits.extend_from_slice(&OCTETS[(value >> (8 * octet) & 0xFF) as usize]);
    }
}

/// Appends the 16 bits of each word.
pub fn push_words(bits: &mut Vec<bool>, words: &[u16]) {
    for &word in words {
        push_field(bits, u32::from(word), 16);
    }
}

/// The number that eight bits spell. The factor moves each of them to its place in the upper octet, and none onto another.
#[inline]
fn octet_of(bits: &[bool; 8]) -> u32 {
    (u64::from_le_bytes(bits.map(u8::from)).wrapping_mul(0x8040_2010_0804_0201) >> 56) as u32
}

/// The number that sixteen bits spell.
#[inline]
fn word_of(bits: &[bool; 16]) -> u16 {
    let (octets, _) = bits.as_chunks();
    (octet_of(&octets[0]) << 8 | octet_of(&octets[1])) as u16
}

/// The number that the bits spell.
#[inline]
pub fn value_of(bits: &[bool]) -> u32 {
    let (octets, rest) = bits.as_chunks();
    let value = octets.iter().fold(0, |value, octet| value << 8 | octet_of(octet));
    rest.iter().fold(value, |value, &bit| value << 1 | u32::from(bit))
}

/// The words that the bits spell, 16 bits each.
pub fn words_of(bits: &[bool]) -> impl Iterator<Item = u16> + '_ {
    bits.as_chunks().0.iter().map(word_of)
}

/// The CRC-5 of the bits, as it is sent (annex F).
pub fn crc5(bits: &[bool]) -> u32 {
    let (fours, rest) = bits.as_chunks::<4>();
    let register = fours.iter().fold(0b01001, |register, four| {
        CRC_5[(register >> 1 ^ value_of(four)) as usize] ^ (register << 4 & 0b10000)
    });
    crc5_behind(register, value_of(rest), rest.len() as u32)
}

/// A CRC-16 register behind sixteen more bits.
fn behind_word(register: u16, word: u16) -> u16 {
    let [upper, lower] = (register ^ word).to_be_bytes();
    CRC_16[1][usize::from(upper)] ^ CRC_16[0][usize::from(lower)]
}

/// A CRC-16 register behind the last `width` bits of the number.
pub fn crc16_behind(register: u16, number: u32, width: u32) -> u16 {
    if width == 16 {
        return behind_word(register, number as u16);
    }
    (0..width).rev().fold(register, |register, place| {
        let feedback = u32::from(register >> 15) != number >> place & 1;
        (register << 1) ^ if feedback { 0x1021 } else { 0 }
    })
}

/// A CRC-5 register behind the last `width` bits of the number.
pub fn crc5_behind(register: u32, number: u32, width: u32) -> u32 {
    (0..width).rev().fold(register, |register, place| {
        let feedback = register >> 4 != number >> place & 1;
        (register << 1 & 0b11111) ^ if feedback { 0b01001 } else { 0 }
    })
}

/// The CRC-16 of the bits of words.
pub fn crc16_of_words(words: &[u16]) -> u16 {
    !words.iter().copied().fold(0xFFFF, behind_word)
}

/// The CRC-16 of the bits, as it is sent: complemented (annex F).
pub fn crc16(bits: &[bool]) -> u16 {
    let (words, rest) = bits.as_chunks();
    let register = words.iter().map(word_of).fold(0xFFFF, behind_word);
    let (octets, rest) = rest.as_chunks();
    let register = octets.iter().fold(register, |register, octet| {
        CRC_16[0][usize::from(register >> 8) ^ octet_of(octet) as usize] ^ register << 8
    });
    !crc16_behind(register, value_of(rest), rest.len() as u32)
}

/// Appends the CRC-16 of all bits before it, from this place on.
pub fn push_crc16(bits: &mut Vec<bool>, start: usize) {
    let crc = crc16(&bits[start..]);
    push_field(bits, u32::from(crc), 16);
}

/// The bits before a right CRC-16 at the end.
pub fn without_crc16(bits: &[bool]) -> Option<&[bool]> {
    let (body, crc) = bits.split_last_chunk()?;
    (word_of(crc) == crc16(body)).then_some(body)
}
