//! Makes the scenario of a seed, runs it, and tells its summary.

use std::fmt::Write;

use crate::scenario;
use crate::world;

/// PCG32: a linear congruential generator of 64 bits, whose words are its upper bits, shifted and rotated.
struct Pcg32 {
    state: u64,
}

/// Twice the stream 54, and 1.
const INCREMENT: u64 = 54 << 1 | 1;

impl Pcg32 {
    fn new(seed: u64) -> Pcg32 {
        let mut generator = Pcg32 { state: seed.wrapping_add(INCREMENT) };
        generator.step();
        generator
    }

    fn step(&mut self) {
        self.state = self.state.wrapping_mul(6_364_136_223_846_793_005).wrapping_add(INCREMENT);
    }

    fn next_word(&mut self) -> u32 {
        let shifted = ((self.state >> 18 ^ self.state) >> 27) as u32;
        let word = shifted.rotate_right((self.state >> 59) as u32);
        self.step();
        word
    }
}

/// The summary of the scenario of these two words, or none where they are no seed and no number of tags.
pub fn summary(seed: &str, tags: &str) -> Option<String> {
    let seed = number(seed)?;
    let tags = number(tags).filter(|&tags| tags <= 256)?;
    let scenario = scenario::read(&text(seed, tags)).ok()?;
    Some(world::summary(scenario))
}

/// The number that a word spells without leading zeros.
fn number(word: &str) -> Option<u64> {
    let number: u64 = word.parse().ok()?;
    (number.to_string() == word).then_some(number)
}

/// The text of the scenario.
fn text(seed: u64, tags: u64) -> String {
    let mut generator = Pcg32::new(seed);
    let mut text = String::from("gen2 1\nlink 12500 31250 50000 6250 1 m4 0\n");
    for tag in 0..tags {
        write!(text, "tag 00000000 00000000 0000000000 30003074257BF7194E400000{tag:04X} E200{tag:04X} - ").unwrap();
        for _ in 0..64 {
            write!(text, "{:04X}", generator.next_word() as u16).unwrap();
        }
        text.push('\n');
    }
    text.push_str("round all 0 a 6 300 10000\nend\n");
    text
}
