//! Streams of levels in FM0 and Miller, one level per half period of the backscatter link frequency (6.3.1.3). A level stands as
//! the digit that lines write of it.

#[derive(Clone, Copy)]
pub enum Code {
    Fm0,
    /// Miller with 2, 4 or 8 subcarrier cycles per symbol.
    Miller(usize),
}

/// What the block of a bit depends on.
#[derive(Clone, Copy, Default)]
struct Mark {
    /// FM0: the level before. Miller: the phase at the end of the symbol before.
    end: bool,
    /// Miller: the bit before.
    before: bool,
}

impl Mark {
    /// Its place in a table.
    fn place(self) -> usize {
        usize::from(self.end) << 1 | usize::from(self.before)
    }

    fn of_place(place: usize) -> Mark {
        Mark { end: place & 2 != 0, before: place & 1 != 0 }
    }
}

const FM0_PREAMBLE: &[u8; 12] = b"110100100011";
const MILLER_PREAMBLE: [bool; 6] = [false, true, false, true, true, true];
/// The bits that stand in the table together, and their number of values.
const TOGETHER: usize = 4;
const VALUES: usize = 1 << TOGETHER;
/// The bits of each value.
const BITS: [[bool; TOGETHER]; VALUES] = bits();

const fn bits() -> [[bool; TOGETHER]; VALUES] {
    let mut bits = [[false; TOGETHER]; VALUES];
    let mut at = 0;
    while at < TOGETHER * VALUES {
        bits[at / TOGETHER][at % TOGETHER] = at / TOGETHER >> (TOGETHER - 1 - at % TOGETHER) & 1 == 1;
        at += 1;
    }
    bits
}

/// A code with a table of its blocks.
#[derive(Clone)]
pub struct LineCode {
    code: Code,
    /// The number of levels per bit.
    count: usize,
    /// The blocks of four bits, one behind the other, by what the first depends on and by their value.
    blocks: Vec<u8>,
    /// What the bit behind them depends on.
    next: [[Mark; VALUES]; 4],
    /// Pilot and preamble without and with the pilot, and what the first bit depends on.
    leads: [Vec<u8>; 2],
    begin: Mark,
}

impl LineCode {
    pub fn new(code: Code) -> LineCode {
        let mut blocks = Vec::new();
        let mut next = [[Mark::default(); VALUES]; 4];
        for (place, next) in next.iter_mut().enumerate() {
            for (bits, next) in BITS.iter().zip(next) {
                *next = push_blocks(code, Mark::of_place(place), bits, &mut blocks);
            }
        }
        let (plain, begin) = lead(code, false);
        LineCode {
            code,
            count: match code {
                Code::Fm0 => 2,
                Code::Miller(cycles) => 2 * cycles,
            },
            blocks,
            next,
            leads: [plain, lead(code, true).0],
            begin,
        }
    }

    /// The field M of a Query.
    pub fn field(&self) -> u32 {
        match self.code {
            Code::Fm0 => 0,
            Code::Miller(cycles) => cycles.trailing_zeros(),
        }
    }

    /// The block of one bit, and what the next depends on. Its bit is the first of those in the table.
    fn block(&self, mark: Mark, bit: bool) -> (&[u8], Mark) {
        let place = mark.place() * VALUES + if bit { VALUES / 2 } else { 0 };
        (&self.blocks[place * TOGETHER * self.count..][..self.count], behind(self.code, mark, bit).1)
    }

    /// The blocks of four bits.
    #[inline]
    fn blocks<const LEVELS: usize>(&self, mark: Mark, value: usize) -> &[u8; LEVELS] {
        &self.blocks.as_chunks().0[mark.place() * VALUES + value]
    }

    /// Writes the stream of the bits: lead, a block per bit, and the block of the dummy 1.
    pub fn encode(&self, trext: bool, bits: &[bool], levels: &mut Vec<u8>) {
        levels.clear();
        levels.extend_from_slice(&self.leads[usize::from(trext)]);
        let (fours, rest) = bits.as_chunks();
        let mut mark = match self.count {
            2 => self.push_fours::<8>(fours, levels),
            4 => self.push_fours::<16>(fours, levels),
            8 => self.push_fours::<32>(fours, levels),
            _ => self.push_fours::<64>(fours, levels),
        };
        for &bit in rest.iter().chain([&true]) {
            let (block, next) = self.block(mark, bit);
            levels.extend_from_slice(block);
            mark = next;
        }
    }

    fn push_fours<const LEVELS: usize>(&self, fours: &[[bool; TOGETHER]], levels: &mut Vec<u8>) -> Mark {
        levels.reserve((fours.len() + 1) * LEVELS);
        fours.iter().fold(self.begin, |mark, four| {
            let value = four.iter().fold(0, |value, &bit| value << 1 | usize::from(bit));
            levels.extend_from_slice(self.blocks::<LEVELS>(mark, value));
            self.next[mark.place()][value]
        })
    }

    /// Reads the bits of a stream.
    pub fn decode(&self, trext: bool, levels: &[u8], bits: &mut Vec<bool>) -> Result<(), Refusal> {
        bits.clear();
        let lead = &self.leads[usize::from(trext)];
        let Some(data) = levels.strip_prefix(lead.as_slice()) else {
            return Err(refusal(0, levels, &[lead]));
        };
        let mut mark = match self.count {
            2 => self.take_fours::<8>(data, bits),
            4 => self.take_fours::<16>(data, bits),
            8 => self.take_fours::<32>(data, bits),
            _ => self.take_fours::<64>(data, bits),
        };
        // What is left are less than four blocks, or four of which one is none.
        for block in data[bits.len() * self.count..].chunks(self.count) {
            let bit = block.get(self.count / 2).is_some_and(|&middle| self.bit_of(block[0], middle));
            let (wanted, next) = self.block(mark, bit);
            if wanted != block {
                let both = [self.block(mark, false).0, self.block(mark, true).0];
                return Err(refusal(lead.len() + bits.len() * self.count, block, &both));
            }
            bits.push(bit);
            mark = next;
        }
        // The dummy 1 ends the stream.
        match bits.pop() {
            Some(true) => Ok(()),
            _ => Err(Refusal::Unfinished(levels.len())),
        }
    }

    /// Reads bits, four at a time, as far as their blocks stand there.
    fn take_fours<const LEVELS: usize>(&self, data: &[u8], bits: &mut Vec<bool>) -> Mark {
        let is_fm0 = matches!(self.code, Code::Fm0);
        let mut mark = self.begin;
        bits.reserve(data.len() / LEVELS * TOGETHER);
        for levels in data.as_chunks::<LEVELS>().0 {
            let count = LEVELS / TOGETHER;
            // A level is 0 or 1 by its last bit. In FM0 it is the 0 whose level turns, in Miller the 1 whose phase does.
            let turns = (0..TOGETHER).fold(0, |turns, place| {
                turns << 1 | usize::from((levels[place * count] ^ levels[place * count + count / 2]) & 1)
            });
            let value = if is_fm0 { turns ^ (VALUES - 1) } else { turns };
            if levels != self.blocks::<LEVELS>(mark, value) {
                break;
            }
            bits.extend_from_slice(&BITS[value]);
            mark = self.next[mark.place()][value];
        }
        mark
    }

    /// The bit of a block, by its first level and that in its middle.
    fn bit_of(&self, first: u8, middle: u8) -> bool {
        (first == middle) == matches!(self.code, Code::Fm0)
    }
}

/// The first level or phase of a bit's block, and what the next bit depends on.
fn behind(code: Code, mark: Mark, bit: bool) -> (bool, Mark) {
    let (start, end) = match code {
        Code::Fm0 => (!mark.end, mark.end != bit),
        Code::Miller(_) => {
            let start = mark.end != (!bit && !mark.before);
            (start, start != bit)
        }
    };
    (start, Mark { end, before: bit })
}

/// Adds the blocks of the bits, and answers what the next bit depends on.
fn push_blocks(code: Code, mark: Mark, bits: &[bool], levels: &mut Vec<u8>) -> Mark {
    bits.iter().fold(mark, |mark, &bit| {
        let (start, next) = behind(code, mark, bit);
        match code {
            Code::Fm0 => levels.extend([start, start == bit].map(digit)),
            Code::Miller(cycles) => {
                push_carrier(start, cycles, levels);
                push_carrier(start != bit, cycles, levels);
            }
        }
        next
    })
}

/// Pilot and preamble, and what the first bit depends on.
fn lead(code: Code, trext: bool) -> (Vec<u8>, Mark) {
    match code {
        Code::Fm0 => {
            let mut levels = b"10".repeat(if trext { 12 } else { 0 });
            levels.extend(FM0_PREAMBLE);
            (levels, Mark { end: true, before: true })
        }
        Code::Miller(cycles) => {
            let mut levels = b"10".repeat(cycles * if trext { 16 } else { 4 });
            // The first 0 of the preamble goes on without inversion, as after a 1.
            let start = Mark { end: false, before: true };
            let begin = push_blocks(code, start, &MILLER_PREAMBLE, &mut levels);
            (levels, begin)
        }
    }
}

/// Adds half a symbol of the carrier, inverted where the phase is 1.
fn push_carrier(phase: bool, cycles: usize, levels: &mut Vec<u8>) {
    levels.extend((0..cycles).map(|place| digit((place % 2 == 0) != phase)));
}

/// The digit of a level.
pub fn digit(level: bool) -> u8 {
    b'0' + u8::from(level)
}

/// Why levels are no stream.
pub enum Refusal {
    /// The levels before this place begin a stream, and with the level there they begin none.
    Invalid(usize),
    /// All so many levels begin a stream, and are none.
    Unfinished(usize),
}

/// Why the levels from this place on are none of those that may stand there.
fn refusal(start: usize, levels: &[u8], wanted: &[&[u8]]) -> Refusal {
    let common = |other: &&[u8]| levels.iter().zip(*other).take_while(|(a, b)| a == b).count();
    let count = wanted.iter().map(common).max().unwrap_or(0);
    if count == levels.len() {
        Refusal::Unfinished(start + count)
    } else {
        Refusal::Invalid(start + count)
    }
}
