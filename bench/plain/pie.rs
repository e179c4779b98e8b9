//! Frames of a command as intervals of pulse-interval encoding (6.3.1.2).

/// The lengths of a link, in nanoseconds.
#[derive(Clone, Copy)]
pub struct Timing {
    pub tari: u32,
    pub rtcal: u32,
    pub trcal: u32,
    /// The length of each low but the delimiter.
    pub pw: u32,
}

impl Timing {
    /// The intervals of data-0 and of data-1.
    pub fn symbols(&self) -> [[u32; 2]; 2] {
        [self.tari, self.rtcal - self.tari].map(|length| self.symbol(length))
    }

    /// High and low of a symbol of this length.
    fn symbol(&self, length: u32) -> [u32; 2] {
        [length - self.pw, self.pw]
    }

    /// The name of the first length that is out of its range (6.3.1.2.3, 6.3.1.2.8).
    pub fn first_out_of_range(&self) -> Option<&'static str> {
        let Timing { tari, rtcal, trcal, pw } = *self;
        if !(6_250..=25_000).contains(&tari) {
            Some("tari")
        } else if 2 * rtcal < 5 * tari || rtcal > 3 * tari {
            Some("rtcal")
        } else if 10 * trcal < 11 * rtcal || trcal > 3 * rtcal {
            Some("trcal")
        } else if pw < 2_000 || 1_000 * pw < 265 * tari || 1_000 * pw > 525 * tari {
            Some("pw")
        } else {
            None
        }
    }
}

pub const DELIMITER: u32 = 12_500;

/// Gives each symbol of the frame of the bits behind its delimiter, high and low, as it is made.
#[inline]
pub fn send_symbols(timing: &Timing, preamble: bool, bits: &[bool], mut give: impl FnMut([u32; 2])) {
    give(timing.symbol(timing.tari));
    give(timing.symbol(timing.rtcal));
    if preamble {
        give(timing.symbol(timing.trcal));
    }
    let symbols = timing.symbols();
    bits.iter().for_each(|&bit| give(symbols[usize::from(bit)]));
}

/// Writes the frame of the bits as a whole: delimiter, data-0, RTcal, TRcal where there is a preamble, and the bits.
pub fn encode_frame(timing: &Timing, preamble: bool, bits: &[bool], intervals: &mut Vec<u32>) {
    intervals.clear();
    intervals.push(DELIMITER);
    intervals.extend(timing.symbol(timing.tari));
    intervals.extend(timing.symbol(timing.rtcal));
    if preamble {
        intervals.extend(timing.symbol(timing.trcal));
    }
    let symbols = timing.symbols();
    let start = intervals.len();
    intervals.resize(start + 2 * bits.len(), 0);
    for (pair, &bit) in intervals[start..].as_chunks_mut().0.iter_mut().zip(bits) {
        *pair = symbols[usize::from(bit)];
    }
}

/// Reads the data bits of a frame back, as a tag does: from its own Tari, RTcal and TRcal. It answers whether it is a frame.
pub fn decode_frame(intervals: &[u32], bits: &mut Vec<bool>) -> bool {
    bits.clear();
    let [delimiter, pairs @ ..] = intervals else { return false };
    let ([tari, rtcal, symbols @ ..], []) = pairs.as_chunks::<2>() else { return false };
    let sum = |&[high, low]: &[u32; 2]| high + low;
    let (tari, rtcal, mut symbols) = (sum(tari), sum(rtcal), symbols);
    let is_header = (11_875..=13_125).contains(delimiter)
        && (6_250..=25_000).contains(&tari)
        && 2 * rtcal >= 5 * tari
        && rtcal <= 3 * tari;
    if !is_header {
        return false;
    }
    if let [first, others @ ..] = symbols {
        let first = sum(first);
        if first > rtcal {
            if 10 * first < 11 * rtcal || first > 3 * rtcal {
                return false;
            }
            symbols = others;
        }
    }
    bits.extend(symbols.iter().map(|symbol| 2 * sum(symbol) >= rtcal));
    symbols.iter().fold(true, |fits, symbol| fits & (sum(symbol) <= 4 * rtcal))
}
