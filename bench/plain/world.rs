//! Plays a scenario and writes its report.

use std::collections::HashMap;
use std::hash::{BuildHasherDefault, Hasher};
use std::io::{self, Stdout, Write};

use crate::access::Access;
use crate::bits::{value_of, without_crc16, words_of};
use crate::command::{Change, Command, Flag, Query};
use crate::decode::fields::{push_hex, push_hex_words, push_number, push_word};
use crate::operation::{ask_number, operate, read_reply};
use crate::operation::{Answer, Await, Exchange, Failure, Operations, Outcome};
use crate::hearing::{Edges, Framer};
use crate::pie;
use crate::json;
use crate::population::Answers;
use crate::scenario::{Choice, Round, Rule, Scenario, Several, Step};
use crate::tag::{State, Tag};
use crate::trace::{push_received, SymbolTexts};

/// What the interrogator makes of an exchange. The bits of a whole reply stand in `World::received`.
#[derive(Clone, Copy, PartialEq)]
enum Heard {
    Silence,
    Refused,
    Whole,
}

/// How often each pair of PC and EPC was listed, in the order in which they were first seen.
#[derive(Default)]
struct Seen {
    counts: Vec<(Vec<u16>, u32)>,
    places: HashMap<Vec<u16>, usize, BuildHasherDefault<WordsHasher>>,
}

impl Seen {
    fn count(&mut self, pc_and_epc: &[u16]) {
        match self.places.get(pc_and_epc) {
            Some(&place) => self.counts[place].1 += 1,
            None => {
                self.places.insert(pc_and_epc.to_vec(), self.counts.len());
                self.counts.push((pc_and_epc.to_vec(), 1));
            }
        }
    }
}

/// A quick sum over words, eight bytes at a time.
#[derive(Default)]
struct WordsHasher(u64);

impl Hasher for WordsHasher {
    fn write(&mut self, bytes: &[u8]) {
        let (eights, rest) = bytes.as_chunks();
        eights.iter().for_each(|&eight| self.write_u64(u64::from_le_bytes(eight)));
        rest.iter().for_each(|&byte| self.write_u64(u64::from(byte)));
    }

    fn write_u64(&mut self, number: u64) {
        self.0 = (self.0.rotate_left(5) ^ number).wrapping_mul(0x9E37_79B9_7F4A_7C15);
    }

    fn finish(&self) -> u64 {
        self.0 ^ self.0 >> 32
    }
}

/// So many bytes of a report are put out together.
const PIECE: usize = 1 << 18;

/// What is written of a run.
#[derive(Clone, Copy, PartialEq)]
pub enum Form {
    Plain,
    /// With intervals and levels.
    Trace,
    /// Each line as an object.
    Json,
}

pub struct World {
    pub scenario: Scenario,
    form: Form,
    symbols: SymbolTexts,
    /// What is written of the report and not put out yet.
    report: Vec<u8>,
    /// Where it is put out, and whether that went well; nowhere where the report isn't asked for.
    output: Option<Stdout>,
    written: io::Result<()>,
    pub exchanges: u32,
    seen: Seen,
    pub answers: Answers,
    pub bits: Vec<bool>,
    pub intervals: Vec<u32>,
    framer: Framer,
    pub levels: Vec<u8>,
    pub received: Vec<bool>,
    /// The PC and EPC received last.
    pub listed: Vec<u16>,
    /// What each round listed, PC and EPC, and whether it ended quiet; kept for portals alone.
    pub rounds: Option<Vec<(Vec<Vec<u16>>, bool)>>,
    /// The slots of all rounds, and whether each round ended quiet.
    slots: u32,
    quiet: bool,
}

/// Puts the report of the scenario out in this form.
pub fn play(scenario: Scenario, form: Form, output: Stdout) -> io::Result<()> {
    let mut world = play_steps(scenario, form, Some(output));
    world.write_end();
    world.put_out();
    world.written
}

/// What the run of the scenario counts.
pub fn summary(scenario: Scenario) -> String {
    let world = play_steps(scenario, Form::Plain, None);
    let tags = world.scenario.tags.len();
    let listed: u32 = world.seen.counts.iter().map(|(_, count)| count).sum();
    let distinct = world.seen.counts.len();
    let end = if world.quiet { "quiet" } else { "limit" };
    format!("tags {tags}\nlisted {listed}\ndistinct {distinct}\nslots {}\nend {end}\ndone\n", world.slots)
}

/// The world behind the steps of the scenario.
fn play_steps(mut scenario: Scenario, form: Form, output: Option<Stdout>) -> World {
    let steps = std::mem::take(&mut scenario.steps);
    let mut world = World::new(scenario, form);
    world.output = output;
    if form == Form::Trace {
        world.report = world.frequency();
    }
    world.play(steps.iter());
    world
}

impl World {
    pub fn new(scenario: Scenario, form: Form) -> World {
        World {
            symbols: SymbolTexts::new(&scenario.link.timing),
            scenario,
            form,
            report: Vec::new(),
            output: None,
            written: Ok(()),
            exchanges: 0,
            seen: Seen::default(),
            answers: Answers::default(),
            bits: Vec::new(),
            intervals: Vec::new(),
            framer: Framer::new(),
            levels: Vec::new(),
            received: Vec::new(),
            listed: Vec::new(),
            rounds: None,
            slots: 0,
            quiet: true,
        }
    }

    /// Plays the steps.
    pub fn play<'a>(&mut self, steps: impl Iterator<Item = &'a Step>) {
        let mut rounds = 0;
        for step in steps {
            match step {
                Step::Send(command) => {
                    self.exchange(command, false);
                }
                Step::Event(tag, event) => self.scenario.tags.befall(*tag, *event),
                Step::Round(round, operations) => {
                    rounds += 1;
                    self.play_round(rounds, round, operations);
                }
            }
        }
    }

    /// Puts out what is written of the report.
    fn put_out(&mut self) {
        if let (Some(output), Ok(())) = (&mut self.output, &self.written) {
            self.written = output.write_all(&self.report).and_then(|()| output.flush());
            self.report.clear();
        }
    }

    /// Sends a command over the link, lets each tag hear it that doesn't miss it, and receives what the channel gives, as a
    /// stream with the extended preamble where one is awaited.
    fn exchange(&mut self, command: &Command, extended: bool) -> Heard {
        self.exchanges += 1;
        let entry = self
            .scenario
            .air
            .remove(&self.exchanges)
            .unwrap_or_default();
        for &(tag, event) in &entry.events {
            self.scenario.tags.befall(tag, event);
        }
        self.send(command, &entry.missed);
        let gave = self.propagate(entry.choice);
        if self.form == Form::Trace {
            self.symbols.push_frame(&mut self.report, self.exchanges, &self.intervals);
            let levels = if gave { &self.levels[..] } else { &[] };
            push_received(&mut self.report, self.exchanges, self.answers.len(), levels);
        }
        if self.report.len() > PIECE {
            self.put_out();
        }
        let link = &self.scenario.link;
        if !gave {
            Heard::Silence
        } else {
            let trext = link.trext || extended;
            match link.code.decode(trext, &self.levels, &mut self.received) {
                Ok(()) => Heard::Whole,
                Err(_) => Heard::Refused,
            }
        }
    }

    /// Encodes the command as a frame, and gives the tags what the frame decodes to.
    fn send(&mut self, command: &Command, missed: &[usize]) {
        command.encode(&mut self.bits);
        let preamble = matches!(command, Command::Query(_));
        if cfg!(whole_frames) {
            self.send_whole(preamble, missed);
            return;
        }
        let World { scenario, bits, intervals, framer, answers, .. } = self;
        framer.begin();
        intervals.clear();
        intervals.push(pie::DELIMITER);
        let mut edges = Edges::behind(pie::DELIMITER);
        pie::send_symbols(&scenario.link.timing, preamble, bits, |symbol| {
            intervals.extend(symbol);
            if let Some(bit) = edges.push(symbol) {
                framer.push(bit);
            }
        });
        if edges.is_frame() {
            if let Some(command) = framer.command() {
                scenario.tags.hear(&command, missed, answers);
            }
        }
    }

    /// Writes the frame of the bits as a list, and reads the list.
    fn send_whole(&mut self, preamble: bool, missed: &[usize]) {
        pie::encode_frame(&self.scenario.link.timing, preamble, &self.bits, &mut self.intervals);
        if pie::decode_frame(&self.intervals, &mut self.bits) {
            if let Some(command) = Command::decode(&self.bits) {
                self.scenario.tags.hear(&command, missed, &mut self.answers);
            }
        }
    }

    /// Writes the levels that the channel gives of the answers, and answers whether it gives any.
    pub fn propagate(&mut self, choice: Option<Choice>) -> bool {
        let several = self.answers.len() > 1 && matches!(self.scenario.several, Several::Break);
        let (place, broken) = match choice {
            Some(Choice::Raw(levels)) => {
                self.levels = levels;
                return true;
            }
            None => (0, several.then_some(0)),
            Some(Choice::Pick(place)) => (place, None),
            Some(Choice::Silent) => return false,
            Some(Choice::Break(place)) => (0, Some(place)),
        };
        let Some((bits, is_extended)) = self.answers.get(place) else { return false };
        let link = &self.scenario.link;
        link.code.encode(link.trext || is_extended, bits, &mut self.levels);
        if let Some(place) = broken {
            let place = place % self.levels.len();
            // From 0 to 1, or back.
            self.levels[place] ^= 1;
        }
        true
    }

    /// Plays a round by its rule for Q.
    fn play_round(&mut self, number: u32, round: &Round, operations: &Operations) {
        if let Some(rounds) = &mut self.rounds {
            rounds.push((Vec::new(), false));
        }
        let (mut q, mut q_fp) = (round.q, 1000 * u32::from(round.q));
        let (mut slots, mut frame, mut refused, mut all_silent) = (0, 0_u32, 0_u32, true);
        let mut command = self.query(round);
        let step = if let Rule::Float(step) = round.rule { step } else { 0 };
        loop {
            let heard = self.exchange(&command, false);
            slots += 1;
            frame += 1;
            match heard {
                Heard::Silence => q_fp = q_fp.saturating_sub(step),
                Heard::Whole if self.received.len() == 16 => {
                    self.acknowledge(number, slots, operations);
                }
                Heard::Whole | Heard::Refused => {
                    q_fp = (q_fp + step).min(15_000);
                    refused += 1;
                }
            }
            all_silent &= heard == Heard::Silence;
            let whole_frame = frame == 1 << q;
            if whole_frame && all_silent {
                return self.write_round(number, "quiet", slots);
            }
            if slots == round.limit {
                return self.write_round(number, "limit", slots);
            }
            let wanted = match round.rule {
                Rule::Fixed => q,
                Rule::Float(_) => ((q_fp + 500) / 1000) as u8,
                Rule::Frame if !whole_frame => q,
                Rule::Frame if 2 * refused > frame => (q + 1).min(15),
                Rule::Frame if 4 * refused < frame => q.saturating_sub(1),
                Rule::Frame => q,
            };
            let change = match wanted.cmp(&q) {
                std::cmp::Ordering::Greater => Some(Change::Up),
                std::cmp::Ordering::Less => Some(Change::Down),
                std::cmp::Ordering::Equal => whole_frame.then_some(Change::Same),
            };
            command = match change {
                Some(change) => {
                    (q, frame, refused, all_silent) = (wanted, 0, 0, true);
                    Command::QueryAdjust {
                        session: round.session,
                        change,
                    }
                }
                None => Command::QueryRep {
                    session: round.session,
                },
            };
        }
    }

    fn query(&self, round: &Round) -> Command<'static> {
        let link = &self.scenario.link;
        Command::Query(Query {
            divide_ratio: link.divide_ratio,
            code: link.code.field(),
            trext: link.trext,
            sel: round.sel,
            session: round.session,
            target: round.target,
            q: round.q,
        })
    }

    /// Acknowledges the RN16 received, lists the PC and EPC that come back whole, and goes through the operations.
    fn acknowledge(&mut self, round: u32, slot: u32, operations: &Operations) {
        let rn = value_of(&self.received) as u16;
        if self.exchange(&Command::Ack { rn }, false) != Heard::Whole {
            return;
        }
        if !self.take_listed() {
            return;
        }
        if self.form == Form::Json {
            json::push_list(&mut self.report, round, slot, &self.listed);
        } else {
            push_list(&mut self.report, round, slot, &self.listed);
        }
        self.seen.count(&self.listed);
        if let Some(listed) = &mut self.rounds {
            listed[round as usize - 1].0.push(self.listed.clone());
        }
        self.operate(round, slot, operations, rn);
    }

    /// Takes PC and EPC from the bits received, and answers whether they are one with the other.
    pub fn take_listed(&mut self) -> bool {
        let Some(body) = without_crc16(&self.received) else { return false };
        self.listed.clear();
        self.listed.extend(words_of(body));
        let wanted = |&pc: &u16| body.len() == 16 * (1 + usize::from(pc >> 11));
        self.listed.first().is_some_and(wanted)
    }

    /// Goes through the operations with the tag that was acknowledged with this RN16.
    fn operate(&mut self, round: u32, slot: u32, operations: &Operations, rn: u16) {
        let denied = operations.only.as_ref().is_some_and(|only| *only != self.listed[1..]);
        let mut handle = None;
        for (index, operation) in (1..).zip(&operations.list) {
            let outcome = if denied {
                Outcome::Denied
            } else {
                let known = handle.map_or_else(|| ask_number(self, rn), Ok);
                handle = known.as_ref().ok().copied();
                match known.and_then(|handle| operate(self, operation, handle)) {
                    Ok(Answer::Words(words)) => Outcome::Ok(words),
                    Ok(Answer::Number(_)) => Outcome::Ok(Vec::new()),
                    Ok(Answer::Error(code)) => Outcome::Error(code),
                    Err(Failure::Silent) => Outcome::Silent,
                    Err(Failure::Broken) => Outcome::Broken,
                }
            };
            if self.form == Form::Json {
                json::push_op(&mut self.report, round, slot, index, &outcome);
            } else {
                push_numbers(&mut self.report, b"op", &[round, slot, index]);
                self.report.push(b' ');
                write_outcome(&mut self.report, &outcome);
            }
            if let Outcome::Silent | Outcome::Broken = outcome {
                return;
            }
        }
    }

    /// The line of the link's frequency.
    pub fn frequency(&self) -> Vec<u8> {
        let link = &self.scenario.link;
        let trcal = link.timing.trcal;
        let (above, below) = if link.divide_ratio == 1 {
            (64, 3 * trcal)
        } else {
            (8, trcal)
        };
        format!("blf {above}/{below}\n").into_bytes()
    }

    fn write_round(&mut self, number: u32, end: &str, slots: u32) {
        if self.form == Form::Json {
            json::push_round(&mut self.report, number, end, slots);
        } else {
            push_numbers(&mut self.report, b"round", &[number]);
            self.report.push(b' ');
            self.report.extend_from_slice(end.as_bytes());
            push_numbers(&mut self.report, b"", &[slots]);
            self.report.push(b'\n');
        }
        self.slots += slots;
        self.quiet &= end == "quiet";
        if let Some((_, is_quiet)) = self.rounds.as_mut().and_then(|rounds| rounds.last_mut()) {
            *is_quiet = end == "quiet";
        }
    }

    fn write_end(&mut self) {
        if self.form == Form::Json {
            for (pc_and_epc, count) in &self.seen.counts {
                json::push_seen(&mut self.report, *count, pc_and_epc);
            }
            for number in 0.. {
                let Some(tag) = self.scenario.tags.tag(number) else { break };
                json::push_tag(&mut self.report, number, tag);
            }
            return json::push_done(&mut self.report);
        }
        for (pc_and_epc, count) in &self.seen.counts {
            push_numbers(&mut self.report, b"seen", &[*count]);
            push_pc_and_epc(&mut self.report, pc_and_epc);
        }
        for number in 0.. {
            let Some(tag) = self.scenario.tags.tag(number) else { break };
            write_tag(&mut self.report, number, tag);
        }
        self.report.extend_from_slice(b"done\n");
    }
}

impl Exchange for World {
    fn exchange(&mut self, access: Access, awaited: Await, handle: u16) -> Result<Answer, Failure> {
        match World::exchange(self, &Command::Access(access), awaited.is_extended()) {
            Heard::Silence => Err(Failure::Silent),
            Heard::Refused => Err(Failure::Broken),
            Heard::Whole => read_reply(&self.received, awaited, handle).ok_or(Failure::Broken),
        }
    }
}

/// Adds a name and numbers, with a space before each.
fn push_numbers(report: &mut Vec<u8>, name: &[u8], numbers: &[u32]) {
    report.extend_from_slice(name);
    for &number in numbers {
        report.push(b' ');
        push_number(report, number as usize);
    }
}

fn write_outcome(report: &mut Vec<u8>, outcome: &Outcome) {
    match outcome {
        Outcome::Ok(words) if words.is_empty() => report.extend_from_slice(b"ok"),
        Outcome::Ok(words) => {
            report.extend_from_slice(b"ok ");
            push_hex_words(report, words);
        }
        Outcome::Error(code) => {
            report.extend_from_slice(b"error ");
            push_hex(report, u32::from(*code), 2);
        }
        Outcome::Silent => report.extend_from_slice(b"silent"),
        Outcome::Broken => report.extend_from_slice(b"broken"),
        Outcome::Denied => report.extend_from_slice(b"denied"),
    }
    report.push(b'\n');
}

/// The name of a state.
pub fn state_name(state: State) -> &'static str {
    match state {
        State::Off => "off",
        State::Killed => "killed",
        State::Ready => "ready",
        State::Arbitrate { .. } => "arbitrate",
        State::Reply { .. } => "reply",
        State::Acknowledged { .. } => "acknowledged",
        State::Held(held) if held.secured => "secured",
        State::Held(_) => "open",
    }
}

/// Writes the tag's flags.
pub fn push_flags(report: &mut Vec<u8>, tag: &Tag) {
    report.extend_from_slice(&tag.flags.map(|flag| if flag == Flag::A { b'A' } else { b'B' }));
    report.push(if tag.sl { b'1' } else { b'0' });
}

/// Writes the name of the tag's state, and its flags.
pub fn write_state_and_flags(report: &mut Vec<u8>, tag: &Tag) {
    report.extend_from_slice(state_name(tag.state).as_bytes());
    report.push(b' ');
    push_flags(report, tag);
}

/// Writes the line of a tag, as it is in the end.
pub fn write_tag(report: &mut Vec<u8>, number: usize, tag: &Tag) {
    push_numbers(report, b"tag", &[number as u32]);
    report.push(b' ');
    write_state_and_flags(report, tag);
    let memory = &tag.memory;
    report.push(b' ');
    report.extend_from_slice(&memory.locks.digits());
    for bank in [&memory.reserved, &memory.epc, &memory.tid, &memory.user] {
        report.push(b' ');
        push_words(report, bank);
    }
    report.push(b'\n');
}

fn push_words(report: &mut Vec<u8>, words: &[u16]) {
    if words.is_empty() {
        report.push(b'-');
    }
    push_hex_words(report, words);
}

/// Writes the line of what was listed.
pub fn push_list(report: &mut Vec<u8>, round: u32, slot: u32, pc_and_epc: &[u16]) {
    push_numbers(report, b"list", &[round, slot]);
    push_pc_and_epc(report, pc_and_epc);
}

fn push_pc_and_epc(report: &mut Vec<u8>, pc_and_epc: &[u16]) {
    report.push(b' ');
    push_word(report, pc_and_epc[0]);
    report.push(b' ');
    push_words(report, &pc_and_epc[1..]);
    report.push(b'\n');
}
