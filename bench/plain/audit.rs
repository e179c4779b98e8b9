//! Audits a trace as `gen2run audit` does.

use crate::command::Command;
use crate::decode::fields::{digits_of, Fields, MOST_INTERVALS};
use crate::pie;
use crate::scenario::{self, Step};
use crate::world::{push_list, write_tag, Form, World};

/// The most levels of a line.
const MOST_LEVELS: usize = 132_000;

/// Where the trace stands.
#[derive(PartialEq)]
enum Place {
    Begun,
    Between,
    /// Behind a line `tx`; here is whether the channel gave levels.
    Sending(bool),
    /// A list line must stand here: the one in `Auditor::expected`.
    Listing,
    /// Behind so many lines of tags.
    Telling(usize),
    Ended,
}

struct Auditor {
    world: World,
    place: Place,
    /// Whether the last line `tx` was an ACK.
    is_ack: bool,
    rounds: u32,
    slots: u32,
    expected: Vec<u8>,
}

/// The verdict on the trace behind the scenario, or the number of the scenario's first line that can't be read.
pub fn verdict(text: &str) -> Result<Vec<u8>, usize> {
    let end = if text.starts_with("end\n") { Some(0) } else { text.find("\nend\n").map(|at| at + 1) };
    let (head, trace) = text.split_at(end.map_or(text.len(), |at| at + 4));
    let scenario = scenario::read(head)?;
    if scenario.steps.iter().any(|step| matches!(step, Step::Event(..))) {
        return Ok(b"no 0 event\n".to_vec());
    }
    let mut auditor = Auditor {
        world: World::new(scenario, Form::Plain),
        place: Place::Begun,
        is_ack: false,
        rounds: 0,
        slots: 0,
        expected: Vec::new(),
    };
    let mut lines = 1;
    for line in trace.split_inclusive('\n') {
        let reason = match line.strip_suffix('\n') {
            None => Err("end"),
            Some(line) => auditor.look(line),
        };
        if let Err(reason) = reason {
            return Ok(format!("no {lines} {reason}\n").into_bytes());
        }
        lines += 1;
    }
    Ok(if auditor.place == Place::Ended { b"yes\n".to_vec() } else { format!("no {lines} end\n").into_bytes() })
}

impl Auditor {
    /// Takes a line, or gives the reason for which it doesn't follow.
    fn look(&mut self, line: &str) -> Result<(), &'static str> {
        let (word, rest) = line.split_once(' ').map_or((line, None), |(word, rest)| (word, Some(rest)));
        match self.place {
            Place::Ended => return Err("extra"),
            Place::Begun => {
                self.place = Place::Between;
                return if is_line(&self.world.frequency(), line) { Ok(()) } else { Err("blf") };
            }
            Place::Listing => {
                self.place = Place::Between;
                return if is_line(&self.expected, line) { Ok(()) } else { Err("list") };
            }
            _ if word == "list" => return Err("list"),
            Place::Sending(gave) => return if word == "rx" { self.receive(rest.unwrap_or_default(), gave) } else { Err("word") },
            Place::Between | Place::Telling(_) => {}
        }
        match (word, &self.place) {
            ("tag" | "done", _) => self.tell(line),
            ("op" | "round" | "seen", Place::Between) => Ok(()),
            ("tx", Place::Between) => self.send(rest),
            _ => Err("word"),
        }
    }

    fn tell(&mut self, line: &str) -> Result<(), &'static str> {
        let told = if let Place::Telling(told) = self.place { told } else { 0 };
        self.expected.clear();
        match self.world.scenario.tags.tag(told) {
            Some(tag) => {
                write_tag(&mut self.expected, told, tag);
                self.place = Place::Telling(told + 1);
            }
            None => {
                self.expected.extend_from_slice(b"done\n");
                self.place = Place::Ended;
            }
        }
        if is_line(&self.expected, line) { Ok(()) } else { Err("tag") }
    }

    /// Reads the frame of a line `tx`, and lets the tags hear its command.
    fn send(&mut self, rest: Option<&str>) -> Result<(), &'static str> {
        let Some((exchange, intervals)) = rest.and_then(|rest| rest.split_once(' ')) else { return Err("shape") };
        let world = &mut self.world;
        let read = Fields::new(intervals.as_bytes()).read_intervals(&mut world.intervals);
        if read.count > MOST_INTERVALS {
            return Err("shape");
        }
        if !read.are_numbers || !is_decimal(exchange) {
            return Err("number");
        }
        world.exchanges += 1;
        if exchange.parse() != Ok(world.exchanges) {
            return Err("exchange");
        }
        if !pie::decode_frame(&world.intervals, &mut world.bits) {
            return Err("frame");
        }
        let command = Command::decode(&world.bits).ok_or("frame")?;
        // (behind a preamble the third symbol, TRcal, brings no bit)
        let has_preamble = world.intervals.len() == 7 + 2 * world.bits.len();
        if has_preamble != matches!(command, Command::Query(_)) {
            return Err("frame");
        }
        match command {
            Command::Query(_) => (self.rounds, self.slots) = (self.rounds + 1, 1),
            Command::QueryRep { .. } | Command::QueryAdjust { .. } if self.rounds > 0 => self.slots += 1,
            _ => {}
        }
        let entry = world.scenario.air.remove(&world.exchanges).unwrap_or_default();
        for &(tag, event) in &entry.events {
            world.scenario.tags.befall(tag, event);
        }
        world.scenario.tags.hear(&command, &entry.missed, &mut world.answers);
        self.is_ack = matches!(command, Command::Ack { .. });
        self.place = Place::Sending(world.propagate(entry.choice));
        Ok(())
    }

    /// Compares what a line `rx` says with what comes back.
    fn receive(&mut self, rest: &str, gave: bool) -> Result<(), &'static str> {
        let fields: Vec<&str> = rest.split(' ').collect();
        let [exchange, count, levels] = fields[..] else { return Err("shape") };
        let Some(levels) = digits_of(levels.as_bytes(), MOST_LEVELS).ok().filter(|_| is_decimal(exchange) && is_decimal(count)) else {
            return Err("number");
        };
        let world = &mut self.world;
        if exchange.parse() != Ok(world.exchanges) {
            return Err("exchange");
        }
        if count.parse() != Ok(world.answers.len()) {
            return Err("count");
        }
        if levels != if gave { &world.levels[..] } else { &[] } {
            return Err("levels");
        }
        self.place = Place::Between;
        let link = &world.scenario.link;
        let is_whole = gave && self.is_ack && link.code.decode(link.trext, &world.levels, &mut world.received).is_ok();
        if is_whole && world.take_listed() {
            self.expected.clear();
            push_list(&mut self.expected, self.rounds, self.slots, &world.listed);
            self.place = Place::Listing;
        }
        Ok(())
    }
}

/// Whether a line stands there, which is expected with its line feed.
fn is_line(expected: &[u8], line: &str) -> bool {
    expected.strip_suffix(b"\n") == Some(line.as_bytes())
}

/// Whether a field is decimal digits without leading zeros.
fn is_decimal(field: &str) -> bool {
    !field.is_empty() && field.bytes().all(|digit| digit.is_ascii_digit()) && (field == "0" || !field.starts_with('0'))
}
