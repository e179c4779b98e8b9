//! Reads the text of a scenario. Forms are read, and a faulty line is told by its number alone.

use std::collections::BTreeMap;

use crate::access::{Password, Place};
use crate::command::{Bank, Command, Flag, Sel, Select, Target};
use crate::decode::fields::{digits_of, word};
use crate::line_code::{Code, LineCode};
use crate::locks::Locks;
use crate::memory::Memory;
use crate::operation::{Operation, Operations};
use crate::pie::Timing;
use crate::population::Population;
use crate::tag::{Event, Expiry, Tag};

#[derive(Clone)]
pub struct Link {
    pub timing: Timing,
    pub divide_ratio: u32,
    pub code: LineCode,
    pub trext: bool,
}

/// The most levels of a raw stream, as many as the longest reply has in Miller 8 with a pilot.
const MOST_LEVELS: usize = 131_968;

/// What the channel does with the replies of an exchange.
pub enum Choice {
    Pick(usize),
    Silent,
    Break(usize),
    /// These levels come, whether or not a tag replies.
    Raw(Vec<u8>),
}

/// What the scenario says of one exchange.
#[derive(Default)]
pub struct Entry {
    pub events: Vec<(usize, Event)>,
    pub missed: Vec<usize>,
    pub choice: Option<Choice>,
}

/// How Q follows what came in the slots.
#[derive(Clone, Copy)]
pub enum Rule {
    /// It stays.
    Fixed,
    /// It is the rounded Qfp, which each slot moves by so many thousandths.
    Float(u32),
    /// It is set anew behind each whole frame.
    Frame,
}

#[derive(Clone, Copy)]
pub struct Round {
    pub sel: Sel,
    pub session: u8,
    pub target: Flag,
    pub q: u8,
    pub rule: Rule,
    /// The most slots.
    pub limit: u32,
}

pub enum Step {
    Send(Command<'static>),
    Event(usize, Event),
    Round(Round, Operations),
}

/// What the channel gives of several replies where nothing is chosen.
#[derive(Clone, Copy)]
pub enum Several {
    /// The first one, broken.
    Break,
    /// The first one whole.
    Capture,
}

pub struct Scenario {
    pub link: Link,
    pub several: Several,
    pub tags: Population,
    /// By the number of the exchange, from 1.
    pub air: BTreeMap<u32, Entry>,
    pub steps: Vec<Step>,
}

/// The scenario, or the number of the first line that can't be read.
pub fn read(text: &str) -> Result<Scenario, usize> {
    let mut lines = (1..).zip(text.split_terminator('\n'));
    let (number, version) = lines.next().ok_or(1_usize)?;
    let is_first_version = match version {
        "gen2 1" => true,
        "gen2 2" => false,
        _ => return Err(number),
    };
    let (mut number, line) = lines.next().ok_or(2_usize)?;
    let link = read_link(line).ok_or(number)?;
    let mut several = Several::Break;
    if !is_first_version {
        let default = lines.next().ok_or(3_usize)?;
        number = default.0;
        several = match default.1 {
            "default break" => Several::Break,
            "default capture" => Several::Capture,
            _ => return Err(number),
        };
    }
    let mut scenario = Scenario {
        link,
        several,
        tags: Population::new(),
        air: BTreeMap::new(),
        steps: Vec::new(),
    };
    let mut last = number;
    while let Some((number, line)) = lines.next() {
        if line == "end" {
            return match lines.next() {
                Some((extra, _)) => Err(extra),
                None if text.ends_with('\n') => Ok(scenario),
                None => Err(number),
            };
        }
        scenario.read_line(line, is_first_version).ok_or(number)?;
        last = number;
    }
    Err(last + 1)
}

impl Scenario {
    fn read_line(&mut self, line: &str, is_first_version: bool) -> Option<()> {
        let (word, rest) = line.split_once(' ').unwrap_or((line, ""));
        let fields: Vec<&str> = rest.split(' ').collect();
        match word {
            "tag" => self.tags.push(read_tag(&fields)?),
            "copies" if !is_first_version => read_copies(&fields, &mut self.tags)?,
            "air" => self.read_air(&fields)?,
            "select" => self.steps.push(Step::Send(Command::Select(read_select(&fields)?))),
            "nak" if rest.is_empty() => self.steps.push(Step::Send(Command::Nak)),
            "event" => {
                let (tag, event) = self.read_event(&fields)?;
                self.steps.push(Step::Event(tag, event));
            }
            "round" => {
                let round = read_round(&fields, is_first_version)?;
                self.steps.push(Step::Round(round, Operations::default()));
            }
            "only" => {
                let operations = self.operations()?;
                let is_first = operations.only.is_none() && operations.list.is_empty();
                operations.only = Some(is_first.then(|| read_words(rest))??);
            }
            "op" => self.operations()?.list.push(read_operation(&fields)?),
            _ => return None,
        }
        Some(())
    }

    /// The operations of the round that is the last step.
    fn operations(&mut self) -> Option<&mut Operations> {
        match self.steps.last_mut()? {
            Step::Round(_, operations) => Some(operations),
            _ => None,
        }
    }

    fn read_tag_number(&self, field: &str) -> Option<usize> {
        field.parse().ok().filter(|&tag| tag < self.tags.len())
    }

    fn read_event(&self, fields: &[&str]) -> Option<(usize, Event)> {
        let (event, tag) = match fields {
            ["timeout", tag] => (Event::Timeout, tag),
            ["off", tag] => (Event::Off, tag),
            ["on", tag] => (Event::On, tag),
            ["expire", "s1", tag] => (Event::Expire(Expiry::S1), tag),
            ["expire", "s2", tag] => (Event::Expire(Expiry::S2), tag),
            ["expire", "s3", tag] => (Event::Expire(Expiry::S3), tag),
            ["expire", "sl", tag] => (Event::Expire(Expiry::Sl), tag),
            _ => return None,
        };
        Some((self.read_tag_number(tag)?, event))
    }

    fn read_air(&mut self, fields: &[&str]) -> Option<()> {
        let (number, fields) = fields.split_first()?;
        let mut entry = self.air.remove(&number.parse().ok()?).unwrap_or_default();
        match fields {
            ["miss", tag] => entry.missed.push(self.read_tag_number(tag)?),
            ["pick", place] => entry.choice = Some(Choice::Pick(place.parse().ok()?)),
            ["silent"] => entry.choice = Some(Choice::Silent),
            ["break", place] => entry.choice = Some(Choice::Break(place.parse().ok()?)),
            ["raw", levels] => entry.choice = Some(Choice::Raw(read_levels(levels)?)),
            _ => entry.events.push(self.read_event(fields)?),
        }
        self.air.insert(number.parse().ok()?, entry);
        Some(())
    }
}

fn read_link(line: &str) -> Option<Link> {
    let fields: Vec<&str> = line.split(' ').collect();
    let ["link", tari, rtcal, trcal, pw, divide_ratio, code, trext] = fields[..] else {
        return None;
    };
    let number = |field: &str| field.parse::<u32>().ok();
    Some(Link {
        timing: Timing {
            tari: number(tari)?,
            rtcal: number(rtcal)?,
            trcal: number(trcal)?,
            pw: number(pw)?,
        },
        divide_ratio: number(divide_ratio)?,
        code: LineCode::new(match code {
            "fm0" => Code::Fm0,
            "m2" => Code::Miller(2),
            "m4" => Code::Miller(4),
            "m8" => Code::Miller(8),
            _ => return None,
        }),
        trext: trext == "1",
    })
}

/// Words of four hexadecimal digits each, or `-` for none.
fn read_words(field: &str) -> Option<Vec<u16>> {
    if field == "-" {
        return Some(Vec::new());
    }
    let mut words = Vec::with_capacity(field.len() / 4);
    for digits in field.as_bytes().chunks(4) {
        words.push(word(digits)?);
    }
    Some(words)
}

fn read_levels(field: &str) -> Option<Vec<u8>> {
    let levels = digits_of(field.as_bytes(), MOST_LEVELS).ok()?;
    (!levels.is_empty()).then(|| levels.to_vec())
}

/// The memory of a tag as a line gives it, and its draw words.
fn read_image(fields: &[&str]) -> Option<(Memory, Vec<u16>)> {
    let [kill, access, locks, epc, tid, user, draws] = fields else {
        return None;
    };
    let reserved = [read_words(kill)?, read_words(access)?].concat();
    let (epc, draws) = (read_words(epc)?, read_words(draws)?);
    let fits = epc
        .first()
        .is_some_and(|&pc| usize::from(pc >> 11) < epc.len())
        && !draws.is_empty();
    let memory = Memory {
        reserved,
        epc: [&[0], epc.as_slice()].concat(),
        tid: read_words(tid)?,
        user: read_words(user)?,
        locks: Locks::read(locks)?,
    };
    fits.then_some((memory, draws))
}

pub fn read_tag(fields: &[&str]) -> Option<Tag> {
    let (memory, draws) = read_image(fields)?;
    Some(Tag::new(memory, draws))
}

/// Adds the tags that a copies line stands for. From one to the next the last word of the EPC, that of the TID and each draw word rise by one.
fn read_copies(fields: &[&str], tags: &mut Population) -> Option<()> {
    let (count, fields) = fields.split_first()?;
    let count: u16 = count.parse().ok()?;
    let (mut memory, mut draws) = read_image(fields)?;
    // The EPC bank has StoredCRC and PC in front of the words that PC counts.
    let last = 1 + usize::from(memory.epc[1] >> 11);
    if last == 1 || count < 2 || memory.tid.is_empty() {
        return None;
    }
    let raise = |word: &mut u16| *word = word.wrapping_add(1);
    for _ in 0..count {
        tags.push(Tag::new(memory.clone(), draws.clone()));
        raise(&mut memory.epc[last]);
        raise(memory.tid.last_mut()?);
        draws.iter_mut().for_each(raise);
    }
    Some(())
}

fn read_session(field: &str) -> Option<u8> {
    field.parse().ok().filter(|&session| session < 4)
}

fn read_bank(field: &str) -> Option<Bank> {
    match field {
        "res" => Some(Bank::Reserved),
        "epc" => Some(Bank::Epc),
        "tid" => Some(Bank::Tid),
        "user" => Some(Bank::User),
        _ => None,
    }
}

fn read_select(fields: &[&str]) -> Option<Select<'static>> {
    let [target, action, bank, pointer, mask] = fields else {
        return None;
    };
    Some(Select {
        target: match target.strip_prefix('s')? {
            "l" => Target::Sl,
            session => Target::Session(read_session(session)?),
        },
        action: action.parse().ok()?,
        bank: read_bank(bank).filter(|bank| !matches!(bank, Bank::Reserved))?,
        pointer: pointer.parse().ok()?,
        mask: mask
            .bytes()
            .filter(|&digit| digit != b'-')
            .map(|digit| digit == b'1')
            .collect::<Vec<bool>>()
            .into(),
    })
}

fn read_rule(field: &str, is_first_version: bool) -> Option<Rule> {
    if is_first_version {
        return Some(Rule::Float(field.parse().ok()?));
    }
    match field {
        "fixed" => Some(Rule::Fixed),
        "frame" => Some(Rule::Frame),
        _ => Some(Rule::Float(field.strip_prefix("float-")?.parse().ok()?)),
    }
}

fn read_round(fields: &[&str], is_first_version: bool) -> Option<Round> {
    let [sel, session, target, q, rule, limit] = fields else {
        return None;
    };
    Some(Round {
        sel: match *sel {
            "all" => Sel::All,
            "nsl" => Sel::NotSl,
            "sl" => Sel::Sl,
            _ => return None,
        },
        session: read_session(session)?,
        target: if *target == "a" { Flag::A } else { Flag::B },
        q: q.parse().ok()?,
        rule: read_rule(rule, is_first_version)?,
        limit: limit.parse().ok()?,
    })
}

fn read_operation(fields: &[&str]) -> Option<Operation> {
    let place = |bank, pointer: &str| {
        Some(Place {
            bank: read_bank(bank)?,
            pointer: pointer.parse().ok()?,
        })
    };
    let give = |password, value| {
        Some(Operation::Give {
            password,
            value: u32::from_str_radix(value, 16).ok()?,
        })
    };
    match fields {
        ["read", bank, pointer, count] => Some(Operation::Read {
            place: place(bank, pointer)?,
            count: count.parse().ok()?,
        }),
        ["write", bank, pointer, word] => Some(Operation::Write {
            place: place(bank, pointer)?,
            word: u16::from_str_radix(word, 16).ok()?,
        }),
        ["blockwrite", bank, pointer, words] => Some(Operation::BlockWrite {
            place: place(bank, pointer)?,
            words: read_words(words)?,
        }),
        ["blockerase", bank, pointer, count] => Some(Operation::BlockErase {
            place: place(bank, pointer)?,
            count: count.parse().ok()?,
        }),
        ["lock", payload] => Some(Operation::Lock {
            payload: u32::from_str_radix(payload, 16).ok()?,
        }),
        ["access", value] => give(Password::Access, value),
        ["kill", value] => give(Password::Kill, value),
        _ => None,
    }
}
