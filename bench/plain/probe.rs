//! Probes one tag, as `gen2run probe` does: commands and events one by one, and after each what it answers and what it is.

use std::io::Write;

use crate::access::{Access, Order, Password};
use crate::command::Command;
use crate::decode::fields::{read_bits, Fields};
use crate::decode::reply::{self, Expect};
use crate::encode::command;
use crate::scenario;
use crate::tag::{Event, Expiry, Held, Reply, State, Tag};
use crate::world::{write_state_and_flags, write_tag};

/// The most bits of a line.
const MOST_BITS: usize = 8_240;

/// The output, or the number of the first line that can't be read.
pub fn answers(text: &str) -> Result<Vec<u8>, usize> {
    let mut lines = (1..).zip(text.split_terminator('\n'));
    lines.next().filter(|&(_, line)| line == "probe 1").ok_or(1_usize)?;
    let line = lines.next().and_then(|(_, line)| line.strip_prefix("tag ")).ok_or(2_usize)?;
    let fields: Vec<&str> = line.split(' ').collect();
    let mut tag = scenario::read_tag(&fields).ok_or(2_usize)?;
    let mut output = Vec::new();
    let mut last = 2;
    for (number, line) in lines {
        if line == "end" {
            write_tag(&mut output, 0, &tag);
            output.extend_from_slice(b"done\n");
            return Ok(output);
        }
        probe(&mut tag, number, line, &mut output).ok_or(number)?;
        last = number;
    }
    Err(last + 1)
}

/// Lets the tag hear a command or have an event, and writes what comes of it.
fn probe(tag: &mut Tag, number: usize, line: &str, output: &mut Vec<u8>) -> Option<()> {
    if let Some(event) = line.strip_prefix("event ") {
        tag.befall(read_event(event)?);
    } else {
        let mut bits = Vec::new();
        let command = match line.strip_prefix("bits ") {
            Some(field) => {
                read_bits(field.as_bytes(), MOST_BITS, &mut bits).ok()?;
                Command::decode(&bits)
            }
            None => Some(command::read(Fields::new(line.as_bytes())).ok()?),
        };
        let answer = command.and_then(|command| Some((tag.hear(&command)?, command)));
        write_answer(output, number, tag, answer);
    }
    write_state(output, number, tag);
    Some(())
}

fn read_event(event: &str) -> Option<Event> {
    match event {
        "timeout" => Some(Event::Timeout),
        "off" => Some(Event::Off),
        "on" => Some(Event::On),
        "expire s1" => Some(Event::Expire(Expiry::S1)),
        "expire s2" => Some(Event::Expire(Expiry::S2)),
        "expire s3" => Some(Event::Expire(Expiry::S3)),
        "expire sl" => Some(Event::Expire(Expiry::Sl)),
        _ => None,
    }
}

/// Writes what the tag sends in answer to the command, or that it sends nothing.
fn write_answer(output: &mut Vec<u8>, number: usize, tag: &Tag, answer: Option<(Reply, Command)>) {
    let Some((reply, command)) = answer else {
        writeln!(output, "answer {number} -").unwrap();
        return;
    };
    let expect = match command {
        Command::Ack { .. } => Expect::Epc,
        Command::Access(Access { order, rn }) => match order {
            Order::ReqRn => Expect::Handle,
            Order::Read { count: 0, .. } => Expect::AnyWords(rn),
            Order::Read { count, .. } => Expect::Words(usize::from(count), rn),
            Order::Half { .. } if !reply.is_extended() => Expect::Same(rn),
            _ => Expect::Header(rn),
        },
        _ => Expect::Rn16,
    };
    let mark = if reply.is_extended() { "extended" } else { "plain" };
    write!(output, "answer {number} {mark} ").unwrap();
    let mut bits = Vec::new();
    reply.spell(&tag.memory, &mut bits);
    let _ = reply::answer(expect, &bits, output);
    output.push(b'\n');
}

/// Writes the tag's state, its flags, and the numbers that the state holds.
fn write_state(output: &mut Vec<u8>, number: usize, tag: &Tag) {
    write!(output, "state {number} ").unwrap();
    write_state_and_flags(output, tag);
    match tag.state {
        State::Off | State::Killed | State::Ready => {}
        State::Arbitrate { round, slot } => {
            write!(output, " {} {} {slot}", round.session, round.q).unwrap();
        }
        State::Reply { round, rn } | State::Acknowledged { round, rn } => {
            write!(output, " {} {} {rn:04X}", round.session, round.q).unwrap();
        }
        State::Held(held) => write_held(output, &held),
    }
    output.push(b'\n');
}

fn write_held(output: &mut Vec<u8>, held: &Held) {
    let Held { round, handle, .. } = held;
    write!(output, " {} {} {handle:04X} ", round.session, round.q).unwrap();
    match held.cover {
        Some(cover) => write!(output, "{cover:04X} ").unwrap(),
        None => output.extend_from_slice(b"- "),
    }
    match held.half {
        Some((Password::Kill, upper)) => write!(output, "kill-{upper:04X}").unwrap(),
        Some((Password::Access, upper)) => write!(output, "access-{upper:04X}").unwrap(),
        None => output.push(b'-'),
    }
}
