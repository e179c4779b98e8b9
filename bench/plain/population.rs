//! The tags of a scenario. Those that wait in arbitrate stand on a wheel, by their slot counters, and don't hear each QueryRep.

use std::ops::Range;

use crate::command::Command;
use crate::tag::{Event, State, Tag};
use crate::wheel::Wheel;

#[derive(Clone)]
pub struct Population {
    tags: Vec<Tag>,
    /// The tags in arbitrate. Their slot counters stand here, and are written back before a tag hears anything.
    wheel: Wheel,
    /// The tags beyond arbitrate, in reply, acknowledged, open and secured, in the order of their numbers. They hear each command.
    called: Vec<usize>,
    /// Those that are called to the command that is heard.
    hearers: Vec<usize>,
}

/// What tags answered to one command, in the order of their numbers.
#[derive(Default)]
pub struct Answers {
    answers: Vec<Answer>,
    /// The bits of all answers, one behind the other.
    bits: Vec<bool>,
}

struct Answer {
    is_extended: bool,
    bits: Range<usize>,
}

impl Answers {
    pub fn len(&self) -> usize {
        self.answers.len()
    }

    /// The bits of an answer, and whether it has the extended preamble, whatever the Query asked for.
    pub fn get(&self, place: usize) -> Option<(&[bool], bool)> {
        let answer = self.answers.get(place)?;
        Some((&self.bits[answer.bits.clone()], answer.is_extended))
    }

    fn clear(&mut self) {
        self.answers.clear();
        self.bits.clear();
    }

    /// Lets a tag hear a command, and keeps what it answers.
    #[inline(always)]
    fn hear(&mut self, tag: &mut Tag, command: &Command) {
        if let Some(reply) = tag.hear(command) {
            let start = self.bits.len();
            reply.spell(&tag.memory, &mut self.bits);
            self.answers.push(Answer { is_extended: reply.is_extended(), bits: start..self.bits.len() });
        }
    }
}

impl Population {
    pub fn new() -> Population {
        Population { tags: Vec::new(), wheel: Wheel::new(), called: Vec::new(), hearers: Vec::new() }
    }

    pub fn len(&self) -> usize {
        self.tags.len()
    }

    /// Adds a tag in ready.
    pub fn push(&mut self, tag: Tag) {
        self.tags.push(tag);
        self.wheel.push();
    }

    /// The tag of a number, with the slot counter that it has.
    pub fn tag(&mut self, number: usize) -> Option<&Tag> {
        let tag = self.tags.get_mut(number)?;
        write_back(tag, self.wheel.slot(number));
        Some(tag)
    }

    pub fn befall(&mut self, number: usize, event: Event) {
        write_back(&mut self.tags[number], self.wheel.take(number));
        self.called.retain(|&called| called != number);
        self.tags[number].befall(event);
        place(number, &self.tags[number], &mut self.wheel, &mut self.called);
        self.called.sort_unstable();
    }

    /// Lets each tag hear a command but those that miss it, and keeps what they answer, and nothing from before.
    pub fn hear(&mut self, command: &Command, missed: &[usize], answers: &mut Answers) {
        answers.clear();
        match *command {
            Command::QueryRep { session } => {
                self.call(session, missed);
                self.hear_called(command, missed, answers);
            }
            // None of these does anything to a tag that waits.
            Command::Ack { .. } | Command::Nak | Command::Access(_) => self.hear_called(command, missed, answers),
            // A QueryAdjust does nothing to one that takes part in no round.
            Command::QueryAdjust { .. } => self.hear_each(command, missed, answers, Tag::is_in_round),
            Command::Query(_) | Command::Select(_) => self.hear_each(command, missed, answers, |_| true),
        }
    }

    /// Calls the tags that wait in the session and miss its QueryRep, and those whose slot comes, and lowers the slot counters of the others.
    fn call(&mut self, session: u8, missed: &[usize]) {
        let beyond = self.called.len();
        for &number in missed {
            if self.wheel.waits_in(number, session) {
                self.call_tag(number);
            }
        }
        while let Some(number) = self.wheel.due(session) {
            self.call_tag(number);
        }
        self.wheel.count_down(session);
        if self.called.len() > beyond {
            self.called.sort_unstable();
        }
    }

    fn call_tag(&mut self, number: usize) {
        write_back(&mut self.tags[number], self.wheel.take(number));
        self.called.push(number);
    }

    /// Lets the called tags hear a command, and puts each where its state says.
    fn hear_called(&mut self, command: &Command, missed: &[usize], answers: &mut Answers) {
        std::mem::swap(&mut self.called, &mut self.hearers);
        self.called.clear();
        for &number in &self.hearers {
            let tag = &mut self.tags[number];
            if !missed.contains(&number) {
                answers.hear(tag, command);
            }
            place(number, tag, &mut self.wheel, &mut self.called);
        }
    }

    /// Lets each of these tags hear a command, and puts each where its state says.
    fn hear_each(&mut self, command: &Command, missed: &[usize], answers: &mut Answers, reaches: impl Fn(&Tag) -> bool) {
        self.called.clear();
        self.wheel.empty_places();
        let misses_none = missed.is_empty();
        for (number, tag) in self.tags.iter_mut().enumerate().filter(|(_, tag)| reaches(tag)) {
            write_back(tag, self.wheel.take_with_others(number));
            if misses_none || !missed.contains(&number) {
                answers.hear(tag, command);
            }
            place(number, tag, &mut self.wheel, &mut self.called);
        }
    }
}

/// Gives a tag the slot counter that it has on the wheel, if it stands there.
fn write_back(tag: &mut Tag, slot: Option<u16>) {
    if let (State::Arbitrate { slot: own, .. }, Some(slot)) = (&mut tag.state, slot) {
        *own = slot;
    }
}

/// Puts a tag on the wheel or among the called ones, by its state.
#[inline(always)]
fn place(number: usize, tag: &Tag, wheel: &mut Wheel, called: &mut Vec<usize>) {
    match tag.state {
        State::Arbitrate { round, slot } => wheel.put(number, round.session, slot),
        State::Reply { .. } | State::Acknowledged { .. } | State::Held(_) => called.push(number),
        State::Off | State::Killed | State::Ready => {}
    }
}
