//! One tag: its memory, flags and state, and what it does on a command or an event (6.3.2).

use crate::access::{Access, Order, Password};
use crate::bits::{push_crc16, push_field, push_words};
use crate::command::{Bank, Change, Command, Flag, Query, Sel, Select, Target};
use crate::memory::{Memory, Refusal};

/// The session and Q of the round that a tag takes part in.
#[derive(Clone, Copy)]
pub struct Round {
    pub session: u8,
    pub q: u8,
}

/// What a tag holds in open and in secured.
#[derive(Clone, Copy)]
pub struct Held {
    pub round: Round,
    pub secured: bool,
    pub handle: u16,
    /// What covers the next word or half of a password.
    pub cover: Option<u16>,
    /// The upper half of a password, where it came and the lower one is awaited.
    pub half: Option<(Password, u16)>,
}

/// Its kind has a byte of its own, which is quicker to look at than a value that another field never has.
#[derive(Clone, Copy)]
#[repr(u8)]
pub enum State {
    Off,
    Killed,
    Ready,
    Arbitrate {
        round: Round,
        slot: u16,
    },
    Reply {
        round: Round,
        rn: u16,
    },
    Acknowledged {
        round: Round,
        rn: u16,
    },
    /// Open or secured.
    Held(Held),
}

/// What a tag answers. PC, EPC and words that are read stand in the tag's memory.
#[derive(Clone, Copy)]
pub enum Reply {
    /// An RN16.
    Rn16(u16),
    /// PC and EPC with their CRC-16.
    PcAndEpc,
    /// A handle or a cover with its CRC-16.
    Number(u16),
    /// A header bit of 0, words, the handle and the CRC-16.
    Words { bank: Bank, from: usize, to: usize, handle: u16 },
    /// A header bit of 0, the handle and the CRC-16.
    Done { handle: u16 },
    /// A header bit of 1, the error code, the handle and the CRC-16. It answers a Read or another command.
    Error { refusal: Refusal, handle: u16, is_read: bool },
}

impl Reply {
    /// The reply to a command that changes something.
    fn changed(result: Result<(), Refusal>, handle: u16) -> Reply {
        match result {
            Ok(()) => Reply::Done { handle },
            Err(refusal) => Reply::Error { refusal, handle, is_read: false },
        }
    }

    /// Whether it has the extended preamble, whatever the Query asked for.
    pub fn is_extended(&self) -> bool {
        matches!(self, Reply::Done { .. } | Reply::Error { is_read: false, .. })
    }

    /// Adds its bits, from the memory of the tag.
    pub fn spell(&self, memory: &Memory, bits: &mut Vec<bool>) {
        let start = bits.len();
        let number = match *self {
            Reply::Rn16(rn) => return push_field(bits, u32::from(rn), 16),
            Reply::PcAndEpc => {
                push_words(bits, memory.pc_and_epc());
                return push_crc16(bits, start);
            }
            Reply::Number(number) => number,
            Reply::Words { bank, from, to, handle } => {
                bits.push(false);
                push_words(bits, &memory.bank(bank)[from..to]);
                handle
            }
            Reply::Done { handle } => {
                bits.push(false);
                handle
            }
            Reply::Error { refusal, handle, .. } => {
                bits.push(true);
                push_field(bits, refusal as u32, 8);
                handle
            }
        };
        push_field(bits, u32::from(number), 16);
        push_crc16(bits, start);
    }
}

/// The words that a tag draws, one after another and from the first again. There is at least one.
#[derive(Clone)]
struct Draws {
    words: Box<[u16]>,
    next: usize,
}

impl Draws {
    fn draw(&mut self) -> u16 {
        let word = self.words[self.next];
        let behind = self.next + 1;
        self.next = if behind == self.words.len() { 0 } else { behind };
        word
    }
}

/// A flag that loses its value after a time.
#[derive(Clone, Copy)]
pub enum Expiry {
    S1,
    S2,
    S3,
    Sl,
}

#[derive(Clone, Copy)]
pub enum Event {
    Timeout,
    Off,
    On,
    Expire(Expiry),
}

#[derive(Clone)]
pub struct Tag {
    pub memory: Box<Memory>,
    pub flags: [Flag; 4],
    pub sl: bool,
    pub state: State,
    draws: Draws,
}

impl Tag {
    /// A tag in ready, which draws these words. StoredCRC is computed.
    pub fn new(mut memory: Memory, words: Vec<u16>) -> Tag {
        memory.store_crc();
        Tag {
            memory: Box::new(memory),
            flags: [Flag::A; 4],
            sl: false,
            state: State::Ready,
            draws: Draws { words: words.into(), next: 0 },
        }
    }

    /// Whether it takes part in a round.
    pub fn is_in_round(&self) -> bool {
        !matches!(self.state, State::Off | State::Killed | State::Ready)
    }

    /// Hears a command, and answers or not.
    #[inline(always)]
    pub fn hear(&mut self, command: &Command) -> Option<Reply> {
        if matches!(self.state, State::Off | State::Killed) {
            return None;
        }
        match command {
            Command::QueryRep { session } => self.hear_query_rep(*session),
            Command::QueryAdjust { session, change } => self.hear_query_adjust(*session, *change),
            Command::Ack { rn } => self.hear_ack(*rn),
            Command::Query(query) => self.hear_query(query),
            Command::Select(select) => self.hear_select(select),
            Command::Nak => {
                self.back();
                None
            }
            Command::Access(access) => self.hear_access(access),
        }
    }

    fn hear_query(&mut self, query: &Query) -> Option<Reply> {
        match self.state {
            State::Acknowledged { round, .. } | State::Held(Held { round, .. })
                if round.session == query.session =>
            {
                self.invert(query.session)
            }
            _ => {}
        }
        let selected = match query.sel {
            Sel::All | Sel::All01 => true,
            Sel::NotSl => !self.sl,
            Sel::Sl => self.sl,
        };
        if selected && self.flags[usize::from(query.session)] == query.target {
            let round = Round {
                session: query.session,
                q: query.q,
            };
            self.enter(round)
        } else {
            self.state = State::Ready;
            None
        }
    }

    fn hear_query_rep(&mut self, session: u8) -> Option<Reply> {
        match self.state {
            State::Arbitrate { round, slot: 1 } if round.session == session => {
                Some(self.reply(round))
            }
            State::Arbitrate { round, slot } if round.session == session => {
                self.state = State::Arbitrate {
                    round,
                    slot: slot.wrapping_sub(1) & 0x7FFF,
                };
                None
            }
            State::Reply { round, .. } if round.session == session => {
                self.state = State::Arbitrate {
                    round,
                    slot: 0x7FFF,
                };
                None
            }
            _ => self.hear_end_of_slot(session),
        }
    }

    #[inline(always)]
    fn hear_query_adjust(&mut self, session: u8, change: Change) -> Option<Reply> {
        match self.state {
            State::Arbitrate { round, .. } | State::Reply { round, .. }
                if round.session == session =>
            {
                let q = change.apply(round.q);
                self.enter(Round { session, q })
            }
            _ => self.hear_end_of_slot(session),
        }
    }

    /// A QueryRep or QueryAdjust in acknowledged, open or secured.
    fn hear_end_of_slot(&mut self, session: u8) -> Option<Reply> {
        match self.state {
            State::Held(Held {
                round,
                half: Some(_),
                ..
            }) if round.session == session => self.back(),
            State::Acknowledged { round, .. } | State::Held(Held { round, .. })
                if round.session == session =>
            {
                self.invert(session);
                self.state = State::Ready;
            }
            _ => {}
        }
        None
    }

    fn hear_ack(&mut self, sent: u16) -> Option<Reply> {
        match self.state {
            State::Reply { round, rn } | State::Acknowledged { round, rn } if rn == sent => {
                self.state = State::Acknowledged { round, rn };
            }
            State::Held(Held {
                handle, half: None, ..
            }) if handle == sent => {}
            _ => {
                self.back();
                return None;
            }
        }
        Some(Reply::PcAndEpc)
    }

    fn hear_access(&mut self, access: &Access) -> Option<Reply> {
        match (self.state, &access.order) {
            (State::Acknowledged { round, rn }, Order::ReqRn) => {
                if rn != access.rn {
                    return None;
                }
                let handle = self.draws.draw();
                self.state = State::Held(Held {
                    round,
                    secured: self.memory.password(Password::Access) == 0,
                    handle,
                    cover: None,
                    half: None,
                });
                Some(Reply::Number(handle))
            }
            (State::Reply { .. } | State::Acknowledged { .. }, _) => {
                self.back();
                None
            }
            (State::Held(held), order) if held.handle == access.rn => self.obey(held, order),
            _ => None,
        }
    }

    /// An access command with the tag's handle, in open or secured.
    fn obey(&mut self, held: Held, order: &Order) -> Option<Reply> {
        let is_awaited = match (held.half, order) {
            (None, _) | (_, Order::ReqRn) => true,
            (Some((awaited, _)), Order::Half { password, .. }) => awaited == *password,
            _ => false,
        };
        if !is_awaited {
            self.back();
            return None;
        }
        let (handle, secured) = (held.handle, held.secured);
        let changed = match order {
            Order::ReqRn => {
                let cover = self.draws.draw();
                self.state = State::Held(Held {
                    cover: Some(cover),
                    ..held
                });
                return Some(Reply::Number(cover));
            }
            Order::Read { place, count } => {
                let reply = match self.memory.read(*place, *count, secured) {
                    Ok(words) => Reply::Words { bank: place.bank, from: words.start, to: words.end, handle },
                    Err(refusal) => Reply::Error { refusal, handle, is_read: true },
                };
                return Some(reply);
            }
            Order::Write { place, covered } => {
                let word = self.uncover(held, *covered)?;
                self.memory.change(*place, &[word], secured)
            }
            Order::Half { password, covered } => {
                let value = self.uncover(held, *covered)?;
                return self.hear_half(
                    Held {
                        cover: None,
                        ..held
                    },
                    *password,
                    value,
                );
            }
            Order::Lock { .. } if !secured => return None,
            Order::Lock { payload } => self.memory.lock(*payload),
            Order::BlockWrite { place, words } => self.memory.change(*place, words, secured),
            Order::BlockErase { place, count } => {
                self.memory
                    .change(*place, &[0; 255][..usize::from(*count)], secured)
            }
        };
        Some(Reply::changed(changed, handle))
    }

    /// The value below the tag's cover, which is used up.
    fn uncover(&mut self, held: Held, covered: u16) -> Option<u16> {
        let cover = held.cover?;
        self.state = State::Held(Held {
            cover: None,
            ..held
        });
        Some(covered ^ cover)
    }

    /// Half of a password, without its cover.
    fn hear_half(&mut self, held: Held, password: Password, value: u16) -> Option<Reply> {
        let Some((_, upper)) = held.half else {
            self.state = State::Held(Held {
                half: Some((password, value)),
                ..held
            });
            return Some(Reply::Number(held.handle));
        };
        let own = self.memory.password(password);
        let is_right = own == u32::from(upper) << 16 | u32::from(value);
        match password {
            Password::Kill if own == 0 => {
                self.state = State::Held(Held { half: None, ..held });
                Some(Reply::changed(Err(Refusal::Other), held.handle))
            }
            Password::Kill if is_right => {
                self.state = State::Killed;
                Some(Reply::changed(Ok(()), held.handle))
            }
            Password::Access if is_right => {
                self.state = State::Held(Held {
                    secured: true,
                    half: None,
                    ..held
                });
                Some(Reply::Number(held.handle))
            }
            _ => {
                self.back();
                None
            }
        }
    }

    /// Draws a slot: slot 0 replies at once.
    fn enter(&mut self, round: Round) -> Option<Reply> {
        let slot = self.draws.draw() & ((1 << round.q) - 1);
        if slot == 0 {
            return Some(self.reply(round));
        }
        self.state = State::Arbitrate { round, slot };
        None
    }

    /// Draws an RN16 and replies with it.
    fn reply(&mut self, round: Round) -> Reply {
        let rn = self.draws.draw();
        self.state = State::Reply { round, rn };
        Reply::Rn16(rn)
    }

    fn back(&mut self) {
        if let State::Reply { round, .. }
        | State::Acknowledged { round, .. }
        | State::Held(Held { round, .. }) = self.state
        {
            self.state = State::Arbitrate { round, slot: 0 };
        }
    }

    fn invert(&mut self, session: u8) {
        let flag = &mut self.flags[usize::from(session)];
        *flag = flag.inverse();
    }

    fn matches(&self, select: &Select) -> bool {
        let bank = self.memory.bank(select.bank);
        let from = select.pointer as usize;
        let is_at = |at: usize, bit: bool| (bank[at / 16] >> (15 - at % 16) & 1 == 1) == bit;
        from + select.mask.len() <= 16 * bank.len() && (from..).zip(select.mask.iter()).all(|(at, &bit)| is_at(at, bit))
    }

    fn hear_select(&mut self, select: &Select) -> Option<Reply> {
        if let State::Held(Held { half: Some(_), .. }) = self.state {
            self.back();
            return None;
        }
        self.apply(select);
        self.state = State::Ready;
        None
    }

    /// Changes the flag that the Select names (6.3.2.11.1.1).
    fn apply(&mut self, select: &Select) {
        // An asserted SL stands with the inventoried flag A.
        let asserted = match select.target {
            Target::Session(session) => self.flags[usize::from(session)] == Flag::A,
            Target::Sl => self.sl,
        };
        let changed = match (select.action, self.matches(select)) {
            (0 | 1, true) | (4 | 6, false) => true,
            (4 | 5, true) | (0 | 2, false) => false,
            (3, true) | (7, false) => !asserted,
            _ => return,
        };
        match select.target {
            Target::Session(session) => {
                self.flags[usize::from(session)] = if changed { Flag::A } else { Flag::B }
            }
            Target::Sl => self.sl = changed,
        }
    }

    pub fn befall(&mut self, event: Event) {
        match (event, self.state) {
            (_, State::Killed) => {}
            (Event::Timeout, State::Reply { .. } | State::Acknowledged { .. }) => self.back(),
            (Event::Off, _) => {
                self.flags[0] = Flag::A;
                self.state = State::Off;
            }
            (Event::On, State::Off) => {
                self.state = State::Ready;
                self.memory.store_crc();
            }
            (Event::Expire(Expiry::S1), State::Ready | State::Off) => self.flags[1] = Flag::A,
            (Event::Expire(Expiry::S2), State::Off) => self.flags[2] = Flag::A,
            (Event::Expire(Expiry::S3), State::Off) => self.flags[3] = Flag::A,
            (Event::Expire(Expiry::Sl), State::Off) => self.sl = false,
            _ => {}
        }
    }
}
