//! The port's side, through its typed C calls: state and profile by value, every octet that a call may write lent by this
//! module. Records are answered call by call, and each call is looked at from all sides (`checked.rs`).
mod check;
mod checked;
mod disturb;
pub mod lent;
pub mod made;
pub mod plant;
mod strange;
pub mod view;

/// Safe functions over the declarations; where there is no archive, the source stands in for it.
#[cfg(archive)]
#[path = "archive.rs"]
pub mod calls;
#[cfg(not(archive))]
#[path = "standin/mod.rs"]
pub mod calls;

pub use wegrulsta::raw;

use crate::call::Call;
use crate::counts::Counts;
use crate::octets::{array_at, put_word, word_at};
use crate::questions::Handed;
use crate::setup::{self, Setup};
use crate::source::put_shown;
use crate::trial::{kind, Trial};
use checked::Calling;
use lent::Lent;
use plant::Plant;
use raw::State;

/// Whether the archive was linked. Else the source stands in for it, and the runs try only the oracle itself.
pub const LINKED: bool = cfg!(archive);

/// What a call gives: 0 or the number of a refusal, the state, how many packets it took and how many octets it wrote.
pub struct Answered {
    pub number: u8,
    pub state: State,
    pub taken: usize,
    pub written: usize,
}

/// What the four queries give, each with its number.
pub struct Found {
    pub connected: raw::Connected,
    pub terminating: raw::Terminating,
    pub free_handle: raw::FreeHandle,
    pub in_use: raw::InUse,
}

impl Found {
    /// As octets; the error says that they are refused by different numbers.
    fn put(&self, out: &mut Vec<u8>) -> Result<(), String> {
        let Found { connected, terminating, free_handle, in_use } = self;
        let numbers = [connected.number, terminating.number, free_handle.number, in_use.number];
        if numbers != [numbers[0]; 4] {
            return Err(format!("the queries answer with the numbers {numbers:?}"));
        }
        out.push(numbers[0] << 4 | u8::from(connected.connected));
        out.extend([u8::from(terminating.reason != 0), terminating.reason]);
        put_word(out, free_handle.handle);
        put_word(out, in_use.count as u16);
        Ok(())
    }
}

/// The port with its buffers.
#[derive(Default)]
pub struct Port {
    /// A difference planted on purpose.
    pub plant: Option<Plant>,
    pool: Lent,
    /// The pool of strange calls.
    other_pool: Lent,
    /// The buffer for events or packets.
    out: Lent,
}

impl Port {
    /// The answers to a run, into `answers`; or what the port did that no call may do.
    pub fn trials(&mut self, trial: &Trial, answers: &mut Vec<u8>, counts: &mut Counts) -> Result<(), String> {
        answers.clear();
        let Some(setup) = setup::read(&trial.setup) else {
            return Ok(());
        };
        self.pool.fill(trial.pool);
        let mut run = Run { port: self, setup, trial, state: calls::start(), counts };
        trial.run(answers, &mut |kind, p, out| run.answer(kind, p, out))
    }

    /// What is printed for bench lines, into `answers`.
    pub fn bench(&mut self, input: &[u8], room: usize, answers: &mut Vec<u8>) -> Result<(), String> {
        answers.clear();
        self.out.fill(room);
        let written = calls::bench(input, self.out.octets_mut());
        self.out.check_written(written)?;
        answers.extend_from_slice(&self.out.octets()[..written]);
        Ok(())
    }
}

/// A run at hand.
struct Run<'a> {
    port: &'a mut Port,
    setup: Setup,
    trial: &'a Trial,
    state: State,
    counts: &'a mut Counts,
}

impl Run<'_> {
    fn answer(&mut self, kind: u8, p: &[u8], out: &mut Vec<u8>) -> Result<(), String> {
        let profile = &self.setup.profile;
        match kind {
            kind::STATE => put_shown(&view::controller(&self.state, self.port.pool.octets(), profile), out),
            kind::QUERIES => return self.put_found(word_at(p, 0), out),
            kind::DISTURB => disturb::disturb(array_at(p, 0), profile, &mut self.state, self.port.pool.octets_mut()),
            kind::HAND_IN => self.hand_in(p),
            kind::STRANGE => return self.strange(p),
            _ => {
                let call = Call::read(kind, p).expect("other kinds are calls");
                return self.call(&call, out);
            }
        }
        Ok(())
    }

    fn call(&mut self, call: &Call, out: &mut Vec<u8>) -> Result<(), String> {
        let Port { plant, pool, out: lent, .. } = &mut *self.port;
        let room = if let Call::Take { .. } = call { self.trial.packets } else { self.trial.events };
        lent.fill(room);
        let state = self.state;
        let handed =
            Handed { profile: &self.setup.profile, rows: self.setup.rows(), state: &state, pool: self.trial.pool, room };
        let calling = Calling { plant: *plant, address: self.setup.address, random: self.setup.random, handed, together: true };
        let answered = calling.make(call, pool, lent)?;
        self.state = answered.state;
        out.extend([answered.number, answered.taken as u8]);
        put_word(out, answered.written as u16);
        out.extend(&lent.octets()[..answered.written]);
        Ok(())
    }

    fn hand_in(&mut self, p: &[u8]) {
        if let Some((state, pool)) = made::made(p, &self.setup.profile, self.trial.pool) {
            self.state = state;
            self.port.pool.octets_mut()[..pool.len()].copy_from_slice(&pool);
        }
    }

    /// A copy of what is handed in, changed by a number; the run goes on with what it had.
    fn strange(&mut self, p: &[u8]) -> Result<(), String> {
        let Port { plant, pool, other_pool, out } = &mut *self.port;
        let Some(strange) = strange::Strange::read(p, &self.setup, &self.state, self.trial) else { return Ok(()) };
        let number = strange.compare(*plant, pool.octets(), other_pool, out)?;
        self.counts.strange(number);
        Ok(())
    }

    fn put_found(&mut self, handle: u16, out: &mut Vec<u8>) -> Result<(), String> {
        plant::found(self.port.plant, &self.setup.profile, &self.state, handle).put(out)
    }
}
