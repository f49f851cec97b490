//! One call of the port, looked at from all sides: its number is that of document 01's questions, a refused one changes
//! nothing, an accepted one writes only where it may.
use super::check;
use super::lent::Lent;
use super::plant::{self, Plant};
use super::{calls, Answered};
use crate::call::Call;
use crate::questions::{asked, first_no, Handed};

/// What a call is made with, besides its arguments and the lent buffers.
#[derive(Clone, Copy)]
pub struct Calling<'a> {
    pub plant: Option<Plant>,
    pub address: [u8; 6],
    pub random: [u8; 8],
    pub handed: Handed<'a>,
    /// Question 3 needs no answer: the state was given by a call, or made so that it holds together.
    pub together: bool,
}

impl Calling<'_> {
    /// `out` is filled. What the call gives, or what it did that no call may do.
    pub fn make(&self, call: &Call, pool: &mut Lent, out: &mut Lent) -> Result<Answered, String> {
        let before = pool.octets().to_vec();
        let answered = plant::make(self, call, pool.octets_mut(), out.octets_mut());
        pool.check_guards()?;
        out.check_written(answered.written)?;
        let expected = self.expected(call);
        if answered.number != expected {
            return Err(format!("answered with {}, where the questions give {expected}", answered.number));
        }
        if expected != 0 {
            check::refused(self.handed.state, &before, &answered, pool.octets())?;
        } else {
            let after = (&answered.state, pool.octets());
            check::accepted(call, self.handed.profile, (self.handed.state, &before), after)?;
        }
        Ok(answered)
    }

    fn expected(&self, call: &Call) -> u8 {
        if self.together {
            first_no(call, &self.handed, asked(call).iter().filter(|number| **number != 3))
        } else {
            first_no(call, &self.handed, asked(call).iter())
        }
    }

    /// The call alone.
    pub fn call(&self, call: &Call, pool: &mut [u8], out: &mut [u8]) -> Answered {
        calls::make(call, &self.handed, &self.address, u64::from_le_bytes(self.random), pool, out)
    }
}
