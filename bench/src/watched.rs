//! Touch, check and ask of the upstream with the three checks beside them that the core has: R6, R8 and R1. The core is held to this too.
//! What a record has besides the upstream's two timers stands here, each number as wide as in `panel::Presence`.

use crate::ctap::u2f_up::U2fUserPresenceState;
use crate::lent::Lent;

const W_MOST: u64 = 60_000;
const SIDE_MOST: u64 = 1;
const MOMENTS: u64 = 1 << 48;

#[derive(Debug, PartialEq)]
pub enum Refusal {
    R1,
    R6,
    R8,
}

pub struct Watched {
    pub w: u64,
    pub last: u64,
    pub asker: u64,
    pub state: U2fUserPresenceState<Lent>,
}

impl Watched {
    fn settled(&self, side: u64, t: u64) -> Result<(), Refusal> {
        if self.w == 0 || self.w > W_MOST {
            return Err(Refusal::R6);
        }
        if side > SIDE_MOST || self.asker > SIDE_MOST {
            return Err(Refusal::R8);
        }
        if t >= MOMENTS || t < self.last {
            return Err(Refusal::R1);
        }
        Ok(())
    }

    pub fn grant_up(&mut self, env: &mut Lent) -> Result<(), Refusal> {
        self.settled(self.asker, env.now)?;
        self.last = env.now;
        self.state.grant_up(env);
        Ok(())
    }

    pub fn consume_up(&mut self, side: u64, env: &mut Lent) -> Result<bool, Refusal> {
        self.settled(side, env.now)?;
        self.last = env.now;
        Ok(self.state.consume_up(env))
    }

    /// The last moment stays.
    pub fn is_up_needed(&mut self, env: &mut Lent) -> Result<bool, Refusal> {
        self.settled(self.asker, env.now)?;
        Ok(self.state.is_up_needed(env))
    }
}
