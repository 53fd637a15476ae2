//! The upstream modules, unchanged, and the parts of upstream's `ctap` module that they name, in our words.
//! `UPSTREAM` is the folder in which oracle/build puts the three files and the constants.

use crate::api::key_store::{CredentialSource, Policy};
use crate::api::persist::Persist;
use crate::env::Env;

include!(concat!(env!("UPSTREAM"), "/constants.rs"));

#[allow(dead_code, unexpected_cfgs)]
pub mod apdu {
    include!(concat!(env!("UPSTREAM"), "/apdu.rs"));
}

#[allow(dead_code, unexpected_cfgs)]
pub mod u2f_up {
    include!(concat!(env!("UPSTREAM"), "/u2f_up.rs"));
}

#[allow(dead_code, unexpected_cfgs)]
pub mod ctap1 {
    include!(concat!(env!("UPSTREAM"), "/ctap1.rs"));
}

pub struct CtapState<E: Env> {
    pub u2f_up_state: u2f_up::U2fUserPresenceState<E>,
}

impl<E: Env> CtapState<E> {
    pub fn new() -> Self {
        CtapState {
            u2f_up_state: u2f_up::U2fUserPresenceState::new(),
        }
    }

    pub fn allows_ctap1(&self, env: &mut E) -> Result<bool, ()> {
        env.allows_ctap1()
    }

    pub fn increment_global_signature_counter(&mut self, env: &mut E) -> Result<(), ()> {
        env.persist().incr_global_signature_counter()
    }

    /// Document 01: application, presence byte, counter in four bytes, big-endian.
    pub fn generate_auth_data(&self, env: &mut E, application: &[u8], presence: u8) -> Result<Vec<u8>, ()> {
        let counter = env.persist().global_signature_counter()?;
        Ok([application, &[presence], &counter.to_be_bytes()].concat())
    }
}

pub fn filter_listed_credential(found: Option<CredentialSource>, verified: bool) -> Option<CredentialSource> {
    found.filter(|c| verified || c.cred_protect_policy != Some(Policy::VerificationRequired))
}
