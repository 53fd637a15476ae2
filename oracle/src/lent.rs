//! The hardware's answers to one call, lent to the upstream code, and what that code asked for.

use crate::api::clock::Clock;
use crate::api::crypto::ec_signing::{EcPublicKey, EcSecretKey, EcSignature};
use crate::api::key_store::{CredentialSource, KeyStore, Policy};
use crate::api::persist::{Attestation, AttestationId, Persist};
use crate::env::Env;
use std::cell::RefCell;

/// Whether CTAP1 is allowed.
#[derive(Clone, Copy, Debug, PartialEq, Eq)]
pub enum Allowed {
    Yes,
    No,
    Failed,
}

#[derive(Clone, Copy, Debug, PartialEq, Eq)]
pub enum Attested {
    Present,
    Missing,
    Failed,
}

/// What the key store says to a handle. The core is lent only whether it is good: three ways lead to 'not good'.
#[derive(Clone, Copy, Debug, PartialEq, Eq)]
pub enum Handle {
    Good,
    NotOurs,
    StoreFailed,
    NeedsVerification,
}

/// The counter; `Unread` is the upstream's own: it has grown and then cannot be read.
#[derive(Clone, Copy, Debug, PartialEq, Eq)]
pub enum Counter {
    Offered(u32),
    Failed,
    Unread,
}

#[derive(Clone, Debug)]
pub struct Hardware {
    pub allowed: Allowed,
    pub stored: bool,
    pub new_handle: Vec<u8>,
    pub attested: Attested,
    pub certificate: Vec<u8>,
    pub x: [u8; 32],
    pub y: [u8; 32],
    pub handle: Handle,
    pub counter: Counter,
    /// None where the signer fails.
    pub signature: Option<Vec<u8>>,
}

impl Default for Hardware {
    fn default() -> Self {
        Hardware {
            allowed: Allowed::Yes,
            stored: true,
            new_handle: Vec::new(),
            attested: Attested::Present,
            certificate: Vec::new(),
            x: [0; 32],
            y: [0; 32],
            handle: Handle::Good,
            counter: Counter::Offered(0),
            signature: Some(Vec::new()),
        }
    }
}

/// What one call asked of the hardware.
#[derive(Clone, Debug, Default, PartialEq, Eq)]
pub struct Noted {
    /// How often a timer was looked at, and whether the last one was live.
    pub looked: u32,
    pub live: bool,
    /// Times that the counter grew.
    pub grown: u32,
    /// The handle and the application that the key store was shown.
    pub shown: Option<(Vec<u8>, Vec<u8>)>,
}

/// What was asked of the signer: a wrapped key was to be used, and these bytes were to be signed with it.
#[derive(Default)]
pub struct Signer {
    pub asked: bool,
    pub to_sign: Option<Vec<u8>>,
}

thread_local! {
    /// A key has no way back to the environment, so this stands apart.
    static SIGNER: RefCell<Signer> = RefCell::default();
}

pub fn take_signer() -> Signer {
    SIGNER.with(|s| s.take())
}

/// The environment of one device: its moment, the answers lent to the running call, and what the call asked.
#[derive(Default)]
pub struct Lent {
    pub now: u64,
    pub hardware: Hardware,
    pub noted: Noted,
}

/// A window: closed, or opened at a moment with a length.
#[derive(Default)]
pub struct Timer(Option<(u64, u64)>);

impl Clock for Lent {
    type Timer = Timer;

    fn make_timer(&mut self, milliseconds: usize) -> Timer {
        Timer(Some((self.now, milliseconds as u64)))
    }

    /// Document 01: a window opened at m with length d is live at t when t < m + d. Moments are below 2^48, so this sum
    /// of 64 bits never wraps.
    fn is_elapsed(&mut self, timer: &Timer) -> bool {
        let elapsed = match timer.0 {
            Some((m, d)) => self.now >= m + d,
            None => true,
        };
        self.noted.looked += 1;
        self.noted.live = !elapsed;
        elapsed
    }
}

/// A wrapped key is the signature that it will give: `01` and the signature, or nothing where the signer fails.
fn wrapped(signature: &Option<Vec<u8>>) -> Vec<u8> {
    match signature {
        Some(bytes) => [&[1], bytes.as_slice()].concat(),
        None => Vec::new(),
    }
}

impl KeyStore for Lent {
    fn wrap_credential(&mut self, _: CredentialSource) -> Result<Vec<u8>, ()> {
        if self.hardware.stored {
            Ok(self.hardware.new_handle.clone())
        } else {
            Err(())
        }
    }

    fn unwrap_credential(&mut self, handle: &[u8], application: &[u8]) -> Result<Option<CredentialSource>, ()> {
        self.noted.shown = Some((handle.to_vec(), application.to_vec()));
        let source = |policy| CredentialSource {
            wrapped_private_key: wrapped(&self.hardware.signature),
            rp_id_hash: application.try_into().unwrap(),
            cred_protect_policy: policy,
            cred_blob: None,
        };
        match self.hardware.handle {
            Handle::Good => Ok(Some(source(None))),
            Handle::NotOurs => Ok(None),
            Handle::StoreFailed => Err(()),
            Handle::NeedsVerification => Ok(Some(source(Some(Policy::VerificationRequired)))),
        }
    }
}

impl Persist for Lent {
    fn get_attestation(&self, _: AttestationId) -> Result<Option<Attestation>, ()> {
        match self.hardware.attested {
            Attested::Present => Ok(Some(Attestation {
                wrapped_private_key: wrapped(&self.hardware.signature),
                certificate: self.hardware.certificate.clone(),
            })),
            Attested::Missing => Ok(None),
            Attested::Failed => Err(()),
        }
    }

    fn incr_global_signature_counter(&mut self) -> Result<(), ()> {
        if self.hardware.counter == Counter::Failed {
            return Err(());
        }
        self.noted.grown += 1;
        Ok(())
    }

    fn global_signature_counter(&self) -> Result<u32, ()> {
        match self.hardware.counter {
            Counter::Offered(n) => Ok(n),
            Counter::Failed | Counter::Unread => Err(()),
        }
    }
}

pub struct Key {
    x: [u8; 32],
    y: [u8; 32],
    signature: Vec<u8>,
}

pub struct Point {
    x: [u8; 32],
    y: [u8; 32],
}

pub struct Der(Vec<u8>);

impl EcSecretKey for Key {
    type PublicKey = Point;
    type Signature = Der;

    fn random(lent: &mut Lent) -> Key {
        Key {
            x: lent.hardware.x,
            y: lent.hardware.y,
            signature: Vec::new(),
        }
    }

    fn public_key(&self) -> Point {
        Point { x: self.x, y: self.y }
    }

    fn sign(&self, message: &[u8]) -> Der {
        SIGNER.with(|s| s.borrow_mut().to_sign = Some(message.to_vec()));
        Der(self.signature.clone())
    }

    /// None where the signer fails. The message is then not seen either, as upstream never comes to sign it.
    fn import(bytes: &[u8]) -> Option<Key> {
        SIGNER.with(|s| s.borrow_mut().asked = true);
        let (_, signature) = bytes.split_first()?;
        Some(Key {
            x: [0; 32],
            y: [0; 32],
            signature: signature.to_vec(),
        })
    }
}

impl EcPublicKey for Point {
    fn to_coordinates(&self, x: &mut [u8; 32], y: &mut [u8; 32]) {
        *x = self.x;
        *y = self.y;
    }
}

impl EcSignature for Der {
    fn to_der(&self) -> Vec<u8> {
        self.0.clone()
    }
}

impl Env for Lent {
    type Clock = Lent;
    type Persist = Lent;
    type KeyStore = Lent;
    type SecretKey = Key;

    fn clock(&mut self) -> &mut Lent {
        self
    }

    fn persist(&mut self) -> &mut Lent {
        self
    }

    fn key_store(&mut self) -> &mut Lent {
        self
    }

    fn rng(&mut self) -> &mut Lent {
        self
    }

    fn allows_ctap1(&self) -> Result<bool, ()> {
        match self.hardware.allowed {
            Allowed::Yes => Ok(true),
            Allowed::No => Ok(false),
            Allowed::Failed => Err(()),
        }
    }
}
