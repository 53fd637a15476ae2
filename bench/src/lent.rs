//! The hardware's answers for the measured calls. They are the same for both sides, and the stand-ins of the upstream code
//! do the least that its traits leave: they note nothing, and allocate only what a trait wants handed over as a `Vec`.

use crate::api::clock::Clock;
use crate::api::crypto::ec_signing::{EcPublicKey, EcSecretKey, EcSignature};
use crate::api::key_store::{CredentialSource, KeyStore};
use crate::api::persist::{Attestation, AttestationId, Persist};
use crate::env::Env;

const fn counting<const N: usize>(from: u8) -> [u8; N] {
    let mut out = [0; N];
    let mut i = 0;
    while i < N {
        out[i] = (i as u8).wrapping_add(from);
        i += 1;
    }
    out
}

pub static X: [u8; 32] = counting(16);
pub static Y: [u8; 32] = counting(64);
/// Document 01's example: a handle of 64 bytes, a certificate of 300, a signature of 70.
pub static HANDLE: [u8; 64] = counting(112);
pub static CERTIFICATE: [u8; 300] = counting(160);
pub static SIGNATURE: [u8; 70] = counting(208);
pub const COUNTER: u32 = 0x0102_0304;

/// The environment of the upstream code.
pub struct Lent {
    pub now: u64,
}

/// A window: the moment from which it is no longer live.
#[derive(Clone, Copy, Default)]
pub struct Timer(u64);

impl Clock for Lent {
    type Timer = Timer;

    fn make_timer(&mut self, milliseconds: usize) -> Timer {
        Timer(self.now + milliseconds as u64)
    }

    fn is_elapsed(&mut self, timer: &Timer) -> bool {
        self.now >= timer.0
    }
}

impl KeyStore for Lent {
    fn wrap_credential(&mut self, _: CredentialSource) -> Result<Vec<u8>, ()> {
        Ok(handed(&HANDLE))
    }

    fn unwrap_credential(&mut self, _: &[u8], application: &[u8]) -> Result<Option<CredentialSource>, ()> {
        Ok(Some(CredentialSource {
            wrapped_private_key: Vec::new(),
            rp_id_hash: application.try_into().unwrap(),
            cred_protect_policy: None,
            cred_blob: None,
        }))
    }
}

/// Bytes as the traits want them. It stands apart so that its cost is the same here and in `register_hands_over`.
#[inline(never)]
fn handed(bytes: &[u8]) -> Vec<u8> {
    bytes.to_vec()
}

impl Persist for Lent {
    fn get_attestation(&self, _: AttestationId) -> Result<Option<Attestation>, ()> {
        Ok(Some(Attestation {
            wrapped_private_key: Vec::new(),
            certificate: handed(&CERTIFICATE),
        }))
    }

    fn incr_global_signature_counter(&mut self) -> Result<(), ()> {
        Ok(())
    }

    fn global_signature_counter(&self) -> Result<u32, ()> {
        Ok(COUNTER)
    }
}

pub struct Key;
pub struct Point;
pub struct Der;

impl EcSecretKey for Key {
    type PublicKey = Point;
    type Signature = Der;

    fn random(_: &mut Lent) -> Key {
        Key
    }

    fn public_key(&self) -> Point {
        Point
    }

    /// One byte is looked at, so that the compiler cannot leave out what is to be signed.
    #[inline(never)]
    fn sign(&self, message: &[u8]) -> Der {
        unsafe { std::ptr::read_volatile(message.as_ptr()) };
        Der
    }

    fn import(_: &[u8]) -> Option<Key> {
        Some(Key)
    }
}

impl EcPublicKey for Point {
    fn to_coordinates(&self, x: &mut [u8; 32], y: &mut [u8; 32]) {
        *x = X;
        *y = Y;
    }
}

impl EcSignature for Der {
    fn to_der(&self) -> Vec<u8> {
        handed(&SIGNATURE)
    }
}

impl Env for Lent {
    type Clock = Lent;
    type Persist = Lent;
    type KeyStore = Lent;
    type SecretKey = Key;

    fn clock(&mut self) -> &mut Lent {
        self
    }

    fn persist(&mut self) -> &mut Lent {
        self
    }

    fn key_store(&mut self) -> &mut Lent {
        self
    }

    fn rng(&mut self) -> &mut Lent {
        self
    }

    fn allows_ctap1(&self) -> Result<bool, ()> {
        Ok(true)
    }
}

/// What the stand-ins of an enrolment allocate and hand over, and no more.
pub fn register_hands_over() {
    drop((handed(&HANDLE), handed(&CERTIFICATE), handed(&SIGNATURE)));
}

/// The same of a login.
pub fn authenticate_hands_over() {
    drop(handed(&SIGNATURE));
}
