//! What the three upstream files lean on, as far as they use it. The hardware's answers are lent, so nothing here decides
//! anything: a stand-in hands on what `Lent` holds, and notes what it was asked.

pub mod api {
    pub mod clock {
        pub trait Clock {
            type Timer: Default;
            fn make_timer(&mut self, milliseconds: usize) -> Self::Timer;
            fn is_elapsed(&mut self, timer: &Self::Timer) -> bool;
        }
    }

    pub mod crypto {
        pub const EC_FIELD_SIZE: usize = 32;

        pub mod ec_signing {
            use super::EC_FIELD_SIZE;
            use crate::lent::Lent;

            pub trait EcSecretKey: Sized {
                type PublicKey: EcPublicKey;
                type Signature: EcSignature;
                fn random(rng: &mut Lent) -> Self;
                fn public_key(&self) -> Self::PublicKey;
                fn sign(&self, message: &[u8]) -> Self::Signature;
                fn import(bytes: &[u8]) -> Option<Self>;
            }

            pub trait EcPublicKey {
                fn to_coordinates(&self, x: &mut [u8; EC_FIELD_SIZE], y: &mut [u8; EC_FIELD_SIZE]);
            }

            pub trait EcSignature {
                fn to_der(&self) -> Vec<u8>;
            }
        }
    }

    pub mod key_store {
        /// Whether a credential may be used without the user's verification, which U2F never has.
        #[derive(Clone, Copy, PartialEq, Eq)]
        pub enum Policy {
            VerificationRequired,
        }

        /// The key store is lent: what upstream puts in beside the key is looked at by nobody.
        #[allow(dead_code)]
        pub struct CredentialSource {
            pub wrapped_private_key: Vec<u8>,
            pub rp_id_hash: [u8; 32],
            pub cred_protect_policy: Option<Policy>,
            pub cred_blob: Option<Vec<u8>>,
        }

        pub trait KeyStore {
            fn wrap_credential(&mut self, credential: CredentialSource) -> Result<Vec<u8>, ()>;
            fn unwrap_credential(&mut self, bytes: &[u8], rp_id_hash: &[u8]) -> Result<Option<CredentialSource>, ()>;
        }
    }

    pub mod persist {
        #[derive(PartialEq, Eq)]
        pub enum AttestationId {
            Batch,
        }

        pub struct Attestation {
            pub wrapped_private_key: Vec<u8>,
            pub certificate: Vec<u8>,
        }

        pub trait Persist {
            fn get_attestation(&self, id: AttestationId) -> Result<Option<Attestation>, ()>;
            fn incr_global_signature_counter(&mut self) -> Result<(), ()>;
            fn global_signature_counter(&self) -> Result<u32, ()>;
        }
    }

    pub mod private_key {
        use super::crypto::ec_signing::{EcSecretKey, EcSignature};
        use crate::env::{EcdsaSk, Env};

        pub enum PrivateKey<E: Env> {
            Ecdsa(EcdsaSk<E>),
        }

        impl<E: Env> PrivateKey<E> {
            /// The new key's wrapping goes to the key store, which is lent and looks at nothing.
            pub fn to_cbor(&self) -> Vec<u8> {
                Vec::new()
            }

            pub fn from_cbor(wrapped: Vec<u8>) -> Result<Self, ()> {
                EcdsaSk::<E>::import(&wrapped).map(PrivateKey::Ecdsa).ok_or(())
            }

            pub fn sign_and_encode(&self, message: &[u8]) -> Result<Vec<u8>, ()> {
                let PrivateKey::Ecdsa(key) = self;
                Ok(key.sign(message).to_der())
            }
        }
    }
}

pub mod env {
    use crate::api::clock::Clock;
    use crate::api::crypto::ec_signing::EcSecretKey;
    use crate::api::key_store::KeyStore;
    use crate::api::persist::Persist;
    use crate::lent::Lent;

    pub type EcdsaSk<E> = <E as Env>::SecretKey;
    pub type EcdsaPk<E> = <<E as Env>::SecretKey as EcSecretKey>::PublicKey;

    pub trait Env {
        type Clock: Clock;
        type Persist: Persist;
        type KeyStore: KeyStore;
        type SecretKey: EcSecretKey;
        fn clock(&mut self) -> &mut Self::Clock;
        fn persist(&mut self) -> &mut Self::Persist;
        fn key_store(&mut self) -> &mut Self::KeyStore;
        fn rng(&mut self) -> &mut Lent;
        fn allows_ctap1(&self) -> Result<bool, ()>;
    }
}
