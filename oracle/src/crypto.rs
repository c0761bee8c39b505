//! Stand-ins for the cipher wrappers: they give zeros, and fail where the script says so.

use std::cell::Cell;

use crate::errors::Error;
use crate::keys::PublicKey;
use zeroize::Zeroizing;

thread_local! {
    static OPENING_FAILS: Cell<bool> = const { Cell::new(false) };
}

/// Sets whether the openings and key agreements that follow fail.
pub(crate) fn set_opening_fails(fails: bool) {
    OPENING_FAILS.set(fails);
}

/// The outcome that the script chose.
fn outcome() -> Result<(), Error> {
    if OPENING_FAILS.get() {
        return Err(Error::InvalidAeadTag);
    }

    Ok(())
}

/// A shared secret of zeros.
pub(crate) struct SharedKey([u8; 32]);

impl SharedKey {
    pub(crate) fn as_bytes(&self) -> &[u8; 32] {
        &self.0
    }
}

/// Agrees on a key, unless the script says that it fails.
pub(crate) fn dh<S>(_secret: &S, _public: &PublicKey) -> Result<SharedKey, Error> {
    outcome().map(|()| SharedKey([0; 32]))
}

/// Opens a field of a handshake message, unless the script says that it fails.
pub(crate) fn aead_chacha20_open(
    _dst: &mut [u8],
    _key: &[u8; 32],
    _counter: u64,
    _data: &[u8],
    _aad: &[u8],
) -> Result<(), Error> {
    outcome()
}

/// Opens a cookie, unless the script says that it fails.
pub(crate) fn xaead_open(
    _dst: &mut [u8],
    _key: &[u8; 32],
    _nonce: &[u8; 24],
    _data: &[u8],
    _aad: &[u8],
) -> Result<(), Error> {
    outcome()
}

/// Leaves the destination as it is.
pub(crate) fn aead_chacha20_seal(
    _dst: &mut [u8],
    _key: &[u8; 32],
    _counter: u64,
    _data: &[u8],
    _aad: &[u8],
) {
}

pub(crate) fn b2s_hash(_first: &[u8], _second: &[u8]) -> [u8; 32] {
    [0; 32]
}

pub(crate) fn b2s_hmac(_key: &[u8; 32], _data: &[u8]) -> Zeroizing<[u8; 32]> {
    Zeroizing::new([0; 32])
}

pub(crate) fn b2s_hmac2(_key: &[u8; 32], _first: &[u8; 32], _second: &[u8]) -> Zeroizing<[u8; 32]> {
    Zeroizing::new([0; 32])
}

pub(crate) fn b2s_keyed_mac_16(_key: &[u8], _data: &[u8]) -> [u8; 16] {
    [0; 16]
}

pub(crate) fn nonce(_counter: u64) -> [u8; 12] {
    [0; 12]
}
