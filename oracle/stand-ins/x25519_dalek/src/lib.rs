//! Stand-in for x25519_dalek: keys that are plain bytes.

/// A public key, whose bytes are those of its secret.
#[derive(Clone, Copy)]
pub struct PublicKey([u8; 32]);

impl PublicKey {
    /// Lends the bytes.
    pub fn as_bytes(&self) -> &[u8; 32] {
        &self.0
    }

    /// Copies the bytes.
    pub fn to_bytes(&self) -> [u8; 32] {
        self.0
    }
}

impl From<[u8; 32]> for PublicKey {
    fn from(bytes: [u8; 32]) -> Self {
        Self(bytes)
    }
}

impl From<&StaticSecret> for PublicKey {
    fn from(secret: &StaticSecret) -> Self {
        Self(secret.0)
    }
}

impl From<&ReusableSecret> for PublicKey {
    fn from(secret: &ReusableSecret) -> Self {
        Self(secret.0)
    }
}

/// A static secret.
#[derive(Clone)]
pub struct StaticSecret([u8; 32]);

impl StaticSecret {
    /// Lends the bytes.
    pub fn as_bytes(&self) -> &[u8; 32] {
        &self.0
    }
}

impl From<[u8; 32]> for StaticSecret {
    fn from(bytes: [u8; 32]) -> Self {
        Self(bytes)
    }
}

/// An ephemeral secret.
pub struct ReusableSecret([u8; 32]);

impl ReusableSecret {
    /// Gives the same secret every time; nothing is drawn.
    pub fn random_from_rng<R>(_rng: &mut R) -> Self {
        Self([0; 32])
    }
}
