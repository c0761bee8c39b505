//! Stand-in for ring: a cipher that changes nothing and never fails.

pub mod aead {
    /// The failure that this cipher never gives.
    #[derive(Debug)]
    pub struct Unspecified;

    /// Names a cipher.
    pub struct Algorithm;

    /// The one cipher.
    pub static CHACHA20_POLY1305: Algorithm = Algorithm;

    /// Additional data, not looked at.
    pub struct Aad;

    impl Aad {
        /// Takes any bytes.
        pub fn from(_bytes: &[u8]) -> Self {
            Self
        }
    }

    /// A nonce, not looked at.
    pub struct Nonce;

    impl Nonce {
        /// Takes any bytes.
        pub fn assume_unique_for_key(_bytes: [u8; 12]) -> Self {
            Self
        }
    }

    /// A key, not looked at.
    pub struct UnboundKey;

    impl UnboundKey {
        /// Takes any bytes.
        pub fn new(_algorithm: &Algorithm, _bytes: &[u8]) -> Result<Self, Unspecified> {
            Ok(Self)
        }
    }

    /// An authentication tag of zeros.
    pub struct Tag([u8; 16]);

    impl AsRef<[u8]> for Tag {
        fn as_ref(&self) -> &[u8] {
            &self.0
        }
    }

    /// A cipher with its key.
    pub struct LessSafeKey;

    impl LessSafeKey {
        /// Takes any key.
        pub fn new(_key: UnboundKey) -> Self {
            Self
        }

        /// Leaves the data as it is.
        pub fn seal_in_place_separate_tag(
            &self,
            _nonce: Nonce,
            _aad: Aad,
            _data: &mut [u8],
        ) -> Result<Tag, Unspecified> {
            Ok(Tag([0; 16]))
        }

        /// Cuts off the tag.
        pub fn open_in_place<'a>(
            &self,
            _nonce: Nonce,
            _aad: Aad,
            data: &'a mut [u8],
        ) -> Result<&'a mut [u8], Unspecified> {
            let len = data.len().checked_sub(16).ok_or(Unspecified)?;

            Ok(&mut data[..len])
        }
    }
}
