//! Stand-in for rand: a generator that draws zeros, and a jitter that the script chose.

use std::cell::Cell;
use std::convert::Infallible;
use std::ops::RangeInclusive;
use std::time::Duration;

thread_local! {
    static JITTER: Cell<Duration> = const { Cell::new(Duration::ZERO) };
}

/// Sets what the next draws of a duration give.
pub fn set_jitter(jitter: Duration) {
    JITTER.set(jitter);
}

/// A source of numbers that may fail.
pub trait TryRng {
    type Error;

    fn try_next_u32(&mut self) -> Result<u32, Self::Error>;
    fn try_next_u64(&mut self) -> Result<u64, Self::Error>;
    fn try_fill_bytes(&mut self, dst: &mut [u8]) -> Result<(), Self::Error>;
}

/// Marks a source that is fit for keys.
pub trait TryCryptoRng: TryRng {}

/// A source of numbers that never fails.
pub trait Rng {
    fn next_u32(&mut self) -> u32;
    fn next_u64(&mut self) -> u64;
    fn fill_bytes(&mut self, dst: &mut [u8]);
}

impl<R: TryRng<Error = Infallible>> Rng for R {
    fn next_u32(&mut self) -> u32 {
        let Ok(value) = self.try_next_u32();
        value
    }

    fn next_u64(&mut self) -> u64 {
        let Ok(value) = self.try_next_u64();
        value
    }

    fn fill_bytes(&mut self, dst: &mut [u8]) {
        let Ok(()) = self.try_fill_bytes(dst);
    }
}

/// Marks a source that never fails and is fit for keys.
pub trait CryptoRng: Rng {}

impl<R: TryCryptoRng<Error = Infallible>> CryptoRng for R {}

/// Draws of other kinds.
pub trait RngExt: Rng {
    /// Draws a number.
    fn random<T: From<u32>>(&mut self) -> T {
        T::from(self.next_u32())
    }

    /// Gives the jitter that was set, or the nearest end of `range`.
    fn random_range(&mut self, range: RangeInclusive<Duration>) -> Duration {
        JITTER.get().clamp(*range.start(), *range.end())
    }
}

impl<R: Rng> RngExt for R {}

/// A source made from a seed.
pub trait SeedableRng: Sized {
    type Seed;

    fn from_seed(seed: Self::Seed) -> Self;
    fn from_rng<R: Rng>(rng: &mut R) -> Self;
}

pub mod rngs {
    use super::{Infallible, Rng, SeedableRng, TryCryptoRng, TryRng};

    /// A generator that draws zeros.
    pub struct StdRng;

    impl SeedableRng for StdRng {
        type Seed = [u8; 32];

        fn from_seed(_seed: [u8; 32]) -> Self {
            Self
        }

        fn from_rng<R: Rng>(_rng: &mut R) -> Self {
            Self
        }
    }

    impl TryRng for StdRng {
        type Error = Infallible;

        fn try_next_u32(&mut self) -> Result<u32, Infallible> {
            Ok(0)
        }

        fn try_next_u64(&mut self) -> Result<u64, Infallible> {
            Ok(0)
        }

        fn try_fill_bytes(&mut self, dst: &mut [u8]) -> Result<(), Infallible> {
            dst.fill(0);
            Ok(())
        }
    }

    impl TryCryptoRng for StdRng {}
}
