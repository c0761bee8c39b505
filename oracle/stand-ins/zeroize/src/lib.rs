//! Stand-in for zeroize: a plain wrapper that wipes nothing.

use std::ops::{Deref, DerefMut};

/// Holds a value as it is.
#[derive(Clone, Debug, Default)]
pub struct Zeroizing<T>(T);

impl<T> Zeroizing<T> {
    /// Wraps `value`.
    pub fn new(value: T) -> Self {
        Self(value)
    }
}

impl<T> Deref for Zeroizing<T> {
    type Target = T;

    fn deref(&self) -> &T {
        &self.0
    }
}

impl<T> DerefMut for Zeroizing<T> {
    fn deref_mut(&mut self) -> &mut T {
        &mut self.0
    }
}
