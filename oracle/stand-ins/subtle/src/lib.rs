//! Stand-in for subtle: an ordinary comparison.

/// The outcome of a comparison.
pub struct Choice(bool);

impl From<Choice> for bool {
    fn from(choice: Choice) -> bool {
        choice.0
    }
}

/// Compares two values.
pub trait ConstantTimeEq {
    /// Says whether both are equal.
    fn ct_eq(&self, other: &Self) -> Choice;
}

impl<T: PartialEq> ConstantTimeEq for T {
    fn ct_eq(&self, other: &Self) -> Choice {
        Choice(self == other)
    }
}
