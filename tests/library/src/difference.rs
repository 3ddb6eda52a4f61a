//! What differs between the library and what is expected of it.

use std::fmt::Debug;

/// What differed, and where.
pub type Difference = String;

/// An error that names both sides, unless they are the same.
pub fn same<T: PartialEq + Debug + ?Sized>(
    got: &T,
    expected: &T,
    what: impl FnOnce() -> String,
) -> Result<(), Difference> {
    if got == expected {
        return Ok(());
    }
    Err(format!("{}: the library {got:?}, expected {expected:?}", what()))
}
