//! Whether wrapper and library are of one make.

use crate::{entries, INTERFACE};
use std::{error::Error, fmt};

/// The library has another interface than [`INTERFACE`].
#[derive(Clone, Copy, Debug, PartialEq, Eq)]
pub struct OtherInterface {
    /// The library's number.
    pub library: u64,
}

impl fmt::Display for OtherInterface {
    fn fmt(&self, f: &mut fmt::Formatter<'_>) -> fmt::Result {
        write!(f, "the library has the interface {}, the wrapper is written for {INTERFACE}", self.library)
    }
}

impl Error for OtherInterface {}

/// Compares the library's interface number with [`INTERFACE`].
pub fn check_interface() -> Result<(), OtherInterface> {
    // SAFETY: the entry takes nothing and replies a number, under every interface.
    compared(unsafe { entries::kb_interface() })
}

/// Every path to an entry leads through this test, since another interface may have other structs.
pub(crate) fn demand_interface() {
    if let Err(other) = check_interface() {
        panic!("{other}");
    }
}

fn compared(library: u64) -> Result<(), OtherInterface> {
    if library == INTERFACE {
        Ok(())
    } else {
        Err(OtherInterface { library })
    }
}

#[test]
fn another_interface_is_told() {
    assert_eq!(check_interface(), Ok(()));
    for library in [0, INTERFACE - 1, INTERFACE + 1, 1 << 32 | INTERFACE, u64::MAX] {
        let other = compared(library).unwrap_err();
        assert_eq!(other.to_string(), format!("the library has the interface {library}, the wrapper is written for 7"));
    }
}
