//! Why a step fails.

use std::fmt;

/// Why a step fails. The registers are then as they were.
#[derive(Debug, Clone, Copy, PartialEq, Eq)]
pub enum Error {
    /// The word at this address can't be read: `read_stack` answered an error.
    CouldNotReadStack(u64),
    /// The caller's stack pointer would be below the frame's.
    FramepointerUnwindingMovedBackwards,
    /// The caller would be the frame itself.
    DidNotAdvance,
    /// An address that the step needs is below 0 or past 64 bits.
    IntegerOverflow,
    /// The return address is 0.
    ReturnAddressIsNull,
}

impl fmt::Display for Error {
    fn fmt(&self, f: &mut fmt::Formatter<'_>) -> fmt::Result {
        match self {
            Error::CouldNotReadStack(address) => write!(f, "the word of the stack at {address:#x} can't be read"),
            Error::FramepointerUnwindingMovedBackwards => f.write_str("the frame pointer leads down the stack"),
            Error::DidNotAdvance => f.write_str("the caller is the frame itself"),
            Error::IntegerOverflow => f.write_str("an address is out of 64 bits"),
            Error::ReturnAddressIsNull => f.write_str("the return address is 0"),
        }
    }
}

impl std::error::Error for Error {}
