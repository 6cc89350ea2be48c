//! Code addresses of frames.

use std::num::NonZeroU64;

/// The code address of a frame in the profiled process.
#[derive(Clone, Copy, Debug, PartialEq, Eq)]
pub enum FrameAddress {
    /// That of the first frame: the instruction pointer.
    InstructionPointer(u64),
    /// That of any other frame: the address after the call.
    ReturnAddress(NonZeroU64),
}

impl FrameAddress {
    /// The address of a first frame.
    pub fn from_instruction_pointer(ip: u64) -> Self {
        FrameAddress::InstructionPointer(ip)
    }

    /// The address of another frame, or `None` for 0.
    pub fn from_return_address(return_address: u64) -> Option<Self> {
        NonZeroU64::new(return_address).map(FrameAddress::ReturnAddress)
    }

    /// The address as it is.
    pub fn address(self) -> u64 {
        match self {
            FrameAddress::InstructionPointer(address) => address,
            FrameAddress::ReturnAddress(address) => address.get(),
        }
    }

    /// The address by which the frame's function is found: for a return address the one before, since the address after a call may be in
    /// the next function.
    pub fn address_for_lookup(self) -> u64 {
        match self {
            FrameAddress::InstructionPointer(address) => address,
            FrameAddress::ReturnAddress(address) => address.get() - 1,
        }
    }

    /// Whether this isn't a first frame.
    pub fn is_return_address(self) -> bool {
        matches!(self, FrameAddress::ReturnAddress(_))
    }
}
