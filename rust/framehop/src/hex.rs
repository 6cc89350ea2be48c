//! Numbers as registers show them.

use std::fmt;

/// A number that shows itself in hexadecimal: with `0x` before it in `{:#?}`.
pub(crate) struct Hex(pub(crate) u64);

impl fmt::Debug for Hex {
    fn fmt(&self, f: &mut fmt::Formatter<'_>) -> fmt::Result {
        fmt::LowerHex::fmt(&self.0, f)
    }
}
