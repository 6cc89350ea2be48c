//! Unwinding on aarch64.

use crate::cache::{AllocationPolicy, CacheStats, MayAllocateDuringUnwind};
use crate::code_address::FrameAddress;
use crate::error::Error;
use crate::hex::Hex;
use crate::layout::Frame;
use crate::mirror::Mirror;
use crate::module::Module;
use crate::modules::Modules;
use crate::unwinder::Unwinder;
use std::fmt;
use std::marker::PhantomData;
use std::ops::Deref;

/// The architecture aarch64.
pub struct ArchAarch64;

/// The bits of a pointer that are its address. The others may hold a code by which the processor authenticates it.
#[derive(Debug, Clone, Copy, PartialEq, Eq, Hash, PartialOrd, Ord)]
pub struct PtrAuthMask(pub u64);

impl PtrAuthMask {
    /// All bits: nothing is stripped.
    pub fn new_no_strip() -> Self {
        PtrAuthMask(u64::MAX)
    }

    /// The lowest 40 bits, as on macOS.
    pub fn new_24_40() -> Self {
        PtrAuthMask(u64::MAX >> 24)
    }

    /// The bits up to the highest one of an address, or all for 0.
    pub fn from_max_known_address(address: u64) -> Self {
        PtrAuthMask(u64::MAX.checked_shr(address.leading_zeros()).unwrap_or(u64::MAX))
    }

    /// The address of a pointer.
    #[inline(always)]
    pub fn strip_ptr_auth(&self, ptr: u64) -> u64 {
        ptr & self.0
    }
}

/// The registers of a frame: the mask of return addresses, `lr`, `sp` and `fp`. They are where C has them, so that a step copies none.
#[derive(Clone, Copy, PartialEq, Eq)]
pub struct UnwindRegsAarch64(Frame<[u64; 4]>);

impl UnwindRegsAarch64 {
    /// These three, with a mask that strips nothing.
    pub fn new(lr: u64, sp: u64, fp: u64) -> Self {
        Self::new_with_ptr_auth_mask(PtrAuthMask::new_no_strip(), lr, sp, fp)
    }

    /// These three, with a mask for return addresses, also for `lr`.
    pub fn new_with_ptr_auth_mask(code_ptr_auth_mask: PtrAuthMask, lr: u64, sp: u64, fp: u64) -> Self {
        UnwindRegsAarch64(Frame::of([code_ptr_auth_mask.0, code_ptr_auth_mask.strip_ptr_auth(lr), sp, fp]))
    }

    /// The mask of return addresses.
    #[inline(always)]
    pub fn lr_mask(&self) -> PtrAuthMask {
        PtrAuthMask(self.0.registers[0])
    }

    /// The stack pointer.
    #[inline(always)]
    pub fn sp(&self) -> u64 {
        self.0.registers[2]
    }

    /// Sets the stack pointer.
    #[inline(always)]
    pub fn set_sp(&mut self, sp: u64) {
        self.0.registers[2] = sp;
    }

    /// The frame pointer, `x29`.
    #[inline(always)]
    pub fn fp(&self) -> u64 {
        self.0.registers[3]
    }

    /// Sets the frame pointer.
    #[inline(always)]
    pub fn set_fp(&mut self, fp: u64) {
        self.0.registers[3] = fp;
    }

    /// The link register, `x30`.
    #[inline(always)]
    pub fn lr(&self) -> u64 {
        self.0.registers[1]
    }

    /// Sets the link register, to the address of the pointer.
    #[inline(always)]
    pub fn set_lr(&mut self, lr: u64) {
        self.0.registers[1] = self.lr_mask().strip_ptr_auth(lr);
    }
}

impl fmt::Debug for UnwindRegsAarch64 {
    fn fmt(&self, f: &mut fmt::Formatter<'_>) -> fmt::Result {
        let [_, lr, sp, fp] = self.0.registers.map(Hex);
        f.debug_struct("UnwindRegsAarch64").field("lr", &lr).field("sp", &sp).field("fp", &fp).finish()
    }
}

/// What steps on aarch64 keep.
pub struct CacheAarch64<P: AllocationPolicy = MayAllocateDuringUnwind>(Mirror<[u64; 4], P>);

/// An unwinder of aarch64. The bytes of its modules' sections are behind values of `D`.
pub struct UnwinderAarch64<D, P = MayAllocateDuringUnwind>(Modules<D, [u64; 4]>, PhantomData<P>);

crate::architecture::of!(CacheAarch64, UnwinderAarch64, UnwindRegsAarch64);
