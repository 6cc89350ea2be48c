//! Unwinding on x86_64.

use crate::cache::{AllocationPolicy, CacheStats, MayAllocateDuringUnwind};
use crate::code_address::FrameAddress;
use crate::error::Error;
use crate::hex::Hex;
use crate::layout::Frame;
use crate::mirror::Mirror;
use crate::module::Module;
use crate::modules::Modules;
use crate::unwinder::Unwinder;
use std::fmt;
use std::marker::PhantomData;
use std::ops::Deref;

/// The architecture x86_64.
pub struct ArchX86_64;

/// A general register, by its DWARF number.
#[derive(Clone, Copy, Debug, PartialEq, Eq, PartialOrd, Ord, Hash)]
#[repr(u8)]
#[rustfmt::skip]
#[allow(missing_docs)]
pub enum Reg { RAX, RDX, RCX, RBX, RSI, RDI, RBP, RSP, R8, R9, R10, R11, R12, R13, R14, R15 }

const NAMES: [&str; 17] =
    ["ip", "rax", "rdx", "rcx", "rbx", "rsi", "rdi", "rbp", "rsp", "r8", "r9", "r10", "r11", "r12", "r13", "r14", "r15"];

/// The registers of a frame: first the instruction pointer, then the general ones. They are where C has them, so that a step copies none.
#[derive(Clone, Copy, PartialEq, Eq)]
pub struct UnwindRegsX86_64(Frame<[u64; 17]>);

impl UnwindRegsX86_64 {
    /// These three, and 0 in the others.
    pub fn new(ip: u64, sp: u64, bp: u64) -> Self {
        let mut regs = UnwindRegsX86_64(Frame::of([0; 17]));
        regs.set_ip(ip);
        regs.set_sp(sp);
        regs.set_bp(bp);
        regs
    }

    /// The value of a general register.
    #[inline(always)]
    pub fn get(&self, reg: Reg) -> u64 {
        self.0.registers[1 + reg as usize]
    }

    /// Sets a general register.
    #[inline(always)]
    pub fn set(&mut self, reg: Reg, value: u64) {
        self.0.registers[1 + reg as usize] = value;
    }

    /// The instruction pointer.
    #[inline(always)]
    pub fn ip(&self) -> u64 {
        self.0.registers[0]
    }

    /// Sets the instruction pointer.
    #[inline(always)]
    pub fn set_ip(&mut self, ip: u64) {
        self.0.registers[0] = ip;
    }

    /// The stack pointer.
    #[inline(always)]
    pub fn sp(&self) -> u64 {
        self.get(Reg::RSP)
    }

    /// Sets the stack pointer.
    #[inline(always)]
    pub fn set_sp(&mut self, sp: u64) {
        self.set(Reg::RSP, sp);
    }

    /// The frame pointer.
    #[inline(always)]
    pub fn bp(&self) -> u64 {
        self.get(Reg::RBP)
    }

    /// Sets the frame pointer.
    #[inline(always)]
    pub fn set_bp(&mut self, bp: u64) {
        self.set(Reg::RBP, bp);
    }
}

impl fmt::Debug for UnwindRegsX86_64 {
    fn fmt(&self, f: &mut fmt::Formatter<'_>) -> fmt::Result {
        let mut shown = f.debug_struct("UnwindRegsX86_64");
        for (name, value) in NAMES.iter().zip(self.0.registers) {
            shown.field(name, &Hex(value));
        }
        shown.finish()
    }
}

/// What steps on x86_64 keep.
pub struct CacheX86_64<P: AllocationPolicy = MayAllocateDuringUnwind>(Mirror<[u64; 17], P>);

/// An unwinder of x86_64. The bytes of its modules' sections are behind values of `D`.
pub struct UnwinderX86_64<D, P = MayAllocateDuringUnwind>(Modules<D, [u64; 17]>, PhantomData<P>);

crate::architecture::of!(CacheX86_64, UnwinderX86_64, UnwindRegsX86_64);
