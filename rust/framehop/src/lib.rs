//! The names of `framehop` 0.16.0, over libframehop.a: the same stack unwinder, with machine-checked proofs.
//!
//! A step through any cache is the one that the unwinder's modules give without a cache, over the words that `read_stack` answered. That is
//! proved of the library; this crate, which calls it, is not proved. It asks `read_stack` at most once for an address in a step, so that
//! its answers are one map of words, whatever the closure does.
//!
//! A cache has a session of the library, in which the unwinders that it is used with are mirrored. Sessions share nothing, so that threads
//! with a cache each don't wait for each other in steps. The session of a cache that is dropped stays with the unwinder for a new one.
//!
//! ```
//! use framehop::x86_64::{CacheX86_64, UnwindRegsX86_64, UnwinderX86_64};
//! use framehop::{ExplicitModuleSectionInfo, Module, Unwinder};
//!
//! let mut unwinder = UnwinderX86_64::new();
//! let sections = ExplicitModuleSectionInfo::<Vec<u8>>::default();
//! unwinder.add_module(Module::new("program".into(), 0x1000..0x2000, 0x1000, sections));
//!
//! let stack = [0x0, 0x20, 0x1234, 0x0, 0x0, 0x0];
//! let mut read_stack = |address: u64| stack.get(address as usize / 8).copied().ok_or(());
//! let mut cache = CacheX86_64::new();
//! let registers = UnwindRegsX86_64::new(0x1800, 0x8, 0x8);
//! let mut frames = unwinder.iter_frames(0x1800, registers, &mut cache, &mut read_stack);
//! assert_eq!(frames.next().unwrap().unwrap().address(), 0x1800);
//! assert_eq!(frames.next().unwrap().unwrap().address(), 0x1234);
//! assert!(frames.next().unwrap().is_none());
//! ```

#![deny(unsafe_code, unsafe_op_in_unsafe_fn, missing_docs)]

#[cfg(not(target_pointer_width = "64"))]
compile_error!("libframehop.a is built for computers of 64 bits");

mod architecture;
mod c;
mod cache;
mod code_address;
mod error;
mod habits;
mod hex;
mod layout;
mod mirror;
mod module;
mod modules;
mod status;
mod unwinder;

pub mod aarch64;
pub mod x86_64;

pub use cache::{AllocationPolicy, CacheStats, MayAllocateDuringUnwind, MustNotAllocateDuringUnwind};
pub use code_address::FrameAddress;
pub use error::Error;
pub use module::{ExplicitModuleSectionInfo, Module, ModuleSectionInfo};
pub use unwinder::{UnwindIterator, Unwinder};

#[cfg(target_arch = "aarch64")]
use aarch64::{CacheAarch64 as Cache, UnwindRegsAarch64 as Registers, UnwinderAarch64 as OfComputer};
#[cfg(target_arch = "x86_64")]
use x86_64::{CacheX86_64 as Cache, UnwindRegsX86_64 as Registers, UnwinderX86_64 as OfComputer};

/// The cache of this computer's architecture.
pub type CacheNative<P> = Cache<P>;
/// The registers of this computer's architecture.
pub type UnwindRegsNative = Registers;
/// The unwinder of this computer's architecture.
pub type UnwinderNative<D, P> = OfComputer<D, P>;
