//! Which types may go to other threads, and which traits they have: as framehop's.

use framehop::aarch64::{CacheAarch64, PtrAuthMask, UnwindRegsAarch64, UnwinderAarch64};
use framehop::x86_64::{CacheX86_64, Reg, UnwindRegsX86_64, UnwinderX86_64};
use framehop::{CacheStats, Error, ExplicitModuleSectionInfo, FrameAddress, Module, MustNotAllocateDuringUnwind, Unwinder};
use std::fmt::Debug;
use std::hash::Hash;
use std::sync::Arc;

fn goes_to_threads<T: Send + Sync>() {}
fn is_plain<T: Debug + Copy + Eq>() {}
fn is_ordered<T: Ord + Hash>() {}
fn is_unwinder<T: Unwinder + Default + Clone>() {}
fn is_default<T: Default>() {}

#[test]
fn types_have_their_traits() {
    goes_to_threads::<UnwinderX86_64<Arc<[u8]>>>();
    goes_to_threads::<UnwinderAarch64<Vec<u8>, MustNotAllocateDuringUnwind>>();
    goes_to_threads::<CacheX86_64>();
    goes_to_threads::<CacheAarch64<MustNotAllocateDuringUnwind>>();
    goes_to_threads::<Module<Vec<u8>>>();
    goes_to_threads::<UnwindRegsX86_64>();
    is_plain::<FrameAddress>();
    is_plain::<Error>();
    is_plain::<UnwindRegsX86_64>();
    is_plain::<UnwindRegsAarch64>();
    is_plain::<PtrAuthMask>();
    is_plain::<Reg>();
    is_ordered::<PtrAuthMask>();
    is_ordered::<Reg>();
    is_unwinder::<UnwinderX86_64<&[u8]>>();
    is_unwinder::<UnwinderAarch64<Box<[u8]>, MustNotAllocateDuringUnwind>>();
    is_default::<CacheX86_64<MustNotAllocateDuringUnwind>>();
    is_default::<CacheAarch64>();
    is_default::<CacheStats>();
    is_default::<ExplicitModuleSectionInfo<Vec<u8>>>();
}

#[test]
fn errors_say_what_is_wrong() {
    fn text(error: impl std::error::Error) -> String {
        error.to_string()
    }
    assert!(text(Error::CouldNotReadStack(0x1234)).contains("0x1234"));
    for error in [Error::FramepointerUnwindingMovedBackwards, Error::DidNotAdvance, Error::IntegerOverflow, Error::ReturnAddressIsNull] {
        assert!(!text(error).is_empty());
    }
}

#[test]
fn masks_keep_the_bits_of_known_addresses() {
    for (address, mask) in [(0, u64::MAX), (1, 1), (0x1_0000, 0x1_ffff), (u64::MAX, u64::MAX)] {
        assert_eq!(PtrAuthMask::from_max_known_address(address), PtrAuthMask(mask));
    }
}
