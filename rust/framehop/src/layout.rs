//! The structs of `framehop.h` that calls are given.

use crate::code_address::FrameAddress;
use std::ffi::c_void;
use std::marker::PhantomData;
use std::ops::Range;
use std::ptr;

/// `framehop_session`: what it points to is the library's own.
#[repr(C)]
pub(crate) struct Handle(*mut c_void);

impl Handle {
    /// `FRAMEHOP_NO_SESSION`.
    pub(crate) const NONE: Handle = Handle(ptr::null_mut());

    pub(crate) fn is_none(&self) -> bool {
        self.0.is_null()
    }
}

/// `framehop_bytes`.
#[repr(C)]
pub(crate) struct Bytes(*const u8, usize);

impl Bytes {
    /// Those of a slice, as long as it is borrowed.
    pub(crate) fn of(bytes: &[u8]) -> Bytes {
        Bytes(bytes.as_ptr(), bytes.len())
    }
}

/// `framehop_section`.
#[repr(C)]
pub(crate) struct Section {
    name: Bytes,
    bytes: Bytes,
    start: u64,
    end: u64,
    given: u64,
}

const HAS_BYTES: u64 = 1;
const HAS_RANGE: u64 = 2;
const IS_SEGMENT: u64 = 4;

impl Section {
    /// What is known of a section, or of a segment.
    pub(crate) fn new(name: &str, bytes: Option<&[u8]>, range: &Option<Range<u64>>, is_segment: bool) -> Section {
        let has_bytes = if bytes.is_some() { HAS_BYTES } else { 0 };
        let has_range = if range.is_some() { HAS_RANGE } else { 0 };
        let (start, end) = range.as_ref().map_or((0, 0), |it| (it.start, it.end));
        let given = has_bytes | has_range | if is_segment { IS_SEGMENT } else { 0 };
        Section { name: Bytes::of(name.as_bytes()), bytes: Bytes::of(bytes.unwrap_or(&[])), start, end, given }
    }
}

/// `framehop_module`.
#[repr(C)]
pub(crate) struct MappedFile {
    pub(crate) start: u64,
    pub(crate) end: u64,
    pub(crate) base: u64,
    pub(crate) base_svma: u64,
    pub(crate) sections: *const Section,
    pub(crate) section_count: usize,
    /// `lookup`, `tables`, `debug_frame_beside` and `code_rules`: zeros are the original's choices.
    pub(crate) options: [u32; 4],
}

/// `framehop_word`: what `read_stack` answered for an address.
#[derive(Clone, Copy)]
#[repr(C)]
pub(crate) struct Word {
    address: u64,
    word: u64,
    is_readable: u64,
}

impl Word {
    /// An answer of `read_stack`.
    #[inline(always)]
    pub(crate) fn of(address: u64, answer: Result<u64, ()>) -> Word {
        Word { address, word: answer.unwrap_or(0), is_readable: answer.is_ok().into() }
    }

    /// The address that `read_stack` was asked for.
    #[inline(always)]
    pub(crate) fn address(&self) -> u64 {
        self.address
    }
}

/// `framehop_sample`, of words that are borrowed. Others are asked for.
#[repr(C)]
pub(crate) struct Sample<'a> {
    start: u64,
    bytes: Bytes,
    known: *const Word,
    known_count: usize,
    asks: u64,
    borrowed: PhantomData<&'a Word>,
}

impl<'a> Sample<'a> {
    /// Words that are known.
    pub(crate) fn of_known(known: &'a [Word]) -> Sample<'a> {
        let (known, known_count) = (known.as_ptr(), known.len());
        Sample { start: 0, bytes: Bytes::of(&[]), known, known_count, asks: 1, borrowed: PhantomData }
    }

    /// A copy of the words from an address on, and words beside it.
    #[inline(always)]
    pub(crate) fn of_copied(start: u64, words: &'a [CopiedWord], known: &'a [Word]) -> Sample<'a> {
        let bytes = Bytes(words.as_ptr().cast(), size_of_val(words));
        Sample { start, bytes, known: known.as_ptr(), known_count: known.len(), asks: 1, borrowed: PhantomData }
    }
}

/// A word as it is on the stack, where the lowest byte comes first.
#[derive(Clone, Copy)]
#[repr(transparent)]
pub(crate) struct CopiedWord(u64);

impl CopiedWord {
    /// The word with this value.
    #[inline(always)]
    pub(crate) fn of(value: u64) -> CopiedWord {
        CopiedWord(value.to_le())
    }

    /// Its value.
    pub(crate) fn value(self) -> u64 {
        u64::from_le(self.0)
    }
}

/// `framehop_frame_x86_64` or `framehop_frame_aarch64`, by its registers.
#[derive(Clone, Copy)]
#[repr(C)]
pub(crate) struct Frame<R> {
    pub(crate) unwinder: u64,
    pub(crate) cache: u64,
    place: u64,
    address: u64,
    pub(crate) registers: R,
    pub(crate) return_address: u64,
    pub(crate) word_address: u64,
}

/// The place of a first frame. That of any other is the next number.
const AT_INSTRUCTION: u64 = 1;

impl<R> Frame<R> {
    /// Registers of a frame whose place isn't known.
    pub(crate) fn of(registers: R) -> Frame<R> {
        Frame { unwinder: 0, cache: 0, place: 0, address: 0, registers, return_address: 0, word_address: 0 }
    }

    /// Puts the frame at an address.
    #[inline(always)]
    pub(crate) fn set_address(&mut self, address: FrameAddress) {
        self.place = AT_INSTRUCTION + u64::from(address.is_return_address());
        self.address = address.address();
    }

    /// 1 at a return address, else 0.
    #[inline(always)]
    pub(crate) fn is_at_return(&self) -> u64 {
        self.place.wrapping_sub(AT_INSTRUCTION)
    }

    /// The address that it is looked up by.
    #[inline(always)]
    pub(crate) fn address_for_lookup(&self) -> u64 {
        self.address.wrapping_sub(self.is_at_return())
    }
}

/// Frames are the same if their registers are.
impl<R: PartialEq> PartialEq for Frame<R> {
    fn eq(&self, other: &Self) -> bool {
        self.registers == other.registers
    }
}

impl<R: Eq> Eq for Frame<R> {}

const _: () = {
    assert!(size_of::<Handle>() == 8 && size_of::<Section>() == 56 && size_of::<MappedFile>() == 64);
    assert!(size_of::<Word>() == 24 && size_of::<Sample>() == 48 && size_of::<crate::cache::CacheStats>() == 32);
    assert!(size_of::<Frame<[u64; 17]>>() == 184 && size_of::<Frame<[u64; 4]>>() == 80);
};
