//! What steps keep, and whether they may allocate.

/// Whether steps may allocate: `MayAllocateDuringUnwind` or `MustNotAllocateDuringUnwind`. There are no others:
///
/// ```compile_fail,E0277
/// struct Mine;
/// impl framehop::AllocationPolicy for Mine {}
/// ```
pub trait AllocationPolicy: sealed::Policy {}

/// Steps may allocate: one that reads more words than there is room for makes room.
pub struct MayAllocateDuringUnwind;

/// Steps allocate nothing here, and in the library only the values of an expression: one that reads more than 256 words of the stack fails with
/// `CouldNotReadStack`. The first step with a cache, or after the unwinder's modules were changed, does allocate, unless the cache was
/// [prepared](crate::x86_64::CacheX86_64::prepare).
pub struct MustNotAllocateDuringUnwind;

impl AllocationPolicy for MayAllocateDuringUnwind {}
impl AllocationPolicy for MustNotAllocateDuringUnwind {}

pub(crate) mod sealed {
    #[diagnostic::on_unimplemented(
        message = "`{Self}` can't be a policy of allocation: the library has no storage of other types, as gimli has",
        label = "neither `MayAllocateDuringUnwind` nor `MustNotAllocateDuringUnwind`"
    )]
    pub trait Policy {
        /// Whether a step may make room for more words.
        const MAY_ALLOCATE: bool;
    }

    impl Policy for super::MayAllocateDuringUnwind {
        const MAY_ALLOCATE: bool = true;
    }

    impl Policy for super::MustNotAllocateDuringUnwind {
        const MAY_ALLOCATE: bool = false;
    }
}

/// How many look-ups in a cache found a rule, and why the others didn't.
#[derive(Default, Debug, Clone, Copy)]
#[repr(C)]
pub struct CacheStats {
    /// A rule was found.
    pub hit_count: u64,
    /// Nothing was kept there.
    pub miss_empty_slot_count: u64,
    /// What was kept there was of other modules: of another unwinder, or from before a change.
    pub miss_wrong_modules_count: u64,
    /// What was kept there was of another address.
    pub miss_wrong_address_count: u64,
}

impl CacheStats {
    /// No look-up.
    pub fn new() -> Self {
        CacheStats::default()
    }

    /// All look-ups.
    pub fn total(&self) -> u64 {
        self.hits().saturating_add(self.misses())
    }

    /// Look-ups that found a rule.
    pub fn hits(&self) -> u64 {
        self.hit_count
    }

    /// Look-ups that found none.
    pub fn misses(&self) -> u64 {
        self.miss_empty_slot_count.saturating_add(self.miss_wrong_modules_count).saturating_add(self.miss_wrong_address_count)
    }

    /// Adds one look-up, of which it is known what was counted, maybe several times, between two looks at other counts.
    pub(crate) fn add_look_up(&mut self, before: &CacheStats, after: &CacheStats, is_hit: bool) {
        if is_hit {
            self.hit_count += 1;
            return;
        }
        self.miss_empty_slot_count += u64::from(after.miss_empty_slot_count != before.miss_empty_slot_count);
        self.miss_wrong_modules_count += u64::from(after.miss_wrong_modules_count != before.miss_wrong_modules_count);
        self.miss_wrong_address_count += u64::from(after.miss_wrong_address_count != before.miss_wrong_address_count);
    }
}
