//! Histories: unwinders of several processes that are made, cloned and dropped, as their modules come and go, over caches that all share.

use crate::by_calls::{EH_FRAME, module, word_at};
use framehop::aarch64::{CacheAarch64, PtrAuthMask, UnwindRegsAarch64, UnwinderAarch64};
use framehop::x86_64::{CacheX86_64, UnwindRegsX86_64, UnwinderX86_64};
use framehop::{Module, Unwinder};
use std::sync::Arc;

const COMMANDS: usize = 3000;
const MOST_UNWINDERS: usize = 6;
const CACHES: usize = 3;
/// Where modules start: some are next to each other, and some come again where others were.
const STARTS: [u64; 6] = [0x100000, 0x102000, 0x200000, 0x400000, 0x404000, 0x7f00_0000_0000];

/// Where walks start in a module: at instructions of its function, and elsewhere.
const PLACES: [u64; 6] = [0x1000, 0x1004, 0x1008, 0x100c, 0x1ffc, 0x800];

/// The same of a function of aarch64, which stores x29 and x30.
const EH_FRAME_AARCH64: [u8; 64] = [
    0x10, 0, 0, 0, 0, 0, 0, 0, 1, 0, 1, 0x78, 0x1e, 0xc, 0x1f, 0, 0, 0, 0, 0, 0x24, 0, 0, 0, 0x18, 0, 0, 0, 0, 0x10, 0, 0, 0, 0, 0, 0,
    0x10, 0, 0, 0, 0, 0, 0, 0, 0x44, 0xe, 0x10, 0x9d, 2, 0x9e, 1, 0x44, 0xd, 0x1d, 0, 0, 0, 0, 0, 0, 0, 0, 0, 0,
];

/// Numbers by xorshift.
struct Numbers(u64);

impl Numbers {
    fn below(&mut self, bound: usize) -> usize {
        self.0 ^= self.0 << 13;
        self.0 ^= self.0 >> 7;
        self.0 ^= self.0 << 17;
        (self.0 >> 11) as usize % bound
    }

    fn one_of<T: Copy>(&mut self, all: &[T]) -> T {
        all[self.below(all.len())]
    }
}

/// What is done with an architecture's types.
struct Profiler<U: Unwinder> {
    numbers: Numbers,
    unwinders: Vec<U>,
    caches: Vec<U::Cache>,
    registers: fn(u64, u64, u64) -> U::UnwindRegs,
}

impl<D, U: Unwinder<Module = Module<D>> + Default> Profiler<U> {
    /// Adds a module to an unwinder, or removes one.
    fn change(&mut self, made: impl Fn(u64) -> Module<D>) {
        let which = self.numbers.below(self.unwinders.len());
        let start = self.numbers.one_of(&STARTS);
        let unwinder = &mut self.unwinders[which];
        if self.numbers.below(2) == 0 {
            unwinder.add_module(made(start));
        } else {
            unwinder.remove_module(start);
        }
        println!("  {which}: up to {:#x}", unwinder.max_known_code_address());
    }

    /// Makes an unwinder, clones one, or drops one, each in the place of another.
    fn replace(&mut self) {
        let (from, to) = (self.numbers.below(self.unwinders.len()), self.numbers.below(MOST_UNWINDERS));
        let other = if self.numbers.below(4) == 0 { U::default() } else { self.unwinders[from].clone() };
        match self.unwinders.get_mut(to) {
            Some(it) => *it = other,
            None => self.unwinders.push(other),
        }
    }

    /// Walks, perhaps not to the end, and drops the walk.
    fn walk(&mut self) {
        let (which, by) = (self.numbers.below(self.unwinders.len()), self.numbers.below(CACHES));
        let pc = self.numbers.one_of(&STARTS) + self.numbers.one_of(&PLACES);
        let registers =
            (self.registers)(pc, self.numbers.one_of(&[0x10, 0x18, 0x20, 0x1000]), self.numbers.one_of(&[0x20, 0x38, 0x0, 0x70]));
        let most = 1 + self.numbers.below(6);
        let mut reads = Vec::new();
        let mut read_stack = |address| {
            reads.push(address);
            word_at(address)
        };
        let mut frames = self.unwinders[which].iter_frames(pc, registers, &mut self.caches[by], &mut read_stack);
        let mut walk = Vec::new();
        while walk.len() < most && walk.last().is_none_or(Result::is_ok) {
            match frames.next().transpose() {
                Some(frame) => walk.push(frame),
                None => break,
            }
        }
        println!("  {which} by {by} from {pc:#x}: {walk:x?}, read {reads:x?}");
    }

    fn run(mut self, made: impl Fn(u64) -> Module<D>, shown: impl Fn(&U::Cache) -> String) {
        for _ in 0..COMMANDS {
            match self.numbers.below(16) {
                0..3 => self.change(&made),
                3 => self.replace(),
                _ => self.walk(),
            }
        }
        for cache in &self.caches {
            println!("  {}", shown(cache));
        }
    }
}

fn profiler<U: Unwinder + Default>(seed: u64, cache: fn() -> U::Cache, registers: fn(u64, u64, u64) -> U::UnwindRegs) -> Profiler<U> {
    Profiler { numbers: Numbers(seed), unwinders: vec![U::default()], caches: (0..CACHES).map(|_| cache()).collect(), registers }
}

pub fn print() {
    for seed in [1, 2, 3] {
        println!("history {seed}");
        let bytes: Arc<[u8]> = EH_FRAME.into();
        let on_x86_64 = profiler::<UnwinderX86_64<Arc<[u8]>>>(seed, || CacheX86_64::new(), UnwindRegsX86_64::new);
        on_x86_64.run(|start| module(start, Arc::clone(&bytes)), |cache| format!("{:?}", cache.stats()));
        let masked = |lr, sp, fp| UnwindRegsAarch64::new_with_ptr_auth_mask(PtrAuthMask::new_24_40(), lr, sp, fp);
        let on_aarch64 = profiler::<UnwinderAarch64<&[u8]>>(seed, || CacheAarch64::new(), masked);
        on_aarch64.run(|start| module(start, &EH_FRAME_AARCH64[..]), |cache| format!("{:?}", cache.stats()));
    }
}
