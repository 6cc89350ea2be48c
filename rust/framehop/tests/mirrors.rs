//! A cache through which unwinders come and go gives the steps of a new cache, and bytes are let go when nobody has them.

use framehop::x86_64::{CacheX86_64, UnwindRegsX86_64, UnwinderX86_64};
use framehop::{CacheStats, Error, ExplicitModuleSectionInfo, FrameAddress, Module, Unwinder};
use std::ops::Deref;
use std::sync::Arc;
use std::sync::atomic::{AtomicUsize, Ordering};

/// The call frame information of a function of 4096 bytes at 0x1000, whose CFA is so many bytes above the stack pointer.
fn eh_frame(offset: u8) -> Vec<u8> {
    let common: [u8; 20] = [0x10, 0, 0, 0, 0, 0, 0, 0, 1, 0, 1, 0x78, 0x10, 0xc, 7, 8, 0x90, 1, 0, 0];
    let function: [u8; 24] = [0x1c, 0, 0, 0, 0x18, 0, 0, 0, 0, 0x10, 0, 0, 0, 0, 0, 0, 0, 0x10, 0, 0, 0, 0, 0, 0];
    let rows = [0xe, offset, 0, 0, 0, 0, 0, 0];
    [&common[..], &function, &rows, &[0; 4]].concat()
}

/// Bytes that count how many of them there are.
struct Counted {
    bytes: Vec<u8>,
    count: Arc<AtomicUsize>,
}

impl Deref for Counted {
    type Target = [u8];

    fn deref(&self) -> &[u8] {
        &self.bytes
    }
}

impl Drop for Counted {
    fn drop(&mut self) {
        self.bytes.fill(0xff);
        self.count.fetch_sub(1, Ordering::SeqCst);
    }
}

fn sections<D>(bytes: D) -> ExplicitModuleSectionInfo<D> {
    ExplicitModuleSectionInfo {
        base_svma: 0,
        text_svma: None,
        text: None,
        stubs_svma: None,
        stub_helper_svma: None,
        got_svma: None,
        unwind_info: None,
        eh_frame_svma: Some(0..56),
        eh_frame: Some(bytes),
        eh_frame_hdr_svma: None,
        eh_frame_hdr: None,
        debug_frame: None,
        text_segment_svma: None,
        text_segment: None,
    }
}

fn module<D: Deref<Target = [u8]>>(start: u64, bytes: D) -> Module<D> {
    Module::new(format!("{start:#x}"), start..start + 0x3000, start, sections(bytes))
}

fn counted(offset: u8, count: &Arc<AtomicUsize>) -> Counted {
    count.fetch_add(1, Ordering::SeqCst);
    Counted { bytes: eh_frame(offset), count: count.clone() }
}

/// The word at an address tells the address.
fn word_at(address: u64) -> Result<u64, ()> {
    Ok(address | 1 << 40)
}

type Step = (Result<Option<u64>, Error>, UnwindRegsX86_64);

fn step<D: Deref<Target = [u8]>>(unwinder: &UnwinderX86_64<D>, cache: &mut CacheX86_64, pc: u64) -> Step {
    let mut regs = UnwindRegsX86_64::new(pc, 0x1000, 0x1100);
    let answer = unwinder.unwind_frame(FrameAddress::from_instruction_pointer(pc), &mut regs, cache, &mut word_at);
    (answer, regs)
}

/// Numbers by xorshift.
struct Numbers(u64);

impl Numbers {
    fn below(&mut self, bound: usize) -> usize {
        self.0 ^= self.0 << 13;
        self.0 ^= self.0 >> 7;
        self.0 ^= self.0 << 17;
        (self.0 >> 20) as usize % bound
    }
}

#[test]
fn a_used_cache_gives_the_steps_of_a_new_one() {
    const STARTS: u64 = 6;
    let mut numbers = Numbers(0x9e37_79b9_7f4a_7c15);
    let count = Arc::default();
    let pool: Vec<_> = (0..18).map(|it| module(0x10000 * (1 + it % STARTS), counted(16 + 8 * it as u8, &count))).collect();
    // an unwinder, with its modules in the order in which they were added
    let mut unwinders = vec![(UnwinderX86_64::new(), Vec::<usize>::new())];
    let mut caches = [const { None }; 3].map(|it: Option<CacheX86_64>| it.unwrap_or_default());
    let mut compared = 0;
    for _ in 0..6000 {
        let at = numbers.below(unwinders.len());
        match numbers.below(8) {
            0 => {
                let which = numbers.below(pool.len());
                unwinders[at].0.add_module(pool[which].clone());
                unwinders[at].1.push(which);
            }
            1 => {
                let start = 0x10000 * (1 + numbers.below(STARTS as usize) as u64);
                unwinders[at].0.remove_module(start);
                let added = &mut unwinders[at].1;
                if let Some(first) = added.iter().position(|it| pool[*it].avma_range().start == start) {
                    added.remove(first);
                }
            }
            2 if unwinders.len() < 6 => {
                let (clone, added) = &unwinders[at];
                unwinders.push((clone.clone(), added.clone()));
            }
            2 if unwinders.len() > 2 => drop(unwinders.swap_remove(at)),
            3 if numbers.below(40) == 0 => caches[at % 3] = CacheX86_64::new(),
            _ => {
                let (unwinder, added) = &unwinders[at];
                let mut anew = UnwinderX86_64::new();
                added.iter().for_each(|it| anew.add_module(pool[*it].clone()));
                let pc = 0x10000 * (1 + numbers.below(STARTS as usize) as u64) + 0x1000 + numbers.below(3) as u64;
                let which = numbers.below(3);
                assert_eq!(step(unwinder, &mut caches[which], pc), step(&anew, &mut CacheX86_64::new(), pc), "{added:?} at {pc:#x}");
                assert_eq!(unwinder.max_known_code_address(), anew.max_known_code_address());
                compared += 1;
            }
        }
    }
    drop((unwinders, caches));
    assert_eq!(count.load(Ordering::SeqCst), pool.len());
    drop(pool);
    assert_eq!(count.load(Ordering::SeqCst), 0);
    assert!(compared > 2000);
}

#[test]
fn bytes_go_with_the_last_that_has_them() {
    let count = Arc::default();
    let mut cache = CacheX86_64::new();
    for round in 0..50 {
        let mut unwinder = UnwinderX86_64::new();
        unwinder.add_module(module(0x10000, counted(16, &count)));
        let clone = unwinder.clone();
        let before = step(&unwinder, &mut cache, 0x11000);
        unwinder.add_module(module(0x20000, counted(24, &count)));
        assert_ne!(step(&unwinder, &mut cache, 0x21000), before);
        drop(unwinder);
        assert_eq!(count.load(Ordering::SeqCst), 1, "in round {round}");
        assert_eq!(step(&clone, &mut cache, 0x11000), before);
    }
    assert_eq!(count.load(Ordering::SeqCst), 0);
}

#[test]
fn a_cache_may_outlive_bytes_that_are_borrowed() {
    let mut cache = CacheX86_64::new();
    let first = {
        let bytes = eh_frame(16);
        let mut unwinder = UnwinderX86_64::new();
        unwinder.add_module(module(0x10000, &bytes[..]));
        step(&unwinder, &mut cache, 0x11000)
    };
    let bytes = eh_frame(32);
    let mut unwinder = UnwinderX86_64::new();
    unwinder.add_module(module(0x10000, &bytes[..]));
    assert_ne!(first, step(&unwinder, &mut cache, 0x11000));
    assert_eq!(step(&unwinder, &mut CacheX86_64::new(), 0x11000), step(&unwinder, &mut cache, 0x11000));
}

#[test]
fn a_step_asks_for_no_word_twice() {
    let mut unwinder = UnwinderX86_64::new();
    unwinder.add_module(module(0x10000, eh_frame(16)));
    let mut cache = CacheX86_64::new();
    for pc in [0x11000, 0x11000, 0x50000, 0x50000] {
        let mut asked = Vec::new();
        // Answers that differ each time: a step that asked twice would see two stacks.
        let mut read_stack = |address| {
            asked.push(address);
            Ok(address + asked.len() as u64)
        };
        let mut regs = UnwindRegsX86_64::new(pc, 0x1000, 0x1100);
        let answer = unwinder.unwind_frame(FrameAddress::from_instruction_pointer(pc), &mut regs, &mut cache, &mut read_stack);
        assert!(answer.unwrap().is_some());
        let count = asked.len();
        asked.sort_unstable();
        asked.dedup();
        assert_eq!(asked.len(), count);
    }
}

#[test]
fn a_panic_of_read_stack_leaves_the_cache_as_good_as_new() {
    let unwinder = UnwinderX86_64::<Vec<u8>>::new();
    let mut cache = CacheX86_64::new();
    let mut regs = UnwindRegsX86_64::new(0x50000, 0x1000, 0x1100);
    let before = regs;
    let mut read_stack = |_| panic!("no stack");
    let frame = FrameAddress::from_instruction_pointer(0x50000);
    let step_by_panic = std::panic::AssertUnwindSafe(|| unwinder.unwind_frame(frame, &mut regs, &mut cache, &mut read_stack));
    assert!(std::panic::catch_unwind(step_by_panic).is_err());
    assert_eq!(regs, before);
    assert_eq!(step(&unwinder, &mut cache, 0x50000), step(&unwinder, &mut CacheX86_64::new(), 0x50000));
}

#[test]
fn stats_count_each_step_once() {
    fn numbers(stats: CacheStats) -> [u64; 4] {
        [stats.hit_count, stats.miss_empty_slot_count, stats.miss_wrong_modules_count, stats.miss_wrong_address_count]
    }
    let mut unwinder = UnwinderX86_64::new();
    unwinder.add_module(module(0x10000, eh_frame(16)));
    let mut cache = CacheX86_64::new();
    assert_eq!(numbers(cache.stats()), [0, 0, 0, 0]);
    let first = step(&unwinder, &mut cache, 0x11000);
    assert_eq!(step(&unwinder, &mut cache, 0x11000), first);
    assert_eq!(step(&unwinder.clone(), &mut cache, 0x11000), first);
    assert_eq!(numbers(cache.stats()), [2, 1, 0, 0]);
    unwinder.add_module(module(0x90000, eh_frame(16)));
    unwinder.remove_module(0x90000);
    assert_eq!(step(&unwinder, &mut cache, 0x11000), first);
    assert_eq!(numbers(cache.stats()), [2, 1, 1, 0]);
    assert_eq!(step(&unwinder, &mut cache, 0x11000 + 509).0, first.0);
    assert_eq!(numbers(cache.stats()), [2, 1, 1, 1]);
    assert_eq!((cache.stats().total(), cache.stats().hits(), cache.stats().misses()), (5, 2, 3));
}

#[test]
fn caches_one_after_the_other_are_each_new() {
    let count = Arc::default();
    let mut unwinder = UnwinderX86_64::new();
    for round in 0..40 {
        let start = 0x10000 * (1 + round % 3);
        unwinder.remove_module(start);
        unwinder.add_module(module(start, counted(16 + 8 * (round % 5) as u8, &count)));
        let other = unwinder.clone();
        let mut anew = UnwinderX86_64::new();
        anew.add_module(module(start, counted(16 + 8 * (round % 5) as u8, &count)));
        let wanted = step(&anew, &mut CacheX86_64::new(), start + 0x1000);
        // More at a time than are kept for others.
        let mut caches: Vec<_> = (0..12).map(|_| CacheX86_64::new()).collect();
        for cache in &mut caches {
            assert_eq!(step(&unwinder, cache, start + 0x1000), wanted);
            assert_eq!(step(&other, cache, start + 0x1000), wanted);
            assert_eq!((cache.stats().hits(), cache.stats().miss_empty_slot_count, cache.stats().total()), (1, 1, 2));
        }
        let threads = caches.into_iter().map(|mut cache| {
            let unwinder = other.clone();
            std::thread::spawn(move || step(&unwinder, &mut cache, start + 0x1000))
        });
        assert!(threads.collect::<Vec<_>>().into_iter().all(|it| it.join().unwrap() == wanted));
    }
    drop(unwinder);
    assert_eq!(count.load(Ordering::SeqCst), 0);
}

#[test]
fn prepared_caches_give_the_same_steps() {
    let mut unwinder = UnwinderX86_64::new();
    unwinder.add_module(module(0x10000, eh_frame(16)));
    let mut cache = CacheX86_64::new();
    cache.prepare(&unwinder);
    assert_eq!(step(&unwinder, &mut cache, 0x11000), step(&unwinder, &mut CacheX86_64::new(), 0x11000));
}
