//! Steps and walks in an ELF file's code, from random registers over random stacks.

use crate::elf::Sections;
use framehop::x86_64::{CacheX86_64, UnwindRegsX86_64, UnwinderX86_64};
use framehop::{FrameAddress, Module, Unwinder};
use std::cell::RefCell;
use std::ops::Range;

const BASE: u64 = 0x7f00_0000_0000;
const STACK: Range<u64> = 0x7ffd_0000_0000..0x7ffd_0001_0000;
const STEPS: usize = 4000;
/// So few that their rules are found in caches. They are even, and so are return addresses: the original's caches have one rule for a first
/// frame and another that are looked up by one address.
const PLACES: usize = 500;

/// Numbers by xorshift.
struct Numbers(u64);

impl Numbers {
    fn below(&mut self, bound: u64) -> u64 {
        self.0 ^= self.0 << 13;
        self.0 ^= self.0 >> 7;
        self.0 ^= self.0 << 17;
        (self.0 >> 11) % bound
    }

    fn in_range(&mut self, range: &Range<u64>) -> u64 {
        range.start + self.below(range.end - range.start)
    }
}

/// The word at an address of a stack: a place higher up in the stack, a code address, or 0.
fn word_at(address: u64, code: &Range<u64>) -> u64 {
    let mut numbers = Numbers(address.wrapping_mul(0x9e37_79b9_7f4a_7c15) | 1);
    numbers.below(2);
    match numbers.below(8) {
        0 => 0,
        1..4 => address + 8 * numbers.below(64),
        _ => (BASE + numbers.in_range(code)) & !1,
    }
}

pub fn print(path: &str) {
    println!("{path}");
    let Some(mut sections) = std::fs::read(path).ok().and_then(|file| Sections::of(&file)) else {
        println!("  is no ELF file");
        return;
    };
    let Some(code) = sections.code() else {
        println!("  has no code");
        return;
    };
    let end = BASE + sections.0.values().map(|it| it.0.end).max().unwrap_or(0);
    let mut unwinder = UnwinderX86_64::new();
    unwinder.add_module(Module::new(path.to_string(), BASE..end, BASE, &mut sections));
    sections.0.remove(&b".eh_frame_hdr"[..]);
    let mut by_index = UnwinderX86_64::new();
    by_index.add_module(Module::new(path.to_string(), BASE..end, BASE, &mut sections));

    let mut numbers = Numbers(0x2545_f491_4f6c_dd1d);
    let places: Vec<u64> = (0..PLACES).map(|_| (BASE + numbers.in_range(&code)) & !1).collect();
    let reads = RefCell::new(Vec::new());
    let mut read_stack = |address: u64| {
        reads.borrow_mut().push(address);
        if STACK.contains(&address) { Ok(word_at(address, &code)) } else { Err(()) }
    };
    let mut ways = [&unwinder, &by_index].map(|unwinder| (unwinder, CacheX86_64::new(), CacheX86_64::new()));
    for _ in 0..STEPS {
        let sp = numbers.in_range(&STACK) & !7;
        let bp = sp + 8 * numbers.below(32);
        let pc = places[numbers.below(PLACES as u64) as usize];
        for (unwinder, cache, first_cache) in &mut ways {
            for (frame, cache) in [
                (FrameAddress::from_instruction_pointer(pc), &mut *first_cache),
                (FrameAddress::from_return_address(pc).unwrap(), &mut *cache),
            ] {
                let mut regs = UnwindRegsX86_64::new(pc, sp, bp);
                let step = unwinder.unwind_frame(frame, &mut regs, cache, &mut read_stack);
                let [ip, now_sp, now_bp] = [regs.ip(), regs.sp(), regs.bp()];
                println!("  {frame:x?} {sp:#x} {bp:#x}: {step:x?} {ip:#x} {now_sp:#x} {now_bp:#x}, read {:x?}", reads.take());
            }
            let mut frames = unwinder.iter_frames(pc, UnwindRegsX86_64::new(pc, sp, bp), cache, &mut read_stack);
            let walk: Vec<_> = std::iter::from_fn(|| frames.next().ok().flatten()).take(12).map(|it| it.address()).collect();
            println!("  {walk:x?}, read {:x?}", reads.take());
        }
    }
    for (_, cache, first_cache) in &ways {
        println!("  {:?} {:?}", cache.stats(), first_cache.stats());
    }
}
