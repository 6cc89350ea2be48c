//! Makes the steps of crates/cases_unwinding by the original's rule cache and rules alone, and prints the same line. `bench/rules
//! --original` builds it, with the original's sources beside it.
#![allow(dead_code)]

extern crate alloc;

mod add_signed;
mod display_utils;
mod rule_cache;
mod unwind_rule;

mod error {
    /// The errors of the original's steps. Its own file has those of its formats too.
    #[derive(Debug, Clone, Copy, PartialEq, Eq)]
    pub enum Error {
        CouldNotReadStack(u64),
        FramepointerUnwindingMovedBackwards,
        DidNotAdvance,
        IntegerOverflow,
        ReturnAddressIsNull,
    }
}

mod x86_64 {
    pub mod register_ordering;
    pub mod unwind_rule;
    pub mod unwindregs;
}

use rule_cache::{CacheResult, RuleCache};
use std::hint::black_box;
use std::time::{Duration, Instant};
use unwind_rule::UnwindRule;
use x86_64::unwind_rule::UnwindRuleX86_64;
use x86_64::unwindregs::{Reg, UnwindRegsX86_64};

const STEPS: u64 = 252;
const CODE: u64 = 0x7f12_3400_1000;
const STACK: u64 = 0x7ffd_8000_0000;
const ASKED: [Reg; 5] = [Reg::RBX, Reg::RBP, Reg::R12, Reg::RBX, Reg::R13];

#[derive(Clone, Copy)]
struct Frame {
    address: u64,
    sp: u64,
    bp: u64,
    asked: Reg,
}

struct Stack(Vec<u64>);

impl Stack {
    fn word(&self, address: u64) -> Result<u64, ()> {
        let offset = address.checked_sub(STACK).ok_or(())?;
        if offset % 8 != 0 {
            return Err(());
        }
        self.0.get((offset / 8) as usize).copied().ok_or(())
    }
}

fn common_rule(step: usize) -> UnwindRuleX86_64 {
    match step % 3 {
        0 => UnwindRuleX86_64::OffsetSp { sp_offset_by_8: 2 },
        1 => UnwindRuleX86_64::OffsetSpAndRestoreBp { sp_offset_by_8: 4, bp_storage_offset_from_sp_by_8: 2 },
        _ => UnwindRuleX86_64::UseFramePointer,
    }
}

fn pop_rule(step: usize) -> UnwindRuleX86_64 {
    let (register_count, encoded_registers_to_pop) = match step % 3 {
        0 => (1, 1),
        1 => (3, 112),
        _ => (6, 17584),
    };
    UnwindRuleX86_64::OffsetSpAndPopRegisters { sp_offset_by_8: 1, register_count, encoded_registers_to_pop }
}

/// How many steps return a caller, and the sum of the registers of the callers that are asked for.
fn make_steps(cache: &mut RuleCache<UnwindRuleX86_64>, stack: &Stack, frames: &[Frame]) -> (u32, u64) {
    let (mut answered, mut sum): (u32, u64) = (0, 0);
    for frame in frames {
        let mut regs = UnwindRegsX86_64::new(frame.address, frame.sp, frame.bp);
        let mut read_stack = |at: u64| stack.word(at);
        if let CacheResult::Hit(rule) = cache.lookup(frame.address, 1) {
            if let Ok(Some(_)) = rule.exec(true, &mut regs, &mut read_stack) {
                answered = answered.wrapping_add(1);
                sum = sum.wrapping_add(regs.get(frame.asked));
            }
        }
    }
    (answered, sum)
}

fn main() {
    let rule_of = match std::env::args().nth(1).as_deref() {
        Some("time") => common_rule,
        Some("time-pops") => pop_rule,
        _ => panic!("use: rules_original time|time-pops ROUNDS"),
    };
    let rounds: u32 = std::env::args().nth(2).and_then(|text| text.parse().ok()).expect("a number of rounds");
    let stack = Stack((0..64).map(|i| STACK + 8 * i + 64).collect());
    let frames: Vec<Frame> = (0..STEPS)
        .map(|step| Frame { address: CODE + 16 * step, sp: STACK + 16, bp: STACK + 32, asked: ASKED[step as usize % 5] })
        .collect();
    let mut cache = RuleCache::new();
    for (step, frame) in frames.iter().enumerate() {
        if let CacheResult::Miss(handle) = cache.lookup(frame.address, 1) {
            cache.insert(handle, rule_of(step));
        }
    }
    let mut least = Duration::MAX;
    let (mut answered, mut sum) = (0, 0);
    for _ in 0..rounds {
        let start = Instant::now();
        (answered, sum) = make_steps(&mut cache, black_box(&stack), black_box(&frames));
        least = least.min(start.elapsed());
    }
    println!("{STEPS} steps {} ns, {answered} answered, sum 0x{sum:x}", least.as_nanos());
}
