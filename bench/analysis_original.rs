//! Looks at the places of crates/cases_unwinding by the original's detectors alone, and prints the same line. `bench/analysis --original`
//! builds it, with the original's sources beside it.
#![allow(dead_code)]

extern crate alloc;

mod add_signed;
mod display_utils;
mod unwind_rule;

mod error {
    /// The errors of the original's steps. Its own file has those of its formats too.
    #[derive(Debug, Clone, Copy, PartialEq, Eq)]
    pub enum Error {
        CouldNotReadStack(u64),
        FramepointerUnwindingMovedBackwards,
        DidNotAdvance,
        IntegerOverflow,
        ReturnAddressIsNull,
    }
}

mod x86_64 {
    pub mod instruction_analysis {
        pub mod epilogue;
        pub mod prologue;
    }
    pub mod register_ordering;
    pub mod unwind_rule;
    pub mod unwindregs;
}

mod aarch64 {
    pub mod instruction_analysis {
        pub mod epilogue;
        pub mod prologue;
    }
    pub mod unwind_rule;
    pub mod unwindregs;
}

use aarch64::instruction_analysis as aarch64_analysis;
use aarch64::unwind_rule::UnwindRuleAarch64;
use std::hint::black_box;
use std::io::Read;
use std::time::{Duration, Instant};
use x86_64::instruction_analysis as x86_64_analysis;
use x86_64::unwind_rule::UnwindRuleX86_64;

struct Code {
    bytes: Vec<u8>,
    offsets: Vec<usize>,
}

/// How many offsets there are, at how many of them there is a rule, and the sum of the rules' numbers.
#[derive(Clone, Copy, Default)]
struct Tally {
    places: u64,
    rules: u64,
    sum: u64,
}

/// A detector, which gives the sum of the numbers in its rule.
trait Detector {
    fn look(code: &[u8], offset: usize) -> Option<u64>;
}

struct X86_64Prologue;
struct X86_64Epilogue;
struct Aarch64Prologue;
struct Aarch64Epilogue;

impl Detector for X86_64Prologue {
    fn look(code: &[u8], offset: usize) -> Option<u64> {
        number_x86_64(x86_64_analysis::prologue::unwind_rule_from_detected_prologue(code, offset))
    }
}

impl Detector for X86_64Epilogue {
    fn look(code: &[u8], offset: usize) -> Option<u64> {
        number_x86_64(x86_64_analysis::epilogue::unwind_rule_from_detected_epilogue(code, offset))
    }
}

impl Detector for Aarch64Prologue {
    fn look(code: &[u8], offset: usize) -> Option<u64> {
        let (before, from) = code.split_at(offset);
        number_aarch64(aarch64_analysis::prologue::unwind_rule_from_detected_prologue(before, from))
    }
}

impl Detector for Aarch64Epilogue {
    fn look(code: &[u8], offset: usize) -> Option<u64> {
        number_aarch64(aarch64_analysis::epilogue::unwind_rule_from_detected_epilogue(code, offset))
    }
}

#[inline(always)]
fn number_x86_64(rule: Option<UnwindRuleX86_64>) -> Option<u64> {
    match rule? {
        UnwindRuleX86_64::OffsetSp { sp_offset_by_8 } => Some(sp_offset_by_8 as u64),
        UnwindRuleX86_64::OffsetSpAndRestoreBp { sp_offset_by_8, bp_storage_offset_from_sp_by_8 } => {
            Some(sp_offset_by_8 as u64 + bp_storage_offset_from_sp_by_8.unsigned_abs() as u64)
        }
        _ => Some(0),
    }
}

#[inline(always)]
fn number_aarch64(rule: Option<UnwindRuleAarch64>) -> Option<u64> {
    match rule? {
        UnwindRuleAarch64::OffsetSp { sp_offset_by_16 } => Some(sp_offset_by_16 as u64),
        UnwindRuleAarch64::OffsetSpAndRestoreLr { sp_offset_by_16, lr_storage_offset_from_sp_by_8 } => {
            Some(sp_offset_by_16 as u64 + lr_storage_offset_from_sp_by_8.unsigned_abs() as u64)
        }
        UnwindRuleAarch64::OffsetSpAndRestoreFpAndLr {
            sp_offset_by_16,
            fp_storage_offset_from_sp_by_8,
            lr_storage_offset_from_sp_by_8,
        } => Some(
            sp_offset_by_16 as u64
                + fp_storage_offset_from_sp_by_8.unsigned_abs() as u64
                + lr_storage_offset_from_sp_by_8.unsigned_abs() as u64,
        ),
        _ => Some(0),
    }
}

fn parse(text: &str) -> Vec<Code> {
    text.lines()
        .map(|line| {
            let mut words = line.split_whitespace();
            let digits = words.next().expect("code");
            let bytes = (0..digits.len() / 2).map(|i| u8::from_str_radix(&digits[2 * i..2 * i + 2], 16).expect("a byte")).collect();
            Code { bytes, offsets: words.map(|word| word.parse().expect("an offset")).collect() }
        })
        .collect()
}

fn look<D: Detector>(codes: &[Code]) -> Tally {
    let mut tally = Tally::default();
    for code in codes {
        for &offset in &code.offsets {
            tally.places = tally.places.wrapping_add(1);
            if offset > code.bytes.len() {
                continue;
            }
            if let Some(number) = D::look(&code.bytes, offset) {
                tally.rules = tally.rules.wrapping_add(1);
                tally.sum = tally.sum.wrapping_add(number);
            }
        }
    }
    tally
}

fn print_time<D: Detector>(codes: &[Code], rounds: u32) {
    let mut least = Duration::MAX;
    let mut tally = Tally::default();
    for _ in 0..rounds {
        let start = Instant::now();
        tally = look::<D>(black_box(codes));
        least = least.min(start.elapsed());
    }
    println!("{} of {} places {} ns, sum {}", tally.rules, tally.places, least.as_nanos(), tally.sum);
}

fn main() {
    let mut text = String::new();
    std::io::stdin().read_to_string(&mut text).expect("the input is read");
    let codes = parse(&text);
    let rounds: u32 = std::env::args().nth(2).and_then(|text| text.parse().ok()).expect("a number of rounds");
    match std::env::args().nth(1).as_deref() {
        Some("x86_64-prologue") => print_time::<X86_64Prologue>(&codes, rounds),
        Some("x86_64-epilogue") => print_time::<X86_64Epilogue>(&codes, rounds),
        Some("aarch64-prologue") => print_time::<Aarch64Prologue>(&codes, rounds),
        Some("aarch64-epilogue") => print_time::<Aarch64Epilogue>(&codes, rounds),
        _ => panic!("use: analysis_original DETECTOR ROUNDS"),
    }
}
