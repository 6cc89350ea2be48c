//! Makes the steps of crates/bench_steps/src/compact by the original's `framehop`, and prints the same lines. `bench/compact --original`
//! builds it.

use framehop::aarch64::{CacheAarch64, UnwindRegsAarch64, UnwinderAarch64};
use framehop::x86_64::{CacheX86_64, UnwindRegsX86_64, UnwinderX86_64};
use framehop::{ExplicitModuleSectionInfo, FrameAddress, Module, Unwinder};
use std::hint::black_box;
use std::io::Read;
use std::time::{Duration, Instant};

const ROUNDS: u32 = 50;
const BASE: u64 = 0x1_0000_0000;
const SIZE: u64 = 0x1000_0000;
const STACK: u64 = 0x7ffd_8000_0000;

struct Stack(Vec<u64>);

impl Stack {
    fn word(&self, address: u64) -> Result<u64, ()> {
        let offset = address.checked_sub(STACK).ok_or(())?;
        if offset % 8 != 0 {
            return Err(());
        }
        self.0.get((offset / 8) as usize).copied().ok_or(())
    }
}

#[derive(Clone, Copy)]
struct Frames {
    count: u32,
    first: u32,
    apart: u32,
    are_first: bool,
}

/// Reads what crates/bench_steps/src/compact.rt says.
fn read_work(input: &[u8]) -> (Frames, Module<Vec<u8>>) {
    let number = |at: usize| u32::from_le_bytes(input[at..at + 4].try_into().expect("four bytes"));
    let frames = Frames { count: number(0), first: number(4), apart: number(8), are_first: number(12) == 1 };
    let length = number(16) as usize;
    let (unwind_info, text) = input[20..].split_at(length);
    let start = u64::from(number(20 + length));
    let text = &text[4..];
    let sections = ExplicitModuleSectionInfo {
        text_svma: Some(start..start + text.len() as u64),
        text: Some(text.to_vec()),
        unwind_info: Some(unwind_info.to_vec()),
        ..Default::default()
    };
    (frames, Module::new("timed".to_string(), BASE..BASE + SIZE, BASE, sections))
}

fn frame_at(frames: Frames, number: u32) -> Option<FrameAddress> {
    let index = number.wrapping_mul(7919) % frames.count;
    let address = BASE + u64::from(frames.first.wrapping_add(index.wrapping_mul(frames.apart)));
    if frames.are_first {
        Some(FrameAddress::from_instruction_pointer(address))
    } else {
        FrameAddress::from_return_address(address)
    }
}

/// How many steps answer, and a sum of the return addresses and the registers of the callers.
fn make_steps<U: Unwinder>(
    unwinder: &U,
    cache: &mut U::Cache,
    stack: &Stack,
    frames: Frames,
    registers: fn(u64, u64, u64) -> U::UnwindRegs,
    sum_of: fn(&U::UnwindRegs) -> u64,
) -> (u32, u64) {
    let (mut answered, mut sum) = (0u32, 0u64);
    for number in 0..frames.count {
        let Some(frame) = frame_at(frames, number) else {
            continue;
        };
        let mut regs = registers(BASE, STACK + 64, STACK + 512);
        let mut read_stack = |at| stack.word(at);
        if let Ok(Some(to)) = unwinder.unwind_frame(frame, &mut regs, cache, &mut read_stack) {
            answered = answered.wrapping_add(1);
            sum = sum.wrapping_add(to).wrapping_add(sum_of(&regs));
        }
    }
    (answered, sum)
}

macro_rules! time {
    ($frames:expr, $module:expr, $unwinder:ty, $cache:ty, $registers:path, $sum_of:expr) => {{
        let stack = Stack((0..1024).map(|i| STACK + 8 * i + 64).collect());
        let mut unwinder = <$unwinder>::default();
        unwinder.add_module($module);
        let mut cache = <$cache>::new();
        let mut tally = (0, 0);
        let mut least = Duration::MAX;
        for _ in 0..=ROUNDS {
            let start = Instant::now();
            tally = make_steps(&unwinder, &mut cache, black_box(&stack), black_box($frames), $registers, $sum_of);
            least = least.min(start.elapsed());
        }
        println!("steps {} ns\n{} answered, {} hits, sum 0x{:x}", least.as_nanos(), tally.0, cache.stats().hits(), tally.1);
    }};
}

fn main() {
    let mut input = Vec::new();
    std::io::stdin().read_to_end(&mut input).expect("the input is read");
    let (frames, module) = read_work(&input);
    match std::env::args().nth(1).as_deref() {
        Some("x86_64") => time!(frames, module, UnwinderX86_64<Vec<u8>>, CacheX86_64, UnwindRegsX86_64::new, |regs: &UnwindRegsX86_64| {
            regs.ip().wrapping_add(regs.sp()).wrapping_add(regs.bp())
        }),
        Some("aarch64") => time!(frames, module, UnwinderAarch64<Vec<u8>>, CacheAarch64, UnwindRegsAarch64::new, |regs: &UnwindRegsAarch64| {
            regs.lr().wrapping_add(regs.sp()).wrapping_add(regs.fp())
        }),
        _ => panic!("use: compact_steps_original x86_64|aarch64"),
    }
}
