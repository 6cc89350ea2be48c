//! Looks addresses up in a section `__unwind_info` by the crate `macho-unwind-info`, as crates/cases_unwinding does.

use macho_unwind_info::opcodes::OpcodeX86_64;
use macho_unwind_info::UnwindInfo;
use std::io::Read;
use std::time::{Duration, Instant};

fn weight_of(opcode: OpcodeX86_64) -> u64 {
    match opcode {
        OpcodeX86_64::Null => 1,
        OpcodeX86_64::FrameBased { .. } => 2,
        OpcodeX86_64::FramelessImmediate {
            stack_size_in_bytes,
            ..
        } => 3 + u64::from(stack_size_in_bytes / 8),
        OpcodeX86_64::FramelessIndirect { .. } => 5,
        OpcodeX86_64::Dwarf { eh_frame_fde } => 6 + u64::from(eh_frame_fde),
        OpcodeX86_64::InvalidFrameless => 7,
        OpcodeX86_64::UnrecognizedKind(kind) => 8 + u64::from(kind),
    }
}

fn look_up_each(section: &[u8], count: u32, first: u32, apart: u32) -> (u32, u64) {
    let (mut found, mut sum) = (0, 0u64);
    for i in 0..count {
        let index = i.wrapping_mul(7919) % count;
        let address = first.wrapping_add(index.wrapping_mul(apart));
        if let Ok(Some(function)) = UnwindInfo::parse(section).and_then(|info| info.lookup(address)) {
            found += 1;
            let said = weight_of(OpcodeX86_64::parse(function.opcode));
            sum = sum.wrapping_add(u64::from(function.start_address) + said);
        }
    }
    (found, sum)
}

fn main() {
    let mut input = Vec::new();
    std::io::stdin().read_to_end(&mut input).unwrap();
    let number = |at: usize| u32::from_le_bytes(input[at..at + 4].try_into().unwrap());
    let (count, first, apart) = (number(0), number(4), number(8));
    let section = &input[12..];
    let mut least = Duration::MAX;
    let mut tally = (0, 0);
    for _ in 0..200 {
        let start = Instant::now();
        tally = look_up_each(section, count, first, apart);
        least = least.min(start.elapsed());
    }
    println!("lookups {} ns", least.as_nanos());
    println!("{} found, sum 0x{:x}", tally.0, tally.1);
}
