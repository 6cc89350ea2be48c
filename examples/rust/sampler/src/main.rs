//! Starts a program, stops it a thousand times, and prints its stacks folded, as flame graphs are drawn from. Linux on x86_64.
//!
//!     cargo run --release -- [--stops N] PROGRAM [ARGUMENT..]

mod files;
mod process;

use files::{File, Mapping};
use framehop::x86_64::{CacheX86_64, Reg, UnwindRegsX86_64, UnwinderX86_64};
use framehop::{FrameAddress, MustNotAllocateDuringUnwind, Unwinder};
use process::{Process, Registers};
use std::collections::{BTreeMap, HashMap};
use std::io::Write;
use std::time::Duration;

const BETWEEN: Duration = Duration::from_millis(1);
const MOST_FRAMES: usize = 512;

/// A profiler of one process.
struct Profiler {
    unwinder: UnwinderX86_64<files::Bytes, MustNotAllocateDuringUnwind>,
    cache: CacheX86_64<MustNotAllocateDuringUnwind>,
    files: HashMap<String, Option<File>>,
    mapped: Vec<Mapping>,
    stacks: BTreeMap<String, usize>,
}

impl Profiler {
    fn new() -> Self {
        Profiler {
            unwinder: UnwinderX86_64::new(),
            cache: CacheX86_64::new_in(),
            files: HashMap::new(),
            mapped: Vec::new(),
            stacks: BTreeMap::new(),
        }
    }

    /// Adds the modules of files that were mapped since the last call, and removes those of files that no longer are.
    fn follow_maps(&mut self, mapped: Vec<Mapping>) {
        for gone in self.mapped.iter().filter(|it| !mapped.contains(it)) {
            self.unwinder.remove_module(gone.addresses.start);
        }
        for new in mapped.iter().filter(|it| !self.mapped.contains(it)) {
            let file = self.files.entry(new.path.clone()).or_insert_with(|| File::read(&new.path));
            if let Some(module) = file.as_ref().and_then(|it| it.module(new)) {
                self.unwinder.add_module(module);
            }
        }
        self.mapped = mapped;
    }

    /// The name of a frame: its function, or else its file with an offset.
    fn name(&self, frame: FrameAddress) -> String {
        let address = frame.address_for_lookup();
        let Some(mapping) = self.mapped.iter().find(|it| it.addresses.contains(&address)) else {
            return format!("{address:#x}");
        };
        let file = self.files.get(&mapping.path).and_then(Option::as_ref);
        let at = file.and_then(|it| Some((it, address.wrapping_sub(it.bias(mapping)?))));
        if let Some(name) = at.and_then(|(file, at)| file.function_at(at)) {
            return name.to_string();
        }
        let name = mapping.path.rsplit('/').next().unwrap_or_default();
        format!("{name}+{:#x}", at.map_or(address - mapping.addresses.start, |it| it.1))
    }

    /// Walks over the stack of a thread that is stopped, and counts it.
    fn sample(&mut self, process: &Process, registers: &Registers) {
        let mut regs = UnwindRegsX86_64::new(registers.rip, registers.rsp, registers.rbp);
        regs.set(Reg::RBX, registers.rbx);
        let stack = process.copy(registers.rsp);
        let mut read_stack = |address: u64| {
            let copied = address.checked_sub(registers.rsp).and_then(|at| stack.get(at as usize..)?.first_chunk());
            copied.map(|it| u64::from_le_bytes(*it)).or_else(|| process.word_at(address)).ok_or(())
        };
        let mut frames = self.unwinder.iter_frames(registers.rip, regs, &mut self.cache, &mut read_stack);
        let mut found = Vec::new();
        while found.len() < MOST_FRAMES
            && let Ok(Some(frame)) = frames.next()
        {
            found.push(frame);
        }
        let names: Vec<String> = found.iter().rev().map(|it| self.name(*it)).collect();
        *self.stacks.entry(names.join(";")).or_default() += 1;
    }
}

fn main() -> std::io::Result<()> {
    let mut words = std::env::args().skip(1).peekable();
    let most = words.next_if_eq("--stops").map_or(Some(1000), |_| words.next()?.parse().ok());
    let (Some(most), Some(program)) = (most, words.next()) else {
        eprintln!("usage: sampler [--stops N] PROGRAM [ARGUMENT..]");
        std::process::exit(2);
    };
    let mut process = Process::start(&program, words)?;
    let mut profiler = Profiler::new();
    let mut stops = 0;
    while stops < most {
        std::thread::sleep(BETWEEN);
        let Some(stopped) = process.stop()? else {
            break;
        };
        profiler.follow_maps(files::mapped(process.id())?);
        for registers in &stopped {
            profiler.sample(&process, registers);
        }
        process.go_on()?;
        stops += 1;
    }
    process.end()?;
    let mut out = std::io::stdout().lock();
    for (stack, count) in &profiler.stacks {
        writeln!(out, "{stack} {count}")?;
    }
    let samples: usize = profiler.stacks.values().sum();
    eprintln!("{stops} stops, {samples} stacks, {} of them different", profiler.stacks.len());
    Ok(())
}
