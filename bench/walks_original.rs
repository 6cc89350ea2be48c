//! Makes the module and the walks of crates/bench_steps by the original's `framehop`, and prints the same lines. `bench/walks
//! --original` builds it. With a second word, `warm`, it only makes the walks through one cache, for callgrind.

use framehop::aarch64::{CacheAarch64, PtrAuthMask, UnwindRegsAarch64, UnwinderAarch64};
use framehop::x86_64::{CacheX86_64, UnwindRegsX86_64, UnwinderX86_64};
use framehop::{ExplicitModuleSectionInfo, Module, Unwinder};
use std::hint::black_box;
use std::io::Read;
use std::time::{Duration, Instant};

/// The input, from its first byte that is not read yet.
struct Input(std::vec::IntoIter<u8>);

impl Input {
    fn number<const N: usize>(&mut self) -> u64 {
        let mut bytes = [0; 8];
        for byte in &mut bytes[..N] {
            *byte = self.0.next().expect("the input ends too soon");
        }
        u64::from_le_bytes(bytes)
    }

    fn bytes(&mut self, count: usize) -> Vec<u8> {
        self.0.by_ref().take(count).collect()
    }
}

struct Stack {
    start: u64,
    words: Vec<u64>,
}

impl Stack {
    fn word(&self, address: u64) -> Result<u64, ()> {
        let offset = address.checked_sub(self.start).ok_or(())?;
        if offset % 8 != 0 {
            return Err(());
        }
        self.words.get((offset / 8) as usize).copied().ok_or(())
    }
}

struct Walk {
    pc: u64,
    code: u64,
    sp: u64,
    fp: u64,
    mask: u64,
    limit: u32,
    stack: Stack,
}

struct Work {
    rounds: u32,
    base: u64,
    end: u64,
    text: u64,
    eh_frame: u64,
    walks: Vec<Walk>,
    header_start: u64,
    header: Vec<u8>,
    section: Vec<u8>,
}

fn read_walk(input: &mut Input) -> Walk {
    Walk {
        pc: input.number::<8>(),
        code: input.number::<8>(),
        sp: input.number::<8>(),
        fp: input.number::<8>(),
        mask: input.number::<8>(),
        limit: input.number::<4>() as u32,
        stack: Stack {
            start: input.number::<8>(),
            words: (0..input.number::<4>()).map(|_| input.number::<8>()).collect(),
        },
    }
}

/// Reads what crates/bench_steps/src/work.rt says.
fn read_work(input: &mut Input) -> Work {
    let rounds = input.number::<4>() as u32;
    let [base, end, text, eh_frame] = [(); 4].map(|()| input.number::<8>());
    let walks = (0..input.number::<4>()).map(|_| read_walk(input)).collect();
    let header_start = input.number::<8>();
    let length = input.number::<4>() as usize;
    let header = input.bytes(length);
    let section = input.bytes(usize::MAX);
    Work { rounds, base, end, text, eh_frame, walks, header_start, header, section }
}

/// The module with copies of the section and of its header.
fn module_of(work: &Work, section: Vec<u8>, header: Vec<u8>) -> Module<Vec<u8>> {
    let has_header = !header.is_empty();
    let sections = ExplicitModuleSectionInfo {
        text_svma: Some(work.text..work.text),
        eh_frame_svma: Some(work.eh_frame..work.eh_frame),
        eh_frame: Some(section),
        eh_frame_hdr_svma: has_header.then_some(work.header_start..work.header_start),
        eh_frame_hdr: has_header.then_some(header),
        ..Default::default()
    };
    Module::new("timed".to_string(), work.base..work.end, work.base, sections)
}

/// An architecture's unwinder, cache, and first registers.
trait TimedArch {
    type Unwinder: Unwinder<Module = Module<Vec<u8>>> + Default;
    fn cache() -> <Self::Unwinder as Unwinder>::Cache;
    fn registers(walk: &Walk) -> <Self::Unwinder as Unwinder>::UnwindRegs;
}

struct X86_64;

impl TimedArch for X86_64 {
    type Unwinder = UnwinderX86_64<Vec<u8>>;

    fn cache() -> CacheX86_64 {
        CacheX86_64::new()
    }

    fn registers(walk: &Walk) -> UnwindRegsX86_64 {
        UnwindRegsX86_64::new(walk.code, walk.sp, walk.fp)
    }
}

struct Aarch64;

impl TimedArch for Aarch64 {
    type Unwinder = UnwinderAarch64<Vec<u8>>;

    fn cache() -> CacheAarch64 {
        CacheAarch64::new()
    }

    fn registers(walk: &Walk) -> UnwindRegsAarch64 {
        UnwindRegsAarch64::new_with_ptr_auth_mask(PtrAuthMask(walk.mask), walk.code, walk.sp, walk.fp)
    }
}

type CacheOf<A> = <<A as TimedArch>::Unwinder as Unwinder>::Cache;

/// How many frames a walk gives.
fn frames_of<A: TimedArch>(unwinder: &A::Unwinder, cache: &mut CacheOf<A>, walk: &Walk) -> u32 {
    let mut read_stack = |address| walk.stack.word(address);
    let mut frames = unwinder.iter_frames(walk.pc, A::registers(walk), cache, &mut read_stack);
    let mut count: u32 = 0;
    for _ in 0..walk.limit {
        match frames.next() {
            Ok(Some(frame)) => {
                black_box(frame);
                count = count.wrapping_add(1);
            }
            _ => break,
        }
    }
    count
}

fn frames_of_each<A: TimedArch>(unwinder: &A::Unwinder, cache: &mut CacheOf<A>, walks: &[Walk]) -> u32 {
    walks.iter().map(|walk| frames_of::<A>(unwinder, cache, walk)).sum()
}

/// How long all walks with a new cache each take, without and with the making of the caches.
fn fresh_walks<A: TimedArch>(unwinder: &A::Unwinder, walks: &[Walk]) -> (Duration, Duration) {
    let mut fresh = Duration::ZERO;
    let all = Instant::now();
    for walk in walks {
        let mut cache = A::cache();
        let start = Instant::now();
        black_box(frames_of::<A>(unwinder, &mut cache, walk));
        fresh += start.elapsed();
    }
    (fresh, all.elapsed())
}

/// The least time of making the module, as often as there are rounds.
fn making(work: &Work) -> Duration {
    let copies: Vec<_> = (0..work.rounds).map(|_| (work.section.clone(), work.header.clone())).collect();
    let mut least = Duration::MAX;
    for (section, header) in copies {
        let start = Instant::now();
        let module = module_of(work, section, header);
        least = least.min(start.elapsed());
        black_box(module.base_avma());
    }
    least
}

fn time<A: TimedArch>(work: &Work) {
    let module = making(work);
    let mut unwinder = A::Unwinder::default();
    unwinder.add_module(module_of(work, work.section.clone(), work.header.clone()));
    let mut cache = A::cache();
    println!("{} frames", frames_of_each::<A>(&unwinder, &mut cache, &work.walks));
    let [mut warm, mut fresh, mut with_making] = [Duration::MAX; 3];
    for _ in 0..work.rounds {
        let start = Instant::now();
        black_box(frames_of_each::<A>(&unwinder, &mut cache, &work.walks));
        warm = warm.min(start.elapsed());
        let times = fresh_walks::<A>(&unwinder, &work.walks);
        fresh = fresh.min(times.0);
        with_making = with_making.min(times.1);
    }
    println!(
        "module {} ns, warm {} ns, fresh {} ns, with making {} ns",
        module.as_nanos(),
        warm.as_nanos(),
        fresh.as_nanos(),
        with_making.as_nanos()
    );
}

/// Makes the walks through one cache, once and then as often as there are rounds.
fn warm<A: TimedArch>(work: &Work) {
    let mut unwinder = A::Unwinder::default();
    unwinder.add_module(module_of(work, work.section.clone(), work.header.clone()));
    let mut cache = A::cache();
    println!("{} frames", frames_of_each::<A>(&unwinder, &mut cache, &work.walks));
    for _ in 0..work.rounds {
        black_box(frames_of_each::<A>(&unwinder, &mut cache, &work.walks));
    }
}

fn main() {
    let mut bytes = Vec::new();
    std::io::stdin().read_to_end(&mut bytes).expect("the input is read");
    let work = read_work(&mut Input(bytes.into_iter()));
    let words: Vec<String> = std::env::args().skip(1).collect();
    match words.iter().map(String::as_str).collect::<Vec<_>>()[..] {
        ["x86_64"] => time::<X86_64>(&work),
        ["aarch64"] => time::<Aarch64>(&work),
        ["x86_64", "warm"] => warm::<X86_64>(&work),
        ["aarch64", "warm"] => warm::<Aarch64>(&work),
        _ => panic!("use: walks_original x86_64|aarch64 [warm]"),
    }
}
