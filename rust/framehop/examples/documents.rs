//! Makes the calls that lines of standard input ask for, and prints what they give as the C library's calls do: scripts/c-calls --crate
//! compares them with the worked documents.

use framehop::aarch64::{CacheAarch64, PtrAuthMask, UnwindRegsAarch64, UnwinderAarch64};
use framehop::x86_64::{CacheX86_64, UnwindRegsX86_64, UnwinderX86_64};
use framehop::{CacheStats, Error, FrameAddress, Module, ModuleSectionInfo, Unwinder};
use std::io::Read;
use std::iter::Peekable;
use std::ops::Range;
use std::str::SplitAsciiWhitespace;

const HAS_BYTES: u64 = 1;
const HAS_RANGE: u64 = 2;
const IS_SEGMENT: u64 = 4;

/// The words of the input.
struct Words<'a>(Peekable<SplitAsciiWhitespace<'a>>);

impl<'a> Words<'a> {
    fn text(&mut self) -> &'a str {
        self.0.next().expect("the input ends too soon")
    }

    fn number(&mut self) -> u64 {
        let text = self.text();
        text.strip_prefix("0x").map_or_else(|| text.parse(), |hex| u64::from_str_radix(hex, 16)).expect("a number")
    }

    fn bytes(&mut self) -> Vec<u8> {
        let hex = self.text();
        (0..hex.len() / 2).map(|at| u8::from_str_radix(&hex[2 * at..][..2], 16).expect("bytes")).collect()
    }
}

/// The sections and segments of a load. Of several of a name the first counts that has what is asked for.
struct Sections {
    base_svma: u64,
    listed: Vec<(Vec<u8>, u64, Range<u64>, Vec<u8>)>,
}

impl Sections {
    fn first(&self, name: &[u8], kind: u64, what: u64) -> Option<&(Vec<u8>, u64, Range<u64>, Vec<u8>)> {
        self.listed.iter().find(|it| it.0 == name && it.1 & IS_SEGMENT == kind && it.1 & what != 0)
    }
}

impl ModuleSectionInfo<Vec<u8>> for Sections {
    fn base_svma(&self) -> u64 {
        self.base_svma
    }

    fn section_svma_range(&mut self, name: &[u8]) -> Option<Range<u64>> {
        self.first(name, 0, HAS_RANGE).map(|it| it.2.clone())
    }

    fn section_data(&mut self, name: &[u8]) -> Option<Vec<u8>> {
        self.first(name, 0, HAS_BYTES).map(|it| it.3.clone())
    }

    fn segment_svma_range(&mut self, name: &[u8]) -> Option<Range<u64>> {
        self.first(name, IS_SEGMENT, HAS_RANGE).map(|it| it.2.clone())
    }

    fn segment_data(&mut self, name: &[u8]) -> Option<Vec<u8>> {
        self.first(name, IS_SEGMENT, HAS_BYTES).map(|it| it.3.clone())
    }
}

/// An architecture's registers and caches.
trait Arch {
    type Unwinder: Unwinder<Module = Module<Vec<u8>>> + Default;

    fn cache() -> <Self::Unwinder as Unwinder>::Cache;
    fn stats(cache: &<Self::Unwinder as Unwinder>::Cache) -> CacheStats;
    fn registers(numbers: [u64; 4]) -> <Self::Unwinder as Unwinder>::UnwindRegs;
    fn shown(registers: &<Self::Unwinder as Unwinder>::UnwindRegs) -> String;
}

struct X86_64;

impl Arch for X86_64 {
    type Unwinder = UnwinderX86_64<Vec<u8>>;

    fn cache() -> CacheX86_64 {
        CacheX86_64::new()
    }

    fn stats(cache: &CacheX86_64) -> CacheStats {
        cache.stats()
    }

    fn registers([ip, sp, bp, _]: [u64; 4]) -> UnwindRegsX86_64 {
        UnwindRegsX86_64::new(ip, sp, bp)
    }

    fn shown(it: &UnwindRegsX86_64) -> String {
        format!("ip {:#x} sp {:#x} bp {:#x}", it.ip(), it.sp(), it.bp())
    }
}

struct Aarch64;

impl Arch for Aarch64 {
    type Unwinder = UnwinderAarch64<Vec<u8>>;

    fn cache() -> CacheAarch64 {
        CacheAarch64::new()
    }

    fn stats(cache: &CacheAarch64) -> CacheStats {
        cache.stats()
    }

    fn registers([lr, sp, fp, mask]: [u64; 4]) -> UnwindRegsAarch64 {
        UnwindRegsAarch64::new_with_ptr_auth_mask(PtrAuthMask(mask), lr, sp, fp)
    }

    fn shown(it: &UnwindRegsAarch64) -> String {
        format!("lr {:#x} sp {:#x} fp {:#x}", it.lr(), it.sp(), it.fp())
    }
}

fn error_text(error: Error) -> String {
    match error {
        Error::CouldNotReadStack(address) => format!("CouldNotReadStack({address:#x})"),
        other => format!("{other:?}"),
    }
}

/// The words of a stack, and what is read of them.
fn stack_of(words: &mut Words) -> impl FnMut(u64) -> Result<u64, ()> + use<> {
    let (start, count) = (words.number(), words.number());
    let known: Vec<u64> = (0..count).map(|_| words.number()).collect();
    move |address| {
        let offset = address.checked_sub(start).filter(|it| it % 8 == 0).ok_or(())?;
        known.get((offset / 8) as usize).copied().ok_or(())
    }
}

/// Makes the calls of a document, up to its end.
fn document<A: Arch>(words: &mut Words) {
    let (mut unwinders, mut caches): (Vec<A::Unwinder>, Vec<_>) = (Vec::new(), Vec::new());
    loop {
        match words.text() {
            "unwinder" => unwinders.push(A::Unwinder::default()),
            "clone" => unwinders.push(unwinders[words.number() as usize].clone()),
            "cache" => {
                words.number();
                caches.push(A::cache());
            }
            "load" => {
                let unwinder = words.number() as usize;
                let [start, end, base, base_svma] = [(); 4].map(|()| words.number());
                let [_lookup, _debug_frame_beside, _code_rules, count] = [(); 4].map(|()| words.number());
                let section = |words: &mut Words| {
                    let (name, given) = (words.text(), words.number());
                    let range = words.number()..words.number();
                    (if name == "-" { Vec::new() } else { name.into() }, given, range, words.bytes())
                };
                let listed = (0..count).map(|_| section(words)).collect();
                unwinders[unwinder].add_module(Module::new(String::new(), start..end, base, Sections { base_svma, listed }));
            }
            "unload" => unwinders[words.number() as usize].remove_module(words.number()),
            "step" => {
                let [unwinder, cache, place, address] = [(); 4].map(|()| words.number());
                let mut registers = A::registers([(); 4].map(|()| words.number()));
                let mut read_stack = stack_of(words);
                let frame = if place == 1 {
                    FrameAddress::InstructionPointer(address)
                } else {
                    FrameAddress::from_return_address(address).unwrap()
                };
                let step = unwinders[unwinder as usize].unwind_frame(frame, &mut registers, &mut caches[cache as usize], &mut read_stack);
                let found = match step {
                    Ok(Some(found)) => format!("some {found:#x}"),
                    Ok(None) => "none".to_string(),
                    Err(error) => format!("error {}", error_text(error)),
                };
                println!("{found} {}", A::shown(&registers));
            }
            "walk" => {
                let [unwinder, cache, pc, limit] = [(); 4].map(|()| words.number());
                let registers = A::registers([(); 4].map(|()| words.number()));
                let mut read_stack = stack_of(words);
                let mut frames = unwinders[unwinder as usize].iter_frames(pc, registers, &mut caches[cache as usize], &mut read_stack);
                let mut end = "limit".to_string();
                for _ in 0..limit {
                    match frames.next() {
                        Ok(Some(frame)) => println!("frame {} {:#x}", if frame.is_return_address() { "ra" } else { "ip" }, frame.address()),
                        Ok(None) => {
                            end = "end".to_string();
                            break;
                        }
                        Err(error) => {
                            end = format!("stop {}", error_text(error));
                            break;
                        }
                    }
                }
                println!("{end}");
            }
            "stats" => {
                let it = A::stats(&caches[words.number() as usize]);
                let misses = (it.miss_empty_slot_count, it.miss_wrong_modules_count, it.miss_wrong_address_count);
                println!("stats hits {} empty {} modules {} addresses {}", it.hit_count, misses.0, misses.1, misses.2);
            }
            "end" => break,
            other => panic!("no command {other}"),
        }
    }
    println!("----");
}

fn main() {
    let mut input = String::new();
    std::io::stdin().read_to_string(&mut input).expect("the input is text");
    let mut words = Words(input.split_ascii_whitespace().peekable());
    while words.0.peek().is_some() {
        assert_eq!(words.text(), "session");
        let (architecture, _) = (words.number(), words.number());
        match architecture {
            0 => document::<X86_64>(&mut words),
            _ => document::<Aarch64>(&mut words),
        }
    }
}
