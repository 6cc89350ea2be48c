//! Calls of each public name, over small modules.

use framehop::aarch64::{CacheAarch64, PtrAuthMask, UnwindRegsAarch64, UnwinderAarch64};
use framehop::x86_64::{CacheX86_64, Reg, UnwindRegsX86_64, UnwinderX86_64};
use framehop::{
    CacheNative, ExplicitModuleSectionInfo, FrameAddress, MayAllocateDuringUnwind, Module, ModuleSectionInfo, MustNotAllocateDuringUnwind,
    UnwindIterator, UnwindRegsNative, Unwinder, UnwinderNative,
};
use std::collections::BTreeMap;
use std::fmt::Debug;
use std::ops::{Deref, Range};
use std::rc::Rc;
use std::sync::Arc;

/// The call frame information of a function of 16 bytes at 0x1000, which pushes rbp and makes it the frame pointer.
pub const EH_FRAME: [u8; 56] = [
    0x10, 0, 0, 0, 0, 0, 0, 0, 1, 0, 1, 0x78, 0x10, 0xc, 7, 8, 0x90, 1, 0, 0, 0x1c, 0, 0, 0, 0x18, 0, 0, 0, 0, 0x10, 0, 0, 0, 0, 0, 0,
    0x10, 0, 0, 0, 0, 0, 0, 0, 0x41, 0xe, 0x10, 0x86, 2, 0x43, 0xd, 6, 0, 0, 0, 0,
];

/// The words of a stack from address 0 on.
const STACK: [u64; 16] = [0x1, 0x2, 0x100300, 0x4, 0x40, 0x100200, 0x5, 0x6, 0x70, 0x100100, 0x7, 0x8, 0x9, 0xa, 0x0, 0x0];

/// The word at an address of the stack.
pub fn word_at(address: u64) -> Result<u64, ()> {
    if address.is_multiple_of(8) { STACK.get(address as usize / 8).copied().ok_or(()) } else { Err(()) }
}

fn sections<D: Deref<Target = [u8]>>(bytes: D) -> ExplicitModuleSectionInfo<D> {
    ExplicitModuleSectionInfo {
        base_svma: 0,
        text_svma: Some(0x1000..0x2000),
        text: None,
        stubs_svma: None,
        stub_helper_svma: None,
        got_svma: None,
        unwind_info: None,
        eh_frame_svma: Some(0..bytes.len() as u64),
        eh_frame: Some(bytes),
        eh_frame_hdr_svma: None,
        eh_frame_hdr: None,
        debug_frame: None,
        text_segment_svma: None,
        text_segment: None,
    }
}

/// A module at an address, whose function is 0x1000 bytes behind its start.
pub fn module<D: Deref<Target = [u8]>>(start: u64, bytes: D) -> Module<D> {
    Module::new(format!("module at {start:#x}"), start..start + 0x2000, start, sections(bytes))
}

/// The frames of a walk, up to its end, an error or a number of them.
fn walk<U: Unwinder>(unwinder: &U, pc: u64, regs: U::UnwindRegs, cache: &mut U::Cache, most: usize) {
    let mut reads = Vec::new();
    let mut read_stack = |address| {
        reads.push(address);
        word_at(address)
    };
    let mut frames = unwinder.iter_frames(pc, regs, cache, &mut read_stack);
    for _ in 0..most {
        match frames.next() {
            Ok(Some(frame)) => println!("  {frame:x?}, found by {:#x}, {}", frame.address_for_lookup(), frame.is_return_address()),
            other => {
                println!("  {other:x?}, then {:x?}", frames.next());
                break;
            }
        }
    }
    reads.dedup();
    println!("  read {reads:x?}");
}

fn x86_64() {
    println!("x86_64");
    let mut empty = UnwinderX86_64::<Vec<u8>>::new();
    println!("{:#x}", empty.max_known_code_address());
    empty.remove_module(0x100000);
    let mut cache = CacheX86_64::new();
    let at = |pc, sp, bp| UnwindRegsX86_64::new(pc, sp, bp);
    println!("without a module");
    walk(&empty, 0x101000, at(0x101000, 0x10, 0x20), &mut cache, 9);

    let mut unwinder = empty.clone();
    unwinder.add_module(module(0x100000, EH_FRAME.to_vec()));
    println!("with one, up to {:#x}", unwinder.max_known_code_address());
    for (pc, sp, bp) in [(0x101000, 0x10, 0x20), (0x101002, 0x20, 0x20), (0x101004, 0x18, 0x20), (0x101fff, 0x10, 0x20)] {
        walk(&unwinder, pc, at(pc, sp, bp), &mut cache, 9);
    }
    println!("cut off");
    walk(&unwinder, 0x101000, at(0x101000, 0x10, 0x20), &mut cache, 2);
    println!("by the clone's original");
    walk(&empty, 0x101000, at(0x101000, 0x10, 0x20), &mut cache, 9);

    let mut other = unwinder.clone();
    other.add_module(module(0x400000, EH_FRAME.to_vec()));
    other.add_module(module(0x200000, EH_FRAME.to_vec()));
    println!("with two more, up to {:#x}", other.max_known_code_address());
    walk(&other, 0x401000, at(0x401000, 0x10, 0x20), &mut cache, 9);
    walk(&unwinder, 0x401000, at(0x401000, 0x10, 0x20), &mut cache, 9);
    other.remove_module(0x100000);
    other.remove_module(0x100000);
    other.remove_module(0x400000);
    println!("with one of them, up to {:#x}", other.max_known_code_address());
    walk(&other, 0x101000, at(0x101000, 0x10, 0x20), &mut cache, 9);
    walk(&other, 0x201000, at(0x201000, 0x10, 0x20), &mut cache, 9);
    drop(other);
    walk(&unwinder, 0x101000, at(0x101000, 0x10, 0x20), &mut cache, 9);

    println!("steps");
    for (sp, bp) in [(0x10, 0x20), (0x1000, 0x20), (0x10, 0x38), (0x10, 0x70), (0x10, 0), (0x10, u64::MAX - 3), (u64::MAX - 3, 0x20)] {
        for frame in [FrameAddress::from_instruction_pointer(0x100800), FrameAddress::from_return_address(0x100800).unwrap()] {
            let mut regs = at(0x100800, sp, bp);
            let step = unwinder.unwind_frame(frame, &mut regs, &mut cache, &mut word_at);
            println!("  {step:x?} {regs:?}");
        }
    }
    println!("{:?}, {} in all", cache.stats(), cache.stats().total());
    println!("{:?} {:?}", FrameAddress::from_return_address(0), FrameAddress::from_return_address(7).map(FrameAddress::address));

    let mut regs = at(1, 2, 3);
    for (value, reg) in [Reg::RAX, Reg::RDX, Reg::RCX, Reg::RBX, Reg::RSI, Reg::RDI].into_iter().enumerate() {
        regs.set(reg, value as u64 + 10);
    }
    for (value, reg) in [Reg::R8, Reg::R9, Reg::R10, Reg::R11, Reg::R12, Reg::R13, Reg::R14, Reg::R15].into_iter().enumerate() {
        regs.set(reg, value as u64 + 20);
    }
    println!("{regs:?} {:#x} {:#x} {:#x} {:#x}", regs.ip(), regs.sp(), regs.bp(), regs.get(Reg::R15));
    regs.set_ip(4);
    regs.set_sp(5);
    regs.set_bp(6);
    println!("{:#?} {} {}", regs, regs == at(4, 5, 6), Reg::RBP < Reg::RSP);
}

fn aarch64() {
    println!("aarch64");
    let mut unwinder = UnwinderAarch64::default();
    unwinder.add_module(module(0x100000, &EH_FRAME[..]));
    let mut cache = CacheAarch64::<_>::new();
    for lr in [0x100300, 0xff00_0000_0010_0300] {
        for mask in
            [PtrAuthMask::new_no_strip(), PtrAuthMask::new_24_40(), PtrAuthMask::from_max_known_address(unwinder.max_known_code_address())]
        {
            let regs = UnwindRegsAarch64::new_with_ptr_auth_mask(mask, lr, 0x10, 0x20);
            println!(" {regs:?} {:x?} {:#x} {:#x}", regs.lr_mask(), regs.lr(), mask.strip_ptr_auth(u64::MAX));
            walk(&unwinder, 0x101800, regs, &mut cache, 9);
            walk(&unwinder, 0x801800, regs, &mut cache, 9);
        }
    }
    println!("{:?}", cache.stats());
    let mut regs = UnwindRegsAarch64::new(1, 2, 3);
    regs.set_lr(u64::MAX);
    regs.set_sp(5);
    regs.set_fp(6);
    println!("{regs:?} {:#x} {:#x} {}", regs.sp(), regs.fp(), regs == UnwindRegsAarch64::new(u64::MAX, 5, 6));
}

/// Sections of a program's own kind, which notes what it was asked.
struct Noted {
    data: BTreeMap<Vec<u8>, Rc<[u8]>>,
    asked: Rc<std::cell::RefCell<Vec<String>>>,
}

impl ModuleSectionInfo<Rc<[u8]>> for &mut Noted {
    fn base_svma(&self) -> u64 {
        0
    }

    fn section_svma_range(&mut self, name: &[u8]) -> Option<Range<u64>> {
        (name == b".text").then_some(0x1000..0x2000)
    }

    fn section_data(&mut self, name: &[u8]) -> Option<Rc<[u8]>> {
        self.asked.borrow_mut().push(String::from_utf8_lossy(name).into_owned());
        self.data.remove(name)
    }
}

/// Modules whose bytes are of other types, and policies of allocation.
fn types() {
    println!("types");
    fn by<D: Deref<Target = [u8]> + Clone>(bytes: D) {
        let mut unwinder = UnwinderX86_64::<D, MustNotAllocateDuringUnwind>::new();
        unwinder.add_module(module(0x100000, bytes));
        let mut cache = CacheX86_64::<MustNotAllocateDuringUnwind>::new_in();
        walk(&unwinder.clone(), 0x101001, UnwindRegsX86_64::new(0x101001, 0x18, 0x20), &mut cache, 9);
    }
    by::<Vec<u8>>(EH_FRAME.to_vec());
    by::<Arc<[u8]>>(EH_FRAME.into());
    by::<Box<[u8]>>(EH_FRAME.into());
    let local = EH_FRAME;
    by::<&[u8]>(&local);
    by::<std::borrow::Cow<[u8]>>(local[..].into());

    let asked = Rc::default();
    let data = BTreeMap::from([(b".eh_frame".to_vec(), Rc::from(&EH_FRAME[..]))]);
    let mut info = Noted { data, asked: Rc::clone(&asked) };
    let made = Module::new("noted".to_string(), 0x100000..0x102000, 0x100000, &mut info);
    println!("{} {:x?} {:#x}, data left: {}", made.name(), made.avma_range(), made.base_avma(), info.data.len());
    let once = asked.borrow().iter().enumerate().all(|(place, name)| !asked.borrow()[..place].contains(name));
    println!("asked for .eh_frame: {}, for no bytes twice: {once}", asked.borrow().iter().any(|it| it == ".eh_frame"));
    let mut unwinder = UnwinderNative::<_, MayAllocateDuringUnwind>::default();
    unwinder.add_module(made.clone());
    let mut cache = CacheNative::<MayAllocateDuringUnwind>::default();
    walk(&unwinder, 0x101001, UnwindRegsNative::new(0x101001, 0x18, 0x20), &mut cache, 9);
    let mut read_stack = word_at;
    let regs = UnwindRegsNative::new(0x101000, 0x10, 0x20);
    let mut frames = UnwindIterator::new(&unwinder, 0x101000, regs, &mut cache, &mut read_stack);
    println!("{:x?}", frames.next());
}

/// Threads, each with a cache and a clone of one unwinder.
fn threads() {
    println!("threads");
    let mut unwinder = UnwinderX86_64::new();
    unwinder.add_module(module(0x100000, Arc::<[u8]>::from(EH_FRAME)));
    fn is_sent<T: Send>(it: T) -> T {
        it
    }
    let started = (0..4u64).map(|thread| {
        let mut own = is_sent(unwinder.clone());
        let mut cache = is_sent(CacheX86_64::new());
        std::thread::spawn(move || {
            let mut found = Vec::new();
            for round in 0..50u64 {
                own.add_module(module(0x200000 + (thread << 20), Arc::from(EH_FRAME)));
                let pc = if round % 2 == 0 { 0x101001 } else { 0x201001 + (thread << 20) };
                let mut read_stack = word_at;
                let mut frames = own.iter_frames(pc, UnwindRegsX86_64::new(pc, 0x18, 0x20), &mut cache, &mut read_stack);
                while let Ok(Some(frame)) = frames.next() {
                    found.push(frame.address());
                }
                own.remove_module(0x200000 + (thread << 20));
            }
            found
        })
    });
    for found in started.collect::<Vec<_>>().into_iter().map(|it| it.join().unwrap()) {
        println!("  {} frames, the last {:x?}", found.len(), &found[found.len() - 4..]);
    }
}

/// An error as a program shows it.
fn errors() {
    fn shown(it: &(dyn std::error::Error + 'static)) -> impl Debug {
        it.downcast_ref::<framehop::Error>().copied()
    }
    println!("{:?}", shown(&framehop::Error::DidNotAdvance));
}

pub fn print() {
    x86_64();
    aarch64();
    types();
    threads();
    errors();
}
