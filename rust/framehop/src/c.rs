//! The calls of the C library, and all `unsafe` of this crate. `framehop.h` says at each call what its caller owes.
#![allow(unsafe_code)]

use crate::cache::CacheStats;
use crate::habits::SLOTS;
use crate::layout::{Frame, Handle, MappedFile, Sample};
use crate::modules::{Change, Follower, Modules};
use crate::status::done;
use std::alloc::{Layout, alloc, dealloc, realloc};
use std::marker::PhantomData;
use std::ops::Deref;
use std::{mem, ptr};

type UnwindFrame<R> = unsafe extern "C" fn(&mut Handle, &mut Frame<R>, &Sample) -> u32;

// SAFETY: these are the declarations of framehop.h. What the safe ones ask of a caller is in their types: a `Handle` is null at first and
// then written by these calls alone. They read no bytes of modules: loads and steps do.
unsafe extern "C" {
    safe fn framehop_version() -> u32;
    safe fn framehop_session_new(session: &mut Handle, architecture: u32) -> u32;
    safe fn framehop_session_free(session: &mut Handle) -> u32;
    safe fn framehop_add_unwinder(session: &mut Handle, unwinder: &mut u64) -> u32;
    safe fn framehop_clone_unwinder(session: &mut Handle, unwinder: u64, clone: &mut u64) -> u32;
    safe fn framehop_remove_unwinder(session: &mut Handle, unwinder: u64) -> u32;
    safe fn framehop_add_cache(session: &mut Handle, slots: u64, cache: &mut u64) -> u32;
    safe fn framehop_remove_cache(session: &mut Handle, cache: u64) -> u32;
    safe fn framehop_stats(session: &mut Handle, cache: u64, stats: &mut CacheStats) -> u32;
    safe fn framehop_unload(session: &mut Handle, unwinder: u64, start: u64) -> u32;
    fn framehop_load(session: &mut Handle, unwinder: u64, module: &MappedFile) -> u32;
    fn framehop_unwind_frame_x86_64(session: &mut Handle, frame: &mut Frame<[u64; 17]>, sample: &Sample) -> u32;
    fn framehop_unwind_frame_aarch64(session: &mut Handle, frame: &mut Frame<[u64; 4]>, sample: &Sample) -> u32;
}

/// The registers of an architecture, as C has them.
pub(crate) trait Registers: Copy {
    const ARCHITECTURE: u32;
    const UNWIND_FRAME: UnwindFrame<Self>;
}

impl Registers for [u64; 17] {
    const ARCHITECTURE: u32 = 0;
    const UNWIND_FRAME: UnwindFrame<Self> = framehop_unwind_frame_x86_64;
}

impl Registers for [u64; 4] {
    const ARCHITECTURE: u32 = 1;
    const UNWIND_FRAME: UnwindFrame<Self> = framehop_unwind_frame_aarch64;
}

/// A session with one cache, and with an unwinder for each version of a list that the cache was used with; or none, before it follows a list.
pub(crate) struct Session<R> {
    handle: Handle,
    cache: u64,
    followers: Vec<Follower<R>>,
    // The version that was asked for last, and its unwinder. No list has the version 0.
    last: (u64, u64),
    registers: PhantomData<R>,
}

// SAFETY: this session's calls alone reach what the handle has, and each has the session alone; where bytes are read a list is borrowed.
unsafe impl<R> Send for Session<R> {}

// SAFETY: no call takes a session shared.
unsafe impl<R> Sync for Session<R> {}

impl<R> Drop for Session<R> {
    fn drop(&mut self) {
        framehop_session_free(&mut self.handle);
    }
}

impl<R: Registers> Session<R> {
    pub(crate) const NONE: Self = Session { handle: Handle::NONE, cache: 0, followers: Vec::new(), last: (0, 0), registers: PhantomData };

    /// Gives what is loaded of the list that was followed last to that list, if it is still there, with a new cache, and is left as `NONE`.
    pub(crate) fn retire(&mut self) {
        let mut session = mem::replace(self, Session::NONE);
        session.followers.retain(|it| it.version == session.last.0 || framehop_remove_unwinder(&mut session.handle, it.unwinder) != 0);
        if let Some(version) = session.followers.first().and_then(|it| it.lasting.upgrade())
            && framehop_remove_cache(&mut session.handle, session.cache) == 0
            && framehop_add_cache(&mut session.handle, SLOTS, &mut session.cache) == 0
        {
            version.keep(session);
        }
    }

    pub(crate) fn stats(&mut self) -> CacheStats {
        let mut stats = CacheStats::new();
        done(framehop_stats(&mut self.handle, self.cache, &mut stats));
        stats
    }

    // Makes a clone of the unwinder that has most of the modules, and changes it. Unwinders of versions that are gone are let go.
    #[cold]
    fn make_follower<D: Deref<Target = [u8]>>(&mut self, modules: &Modules<D, R>) -> u64 {
        let nearest = modules.nearest_of(&self.followers);
        let mut unwinder = 0;
        done(match nearest {
            Some(it) => framehop_clone_unwinder(&mut self.handle, it.unwinder, &mut unwinder),
            None => framehop_add_unwinder(&mut self.handle, &mut unwinder),
        });
        for change in modules.changes_from(nearest.map_or(&[], |it| &it.loaded)) {
            done(match change {
                Change::Unload(start) => framehop_unload(&mut self.handle, unwinder, start),
                Change::Load(module) => {
                    let sections = module.sections();
                    // SAFETY: the sections and their bytes are borrowed for the call. Later calls read bytes in steps of the unwinder: see there.
                    unsafe { framehop_load(&mut self.handle, unwinder, &module.with_sections(&sections)) }
                }
            });
        }
        self.followers.retain(|it| it.lasting.strong_count() > 0 || framehop_remove_unwinder(&mut self.handle, it.unwinder) != 0);
        self.followers.push(modules.follower(unwinder));
        unwinder
    }

    #[cold]
    fn turn_to<D: Deref<Target = [u8]>>(&mut self, modules: &Modules<D, R>) {
        if self.handle.is_none() {
            assert_eq!(framehop_version(), 0x000100, "libframehop.a is of another version than this crate");
            if let Some(session) = modules.spare_session() {
                *self = session;
            } else {
                done(framehop_session_new(&mut self.handle, R::ARCHITECTURE));
                done(framehop_add_cache(&mut self.handle, SLOTS, &mut self.cache));
            }
        }
        let there = self.followers.iter().find(|it| it.version == modules.version()).map(|it| it.unwinder);
        self.last = (modules.version(), there.unwrap_or_else(|| self.make_follower(modules)));
    }

    #[inline(always)]
    pub(crate) fn follow<D: Deref<Target = [u8]>>(&mut self, modules: &Modules<D, R>) -> u64 {
        if self.last.0 != modules.version() {
            self.turn_to(modules);
        }
        self.last.1
    }

    /// Makes a step from a frame by the modules of a list, over the words of a sample, and returns its status.
    #[inline(always)]
    pub(crate) fn step<D: Deref<Target = [u8]>>(&mut self, modules: &Modules<D, R>, frame: &mut Frame<R>, sample: &Sample) -> u32 {
        (frame.unwinder, frame.cache) = (self.follow(modules), self.cache);
        // SAFETY: the unwinder has the modules of the list and no others. They are borrowed with it, each behind an `Arc` and never written,
        // so that their bytes are where they were when they were lent. All else is borrowed too.
        unsafe { R::UNWIND_FRAME(&mut self.handle, frame, sample) }
    }
}

// How many bytes a block begins with, for its size: the global allocator wants it back, and the library doesn't keep it.
const HEAD: usize = 16;

/// Whether there was memory, and where. What is no memory has a place too, which isn't null.
#[repr(C)]
struct Tried(bool, *mut u8);

fn tried(size: usize, allocate: impl FnOnce(Layout) -> *mut u8) -> Tried {
    let block = Layout::from_size_align(size.saturating_add(HEAD), HEAD).map_or(ptr::null_mut(), allocate);
    if block.is_null() {
        return Tried(false, ptr::without_provenance_mut(HEAD));
    }
    // SAFETY: the block begins with HEAD bytes for the size, aligned for it.
    unsafe { block.cast::<usize>().write(size + HEAD) };
    Tried(true, block.wrapping_add(HEAD))
}

unsafe fn block_of(at: *mut u8) -> (*mut u8, Layout) {
    let block = at.wrapping_sub(HEAD);
    // SAFETY: the caller has `at` of a call below, which wrote there the size of the layout that it made.
    (block, unsafe { Layout::from_size_align_unchecked(block.cast::<usize>().read(), HEAD) })
}

#[unsafe(no_mangle)]
extern "C" fn rattle_alloc(size: usize, _align: usize) -> Tried {
    // SAFETY: the layout has HEAD bytes or more.
    tried(size, |layout| unsafe { alloc(layout) })
}

#[unsafe(no_mangle)]
unsafe extern "C" fn rattle_realloc(at: *mut u8, _kept: usize, size: usize, _align: usize) -> Tried {
    // SAFETY: the library has `at` of these functions, and hasn't let it go.
    tried(size, |layout| unsafe {
        let (block, old) = block_of(at);
        realloc(block, old, layout.size())
    })
}

#[unsafe(no_mangle)]
unsafe extern "C" fn rattle_dealloc(at: *mut u8) {
    // SAFETY: as for rattle_realloc.
    unsafe {
        let (block, layout) = block_of(at);
        dealloc(block, layout)
    }
}
