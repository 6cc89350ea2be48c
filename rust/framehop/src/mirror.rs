//! The session of a cache, and steps in it.

use crate::c::{Registers, Session};
use crate::cache::{AllocationPolicy, CacheStats};
use crate::code_address::FrameAddress;
use crate::error::Error;
use crate::habits::{Foreseen, Habits, Pointing, READS, Reads, Sought};
use crate::layout::{CopiedWord, Frame, Sample, Word};
use crate::modules::Modules;
use crate::status::Answer;
use std::marker::PhantomData;
use std::ops::Deref;

/// For how many words of a step a cache has room from the start.
const ROOM: usize = 256;

/// A session, in which the unwinders that a cache is used with are mirrored.
pub(crate) struct Mirror<R: Registers, P> {
    session: Session<R>,
    habits: Habits,
    known: KnownWords<P>,
    /// Steps by what their look-up gave: the library counts a step again for each word that it asks for.
    stats: CacheStats,
}

/// The words that a step has asked for.
struct KnownWords<P> {
    words: Vec<Word>,
    policy: PhantomData<P>,
}

impl<P: AllocationPolicy> KnownWords<P> {
    /// Notes words, and nothing else.
    fn note(&mut self, words: &[Word]) {
        self.words.clear();
        self.words.extend_from_slice(words);
    }

    /// Asks for a word, unless there is no room for it. Returns whether there was.
    fn ask<F: FnMut(u64) -> Result<u64, ()>>(&mut self, address: u64, read_stack: &mut F) -> bool {
        let has_room = self.words.len() < ROOM || P::MAY_ALLOCATE;
        if has_room {
            self.words.push(Word::of(address, read_stack(address)));
        }
        has_room
    }
}

impl<R: Registers + Pointing, P: AllocationPolicy> Mirror<R, P> {
    pub(crate) fn new() -> Self {
        let known = KnownWords { words: Vec::with_capacity(ROOM), policy: PhantomData };
        Mirror { session: Session::NONE, habits: Habits::new(), known, stats: CacheStats::new() }
    }

    pub(crate) fn stats(&self) -> CacheStats {
        self.stats
    }

    /// Loads what the next step by these modules would load.
    pub(crate) fn prepare<D: Deref<Target = [u8]>>(&mut self, modules: &Modules<D, R>) {
        self.session.follow(modules);
    }

    /// Makes a step from a frame at an address by the modules of a list.
    #[inline(always)]
    pub(crate) fn step<D: Deref<Target = [u8]>, F: FnMut(u64) -> Result<u64, ()>>(
        &mut self,
        modules: &Modules<D, R>,
        address: FrameAddress,
        frame: &mut Frame<R>,
        read_stack: &mut F,
    ) -> Result<Option<u64>, Error> {
        frame.set_address(address);
        let sought = Sought::of(modules.version(), frame);
        let foreseen = self.habits.slot(sought).foreseen(sought, frame.registers.pointers());
        let Some(Foreseen { reads, addresses: [first, second] }) = foreseen else {
            return self.step_anew(modules, frame, read_stack).result();
        };
        self.stats.hit_count += 1;
        let mut copied = [CopiedWord::of(0); READS];
        let beside;
        let sample = if reads == Reads::None {
            Sample::of_copied(first, &[], &[])
        } else {
            let Ok(word) = read_stack(first) else {
                return self.step_over(&[Word::of(first, Err(()))], modules, frame, read_stack).result();
            };
            copied[0] = CopiedWord::of(word);
            if reads == Reads::One {
                Sample::of_copied(first, &copied[..1], &[])
            } else {
                let Ok(other) = read_stack(second) else {
                    let words = [Word::of(first, Ok(word)), Word::of(second, Err(()))];
                    return self.step_over(&words, modules, frame, read_stack).result();
                };
                copied[1] = CopiedWord::of(other);
                if reads == Reads::SideBySide {
                    Sample::of_copied(first, &copied, &[])
                } else {
                    beside = [Word::of(first, Ok(word))];
                    Sample::of_copied(second, &copied[1..], &beside)
                }
            }
        };
        let status = self.session.step(modules, frame, &sample);
        if status != 0 {
            return self.step_after(status, &copied, modules, frame, read_stack).result();
        }
        Ok(Some(frame.return_address))
    }

    /// Makes a step of which nothing is foreseen. How often it found its rule is what the library counted.
    #[cold]
    #[inline(never)]
    fn step_anew<D: Deref<Target = [u8]>, F: FnMut(u64) -> Result<u64, ()>>(
        &mut self,
        modules: &Modules<D, R>,
        frame: &mut Frame<R>,
        read_stack: &mut F,
    ) -> Answer {
        let sought = Sought::of(modules.version(), frame);
        let Mirror { session, habits, known, stats } = self;
        let habit = habits.slot(sought);
        habit.turn_to(sought);
        let pointers = frame.registers.pointers();
        session.follow(modules);
        let before = if habit.finds() { None } else { Some(session.stats()) };
        known.words.clear();
        let mut asking = Asking { session, modules, known };
        let first = asking.step(frame);
        let answer = asking.end(first, frame, read_stack);
        if let Some(before) = before {
            let after = session.stats();
            let hits = after.hit_count - before.hit_count;
            let again = known.words.len() as u64;
            // A step that found no rule, and kept none, finds none again: for the same reason.
            stats.add_look_up(&before, &after, hits > again);
            habit.set_finds(hits > again || again > 0 && hits == again);
        } else {
            stats.hit_count += 1;
        }
        habit.learn(pointers, &known.words);
        answer
    }

    /// Makes a step over words that were foreseen, after a status without a caller.
    #[cold]
    #[inline(never)]
    fn step_after<D: Deref<Target = [u8]>, F: FnMut(u64) -> Result<u64, ()>>(
        &mut self,
        status: u32,
        copied: &[CopiedWord; READS],
        modules: &Modules<D, R>,
        frame: &mut Frame<R>,
        read_stack: &mut F,
    ) -> Answer {
        let answer = Answer::of(status, frame);
        let sought = Sought::of(modules.version(), frame);
        let foreseen = self.habits.slot(sought).foreseen(sought, frame.registers.pointers());
        let (Some(_), Some(Foreseen { reads, addresses })) = (answer.needed(), foreseen) else {
            return answer;
        };
        let words = [0, 1].map(|it| Word::of(addresses[it], Ok(copied[it].value())));
        self.step_over(&words[..reads.count()], modules, frame, read_stack)
    }

    /// Makes a step over words, and over more if it asks for any: then nothing was foreseen rightly.
    #[cold]
    #[inline(never)]
    fn step_over<D: Deref<Target = [u8]>, F: FnMut(u64) -> Result<u64, ()>>(
        &mut self,
        words: &[Word],
        modules: &Modules<D, R>,
        frame: &mut Frame<R>,
        read_stack: &mut F,
    ) -> Answer {
        let Mirror { session, habits, known, .. } = self;
        known.note(words);
        let mut asking = Asking { session, modules, known };
        let first = asking.step(frame);
        if first.needed().is_some() {
            habits.slot(Sought::of(modules.version(), frame)).forget();
        }
        asking.end(first, frame, read_stack)
    }
}

impl<R: Registers, P> Drop for Mirror<R, P> {
    fn drop(&mut self) {
        self.session.retire();
    }
}

/// A step that asks for words, and is made again with each.
struct Asking<'a, D, R, P> {
    session: &'a mut Session<R>,
    modules: &'a Modules<D, R>,
    known: &'a mut KnownWords<P>,
}

impl<D: Deref<Target = [u8]>, R: Registers, P: AllocationPolicy> Asking<'_, D, R, P> {
    /// Makes the step over the words that are known.
    fn step(&mut self, frame: &mut Frame<R>) -> Answer {
        let status = self.session.step(self.modules, frame, &Sample::of_known(&self.known.words));
        Answer::of(status, frame)
    }

    /// What the step gives in the end, after this.
    fn end<F: FnMut(u64) -> Result<u64, ()>>(&mut self, mut answer: Answer, frame: &mut Frame<R>, read_stack: &mut F) -> Answer {
        while let Some(at) = answer.needed() {
            if !self.known.ask(at, read_stack) {
                return Answer::unread(at);
            }
            answer = self.step(frame);
        }
        answer
    }
}
