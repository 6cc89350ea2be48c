//! What is known of the slots of a session's cache: which step surely finds its rule there, and which words that rule reads.
//!
//! A step that asks for words is made again with each of them, and looked up each time. Where its rule was found before, the words are asked
//! for first, and one call does. The library decides what they mean: a word that is missing is asked for, and one too much isn't used.

use crate::layout::{Frame, Word};
use crate::modules::VERSIONS_APART;

/// As many as a cache has.
pub(crate) const SLOTS: u64 = 509;

/// As many words as a rule reads.
pub(crate) const READS: usize = 2;

// What a habit's kind says beside the version.
const READY: u64 = 1;
const OF_RETURN: u64 = 2;
const _: () = assert!(READY | OF_RETURN == VERSIONS_APART - 1);

/// The registers that lead to words of the stack.
#[derive(Clone, Copy)]
pub(crate) struct Pointers {
    pub(crate) sp: u64,
    pub(crate) fp: u64,
}

/// Registers that have such.
pub(crate) trait Pointing {
    fn pointers(&self) -> Pointers;
}

/// `ip`, and the general registers of x86_64 by their DWARF numbers.
impl Pointing for [u64; 17] {
    #[inline(always)]
    fn pointers(&self) -> Pointers {
        Pointers { sp: self[8], fp: self[7] }
    }
}

/// `lr_mask`, `lr`, `sp` and `fp` of aarch64.
impl Pointing for [u64; 4] {
    #[inline(always)]
    fn pointers(&self) -> Pointers {
        Pointers { sp: self[2], fp: self[3] }
    }
}

/// How many words a step reads, and whether the second is the next after the first.
#[derive(Clone, Copy, PartialEq, Eq)]
pub(crate) enum Reads {
    None,
    One,
    SideBySide,
    Apart,
}

impl Reads {
    pub(crate) fn count(self) -> usize {
        match self {
            Reads::None => 0,
            Reads::One => 1,
            Reads::SideBySide | Reads::Apart => 2,
        }
    }
}

/// What the last step of a slot was, and what was learned of such steps.
#[derive(Clone, Copy)]
pub(crate) struct Habit {
    address: u64,
    /// The version, and `OF_RETURN` more for a return address, and `READY` more if such steps find their rule, and their words are known.
    kind: u64,
    /// How far the frame pointer was from the stack pointer.
    apart: u64,
    /// How far words are from the registers that lead to them, and 0 for those that there aren't.
    distances: [u64; READS],
    /// -1 for words that the frame pointer leads to, else 0.
    by_fp: [i8; READS],
    /// The words that such steps read.
    reads: Reads,
    /// -1 if the words are known only where the frame pointer is as far from the stack pointer as it was, 0 if several steps told which
    /// register leads to each.
    by_apart: i8,
    /// Whether the next such step finds its rule.
    finds: bool,
    /// Whether it is known where the words are.
    is_known: bool,
}

/// A step that is looked for among the habits.
#[derive(Clone, Copy)]
pub(crate) struct Sought {
    address: u64,
    kind: u64,
}

impl Sought {
    /// A step from a frame by modules of a version.
    #[inline(always)]
    pub(crate) fn of<R>(version: u64, frame: &Frame<R>) -> Sought {
        let kind = version.wrapping_add(OF_RETURN * frame.is_at_return());
        Sought { address: frame.address_for_lookup(), kind }
    }
}

/// The habits of a cache.
pub(crate) struct Habits(Box<[Habit; SLOTS as usize]>);

impl Habits {
    pub(crate) fn new() -> Self {
        let habits = vec![Habit::of(Sought { address: 0, kind: 0 }); SLOTS as usize];
        Habits(habits.try_into().unwrap_or_else(|_| unreachable!()))
    }

    /// The slot of a step.
    #[inline(always)]
    pub(crate) fn slot(&mut self, sought: Sought) -> &mut Habit {
        &mut self.0[(sought.address % SLOTS) as usize]
    }
}

/// The addresses of the words that a step will read. Those that there aren't are the stack pointer.
#[derive(Clone, Copy)]
pub(crate) struct Foreseen {
    pub(crate) reads: Reads,
    pub(crate) addresses: [u64; READS],
}

impl Habit {
    fn of(sought: Sought) -> Habit {
        Habit {
            address: sought.address,
            kind: sought.kind,
            apart: 0,
            distances: [0; READS],
            by_fp: [0; READS],
            reads: Reads::None,
            by_apart: 0,
            finds: false,
            is_known: false,
        }
    }

    /// Makes the habit that of a step, if it is another's.
    pub(crate) fn turn_to(&mut self, sought: Sought) {
        if self.address != sought.address || self.kind & !READY != sought.kind {
            *self = Habit::of(sought);
        }
    }

    /// Whether the step surely finds its rule.
    pub(crate) fn finds(&self) -> bool {
        self.finds
    }

    /// Says whether the next such step does.
    pub(crate) fn set_finds(&mut self, finds: bool) {
        self.finds = finds;
        self.set_ready();
    }

    fn set_ready(&mut self) {
        self.kind = self.kind & !READY | if self.finds && self.is_known { READY } else { 0 };
    }

    /// The words that a step will read, if it surely finds its rule, and they are known and in the part of the stack that is in use.
    #[inline(always)]
    pub(crate) fn foreseen(&self, sought: Sought, pointers: Pointers) -> Option<Foreseen> {
        let Pointers { sp, fp } = pointers;
        let apart = fp.wrapping_sub(sp);
        let is_other = (self.address ^ sought.address) | (self.kind ^ sought.kind.wrapping_add(READY));
        if is_other | ((self.apart ^ apart) & mask(self.by_apart)) != 0 {
            return None;
        }
        let at = |it: usize| sp.wrapping_add(apart & mask(self.by_fp[it])).wrapping_add(self.distances[it]);
        let addresses = [at(0), if self.reads.count() > 1 { at(1) } else { sp }];
        let is_in_use = addresses.iter().all(|it| *it >= sp);
        is_in_use.then_some(Foreseen { reads: self.reads, addresses })
    }

    /// Learns from a step that asked for these words.
    pub(crate) fn learn(&mut self, pointers: Pointers, asked: &[Word]) {
        if asked.len() > READS {
            return self.forget();
        }
        let before = *self;
        self.apart = pointers.fp.wrapping_sub(pointers.sp);
        self.reads = [Reads::None, Reads::One, Reads::Apart][asked.len()];
        self.is_known = true;
        self.by_apart = -1;
        self.distances = [0; READS];
        self.by_fp = [0; READS];
        for (distance, word) in self.distances.iter_mut().zip(asked) {
            *distance = word.address().wrapping_sub(pointers.sp);
        }
        if before.is_known && before.by_apart != 0 && before.reads.count() == asked.len() {
            self.join(&before);
        }
        if asked.len() == 2 && self.by_fp[0] == self.by_fp[1] && self.distances[1] == self.distances[0].wrapping_add(8) {
            self.reads = Reads::SideBySide;
        }
        self.set_ready();
    }

    // Learns which registers lead to the words, if each was at one distance from one of them in two steps, and at several from the other.
    fn join(&mut self, before: &Habit) {
        let mut told = *self;
        told.by_apart = 0;
        for it in 0..self.reads.count() {
            let from_fp = |habit: &Habit| habit.distances[it].wrapping_sub(habit.apart);
            match (self.distances[it] == before.distances[it], from_fp(self) == from_fp(before)) {
                (true, false) => {}
                (false, true) => (told.distances[it], told.by_fp[it]) = (from_fp(self), -1),
                _ => return,
            }
        }
        *self = told;
    }

    /// Forgets which words are read.
    pub(crate) fn forget(&mut self) {
        self.is_known = false;
        self.set_ready();
    }
}

// All bits or none.
#[inline(always)]
fn mask(number: i8) -> u64 {
    i64::from(number) as u64
}
