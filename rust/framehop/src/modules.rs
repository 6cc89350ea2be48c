//! Lists of modules, as unwinders have them.

use crate::c::Session;
use crate::module::LentModule;
use std::collections::BTreeMap;
use std::mem;
use std::sync::atomic::{AtomicU64, Ordering};
use std::sync::{Arc, Mutex, MutexGuard, PoisonError, Weak};

/// The modules of an unwinder, sorted by their starts. Of equal starts the last added comes first.
///
/// Two lists of one version have the same modules: a change makes another version, and a clone has that of its original.
pub(crate) struct Modules<D, R> {
    sorted: Vec<Arc<LentModule<D>>>,
    version: Arc<Version<R>>,
}

/// A version of a list, with sessions whose caches are gone, so that a new cache loads nothing anew.
pub(crate) struct Version<R> {
    number: u64,
    spare: Mutex<Vec<Session<R>>>,
}

/// Numbers of versions are multiples of this, which leaves room for what a habit notes beside one.
pub(crate) const VERSIONS_APART: u64 = 4;

/// How many sessions are kept for new caches.
const MOST_SPARE: usize = 8;

impl<R> Version<R> {
    // With a number that no other version has.
    fn new(spare: Vec<Session<R>>) -> Arc<Self> {
        static NEXT: AtomicU64 = AtomicU64::new(VERSIONS_APART);

        Arc::new(Version { number: NEXT.fetch_add(VERSIONS_APART, Ordering::Relaxed), spare: Mutex::new(spare) })
    }

    fn spare(&self) -> MutexGuard<'_, Vec<Session<R>>> {
        self.spare.lock().unwrap_or_else(PoisonError::into_inner)
    }

    /// Keeps a session without a cache, if there is room for it.
    pub(crate) fn keep(&self, session: Session<R>) {
        let mut spare = self.spare();
        if spare.len() < MOST_SPARE {
            spare.push(session);
        }
    }
}

impl<D, R> Clone for Modules<D, R> {
    fn clone(&self) -> Self {
        Modules { sorted: self.sorted.clone(), version: self.version.clone() }
    }
}

impl<D, R> Modules<D, R> {
    pub(crate) fn new() -> Self {
        Modules { sorted: Vec::new(), version: Version::new(Vec::new()) }
    }

    // Makes another version. It has the sessions of the one before, if no other list has that.
    fn renew(&mut self) {
        let is_alone = Arc::strong_count(&self.version) == 1;
        let spare = if is_alone { mem::take(&mut *self.version.spare()) } else { Vec::new() };
        self.version = Version::new(spare);
    }

    pub(crate) fn add(&mut self, module: Arc<LentModule<D>>) {
        let place = self.sorted.partition_point(|it| it.start() < module.start());
        self.renew();
        self.sorted.insert(place, module);
    }

    /// Removes the last that starts at an address.
    pub(crate) fn remove(&mut self, start: u64) {
        let after = self.sorted.partition_point(|it| it.start() <= start);
        if after > 0 && self.sorted[after - 1].start() == start {
            self.renew();
            self.sorted.remove(after - 1);
        }
    }

    pub(crate) fn last_end(&self) -> u64 {
        self.sorted.last().map_or(0, |it| it.end())
    }

    /// The number of the version.
    #[inline(always)]
    pub(crate) fn version(&self) -> u64 {
        self.version.number
    }

    /// A session that the last caches left, if there is one.
    pub(crate) fn spare_session(&self) -> Option<Session<R>> {
        self.version.spare().pop()
    }

    /// An unwinder of a session that has the modules.
    pub(crate) fn follower(&self, unwinder: u64) -> Follower<R> {
        let loaded = self.sorted.iter().map(|it| it.loaded()).collect();
        Follower { unwinder, version: self.version(), lasting: Arc::downgrade(&self.version), loaded }
    }
}

/// An unwinder of a session. It has the modules of each list of its version.
pub(crate) struct Follower<R> {
    pub(crate) unwinder: u64,
    pub(crate) version: u64,
    /// What tells whether a list of the version is still there.
    pub(crate) lasting: Weak<Version<R>>,
    pub(crate) loaded: Vec<Loaded>,
}

/// What tells a module that is loaded: its start, and a number that no other module has.
#[derive(Clone, Copy, PartialEq, Eq)]
pub(crate) struct Loaded {
    pub(crate) start: u64,
    pub(crate) number: u64,
}

/// What makes loaded modules those of a list.
pub(crate) enum Change<'a, D> {
    /// Unloads the last module of a start.
    Unload(u64),
    Load(&'a LentModule<D>),
}

type ByStart<'a, D> = BTreeMap<u64, (Vec<Loaded>, Vec<&'a LentModule<D>>)>;

impl<D, R> Modules<D, R> {
    /// The unwinder that has most of the list, if one has any.
    pub(crate) fn nearest_of<'a>(&self, followers: &'a [Follower<R>]) -> Option<&'a Follower<R>> {
        followers.iter().max_by_key(|it| self.count_of(&it.loaded)).filter(|it| self.count_of(&it.loaded) > 0)
    }

    // How many of the list are loaded there.
    fn count_of(&self, loaded: &[Loaded]) -> usize {
        let there = loaded.iter().filter(|it| {
            let place = self.sorted.partition_point(|other| other.start() < it.start);
            self.sorted[place..].iter().take_while(|other| other.start() == it.start).any(|other| other.loaded() == **it)
        });
        there.count()
    }

    /// What is to be done so that the modules are loaded. At least one module is unloaded or loaded, if there is one: a list of another
    /// version has another generation, also if its modules are the same.
    pub(crate) fn changes_from(&self, loaded: &[Loaded]) -> Vec<Change<'_, D>> {
        let mut by_start = ByStart::new();
        for it in loaded {
            by_start.entry(it.start).or_default().0.push(*it);
        }
        for it in &self.sorted {
            by_start.entry(it.start()).or_default().1.push(it);
        }
        let is_same = |(had, wanted): &(Vec<Loaded>, Vec<&LentModule<D>>)| wanted.iter().map(|it| it.loaded()).eq(had.iter().copied());
        let are_same = by_start.values().all(is_same);
        let last = by_start.len().wrapping_sub(1);
        let mut changes = Vec::new();
        for (place, (start, group)) in by_start.into_iter().enumerate() {
            if is_same(&group) && !(are_same && place == last) {
                continue;
            }
            changes.extend(group.0.iter().map(|_| Change::Unload(start)));
            changes.extend(group.1.into_iter().rev().map(Change::Load));
        }
        changes
    }
}
