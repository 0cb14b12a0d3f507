//! Live runs: workers touch pages and controllers make calls while the monitor makes its passes, each in a thread.

use crate::commands::Commands;
use crate::journal::{for_pages, Journal};
use crate::live_script::Worker;
use crate::monitor::Phase;
use std::sync::atomic::{AtomicU32, AtomicUsize, Ordering::Relaxed};
use std::sync::{Mutex, MutexGuard};
use std::thread::{self, Scope, ScopedJoinHandle};

/// The words of all pages: twice the pass that cleared the page last, and 1 where it was touched since.
struct Words {
    words: Vec<AtomicU32>,
    /// What `fetch` read: it is kept so that the compiler keeps the reads.
    fetched: AtomicU32,
}

impl Words {
    fn new(pages: u32) -> Words {
        Words { words: (0..pages).map(|_| AtomicU32::new(0)).collect(), fetched: AtomicU32::new(0) }
    }

    /// Touches a page, and gives its tag. A touch of a marked page changes nothing, so to read its word is enough. No
    /// order between two pages is needed, since what is said of a run is said of each word alone.
    fn touch(&self, page: u32) -> u32 {
        let place = &self.words[page as usize];
        let mut word = place.load(Relaxed);
        while word & 1 == 0 {
            match place.compare_exchange_weak(word, word | 1, Relaxed, Relaxed) {
                Ok(_) => break,
                Err(now) => word = now,
            }
        }
        word >> 1
    }

    fn clear(&self, picks: &[u32], pass: u32) {
        self.fetch(picks);
        picks.iter().for_each(|&page| self.words[page as usize].store(2 * pass, Relaxed));
    }

    fn load(&self, picks: &[u32], loaded: &mut Vec<u8>) {
        loaded.clear();
        loaded.extend(picks.iter().map(|&page| (self.words[page as usize].load(Relaxed) & 1) as u8));
    }

    /// Reads the words of picks into the caches: reads do not wait for one another.
    fn fetch(&self, picks: &[u32]) {
        let read = picks.iter().rev().fold(0, |all, &page| all ^ self.words[page as usize].load(Relaxed));
        self.fetched.store(read, Relaxed);
    }
}

/// The journal behind its lock, and the number of controllers that wait for it.
struct Shared {
    journal: Mutex<Journal>,
    waiting: AtomicUsize,
    words: Words,
}

impl Shared {
    fn lock(&self) -> MutexGuard<'_, Journal> {
        self.journal.lock().unwrap_or_else(|poisoned| poisoned.into_inner())
    }

    /// Yields to threads that wait: a lock that is taken again at once is seldom handed on.
    fn give_way(&self) {
        if self.waiting.load(Relaxed) > 0 {
            thread::yield_now();
        }
    }

    fn make_passes(&self, passes: u32) {
        let mut loaded = Vec::new();
        for pass in 1..=passes {
            let mut journal = self.lock();
            journal.prepare();
            self.words.clear(journal.monitor.picks(), pass);
            drop(journal);
            self.give_way();
            let mut journal = self.lock();
            if journal.monitor.phase == Phase::Void {
                journal.void();
            } else {
                self.words.load(journal.monitor.picks(), &mut loaded);
                journal.check(&loaded);
            }
            drop(journal);
            self.give_way();
        }
    }

    fn touch_all(&self, worker: &Worker) -> Vec<u32> {
        let mut tags = Vec::with_capacity(worker.touches);
        for_pages(&worker.accesses, |page| tags.push(self.words.touch(page)));
        tags
    }

    fn make_calls(&self, controller: usize, calls: &Commands) {
        let mut place = 0;
        let mut index = 0;
        while let Some((call, next)) = calls.at(place) {
            self.waiting.fetch_add(1, Relaxed);
            let mut journal = self.lock();
            self.waiting.fetch_sub(1, Relaxed);
            journal.call(controller, index, &call);
            drop(journal);
            index += 1;
            place = next;
        }
    }
}

/// Runs all threads to their end. Gives the journal, and the tags of each worker.
pub fn run(journal: Journal, passes: u32, workers: &[Worker], controllers: &[Commands]) -> (Journal, Vec<Vec<u32>>) {
    let words = Words::new(journal.monitor.space.pages);
    let shared = Shared { journal: Mutex::new(journal), waiting: AtomicUsize::new(0), words };
    let shared_by_all = &shared;
    let tags = thread::scope(|scope| {
        let working: Vec<_> = workers.iter().map(|it| begin(scope, move || shared_by_all.touch_all(it))).collect();
        let calls = controllers.iter().enumerate();
        let calling: Vec<_> = calls.map(|(at, it)| begin(scope, move || shared_by_all.make_calls(at, it))).collect();
        shared_by_all.make_passes(passes);
        calling.into_iter().for_each(Work::end);
        working.into_iter().map(Work::end).collect()
    });
    (shared.journal.into_inner().unwrap_or_else(|poisoned| poisoned.into_inner()), tags)
}

/// Work of a thread, or its result where no thread could be made.
enum Work<'scope, T> {
    Thread(ScopedJoinHandle<'scope, T>),
    Done(T),
}

fn begin<'scope, T: Send + 'scope>(
    scope: &'scope Scope<'scope, '_>,
    work: impl Fn() -> T + Copy + Send + 'scope,
) -> Work<'scope, T> {
    match thread::Builder::new().spawn_scoped(scope, work) {
        Ok(thread) => Work::Thread(thread),
        Err(_) => Work::Done(work()),
    }
}

impl<T> Work<'_, T> {
    fn end(self) -> T {
        match self {
            Work::Thread(thread) => thread.join().expect("threads end the process where they panic"),
            Work::Done(value) => value,
        }
    }
}
