//! All roads of a folder, on all cores.

use std::ffi::OsString;
use std::path::Path;
use std::sync::atomic::{AtomicUsize, Ordering};
use std::sync::{Mutex, PoisonError};
use std::thread;

use crate::folder::digest;
use crate::folder::progress::Progress;
use crate::folder::road::{Road, Run};
use crate::language::Language;

/// With the next, what bounds the memory: a road takes some ten times its list.
const MOST_THREADS: usize = 8;
/// Roads with longer lists are made last and one at a time.
const LONGEST_BESIDE_OTHERS: usize = 1 << 19;

/// The roads in the order of their names.
pub fn all_roads(from: &Path, to: &Path, names: &[OsString], language: Language) -> Vec<Road> {
    let work = Work {
        run: Run {
            from,
            to,
            language,
            program: digest::of_program(),
        },
        names,
        next: AtomicUsize::new(0),
        long: Mutex::default(),
        progress: Progress::new(names.len(), language),
    };
    let mut roads = work.on_all_cores();
    let long = work.long.into_inner();
    for name in long.unwrap_or_else(PoisonError::into_inner) {
        roads.push(work.run.road(name));
        work.progress.one_more();
    }
    work.progress.remove();
    roads.sort_unstable_by(|one, other| one.name.cmp(&other.name));
    roads
}

/// What the threads share.
struct Work<'w> {
    run: Run<'w>,
    names: &'w [OsString],
    /// The name to be taken next.
    next: AtomicUsize,
    /// Roads with long lists.
    long: Mutex<Vec<&'w OsString>>,
    progress: Progress,
}

impl Work<'_> {
    fn on_all_cores(&self) -> Vec<Road> {
        let cores = thread::available_parallelism().map_or(1, usize::from);
        let others = 1..cores.min(self.names.len()).min(MOST_THREADS);
        thread::scope(|scope| {
            // where the system gives no more threads, those that are there do the work
            let start = |_| {
                thread::Builder::new()
                    .spawn_scoped(scope, || self.some())
                    .ok()
            };
            let begun: Vec<_> = others.map_while(start).collect();
            let mut roads = self.some();
            for other in begun {
                roads.extend(other.join().expect("no thread panics"));
            }
            roads
        })
    }

    /// Takes one name after another, until none is left.
    fn some(&self) -> Vec<Road> {
        let mut roads = Vec::new();
        while let Some(name) = self.names.get(self.next.fetch_add(1, Ordering::Relaxed)) {
            if self.run.is_longer(name, LONGEST_BESIDE_OTHERS) {
                let mut long = self.long.lock().unwrap_or_else(PoisonError::into_inner);
                long.push(name);
                continue;
            }
            roads.push(self.run.road(name));
            self.progress.one_more();
        }
        roads
    }
}
