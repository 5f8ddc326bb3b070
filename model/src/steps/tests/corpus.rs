//! The files that the comparison of the run program with the model takes, each
//! run by the proved program once.

use crate::plan::{plan, Source};
use crate::steps::proved::{run, Home, Run};
use std::path::{Path, PathBuf};
use std::sync::atomic::{AtomicUsize, Ordering};
use std::sync::{Mutex, OnceLock, PoisonError};
use std::thread;

const WORKERS: usize = 2;

pub struct Tried {
    pub name: String,
    pub file: Vec<u8>,
    pub run: Run,
}

pub fn home() -> Home {
    Home {
        run: PathBuf::from("target/bin/run"),
        areas: PathBuf::from("model/bin/areas"),
    }
}

/// All of them, by `model compare`'s plan.
pub fn all() -> &'static [Tried] {
    static ALL: OnceLock<Vec<Tried>> = OnceLock::new();
    ALL.get_or_init(|| {
        let plan = plan(Path::new("tests/files"), 2100, 1).expect("a plan");
        let tried = Mutex::new(Vec::new());
        each(&plan, |source: &Source| {
            let file = source.bytes().expect("a file");
            let run = run(&home(), &file).expect("a run");
            let name = source.name();
            tried
                .lock()
                .unwrap_or_else(PoisonError::into_inner)
                .push(Tried { name, file, run });
        });
        tried.into_inner().unwrap_or_else(PoisonError::into_inner)
    })
}

/// Those of at most so many records.
pub fn short(most: usize) -> impl Iterator<Item = &'static Tried> {
    all()
        .iter()
        .filter(move |tried| tried.run.replies.len() <= most)
}

/// Does something with each, in some threads.
pub fn each<T: Sync>(items: &[T], work: impl Fn(&T) + Sync) {
    let next = AtomicUsize::new(0);
    thread::scope(|scope| {
        for _ in 0..WORKERS {
            scope.spawn(|| {
                while let Some(item) = items.get(next.fetch_add(1, Ordering::Relaxed)) {
                    work(item);
                }
            });
        }
    });
}
