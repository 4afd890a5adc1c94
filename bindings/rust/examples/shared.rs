//! Two threads send the files of one checklist. It belongs to one thread at a time, so it has a lock.

use std::sync::{Mutex, MutexGuard};
use std::thread::{self, ScopedJoinHandle};
use yeqontur::{Checklist, Refusal};

const FILES: u32 = 60;
const THREADS: u32 = 2;

/// The checklist, for as long as the answer is kept; no other thread reads or changes it meanwhile. Without a lock the
/// compiler refuses a program whose threads share what one of them changes.
fn locked(shared: &Mutex<Checklist>) -> MutexGuard<'_, Checklist> {
    shared.lock().expect("no thread panics with the lock")
}

/// Sends every second file, from the given one on. The lock is held for one call.
fn send_files(shared: &Mutex<Checklist>, first: u32) -> Result<(), Refusal> {
    for file in (first..=FILES).step_by(THREADS as usize) {
        locked(shared).sent(file)?; // once the file itself is on its way
    }
    Ok(())
}

fn main() -> Result<(), Refusal> {
    let shared = &Mutex::new(Checklist::open(FILES)?);
    thread::scope(|scope| {
        let start = |first| scope.spawn(move || send_files(shared, first));
        let threads: Vec<ScopedJoinHandle<_>> = (1..=THREADS).map(start).collect();
        let mut ended = threads.into_iter().map(ScopedJoinHandle::join);
        ended.try_for_each(|sent| sent.expect("no thread panics"))
    })?;
    // A copy of one moment: no lock is held while it is asked and shown.
    let now = locked(shared).clone();
    println!("{THREADS} threads, {FILES} files");
    println!("{now}");
    Ok(())
}
