//! Shares generated inputs among threads that have a large native stack.

use crate::generate::generate;
use crate::run::{Input, NATIVE_STACK};
use std::sync::atomic::{AtomicU64, Ordering};
use std::thread;

/// Which inputs: the seed, the first index and how many from there.
#[derive(Clone, Copy)]
pub struct Inputs {
    pub seed: u64,
    pub first: u64,
    pub count: u64,
}

/// So many indices are taken at a time.
const SHARE: u64 = 50;

/// Gives every input to `work`, on all cores, and hands back what each thread gathered.
pub fn each_input<T: Default + Send>(inputs: Inputs, work: impl Fn(&mut T, u64, &Input) + Sync) -> Vec<T> {
    each_index(inputs, |gathered, index| work(gathered, index, &generate(inputs.seed, index)))
}

/// The same with the indices alone.
pub fn each_index<T: Default + Send>(inputs: Inputs, work: impl Fn(&mut T, u64) + Sync) -> Vec<T> {
    let taken = AtomicU64::new(0);
    let done = AtomicU64::new(0);
    let cores = thread::available_parallelism().map_or(1, |cores| cores.get());
    let one_thread = || {
        let mut gathered = T::default();
        loop {
            let begin = taken.fetch_add(SHARE, Ordering::Relaxed);
            if begin >= inputs.count {
                return gathered;
            }
            for number in begin..(begin + SHARE).min(inputs.count) {
                work(&mut gathered, inputs.first + number);
                progress(done.fetch_add(1, Ordering::Relaxed) + 1, inputs.count);
            }
        }
    };
    thread::scope(|scope| {
        let threads: Vec<_> = (0..cores)
            .map(|_| {
                let thread = thread::Builder::new().stack_size(NATIVE_STACK);
                thread.spawn_scoped(scope, one_thread).expect("a thread can be started")
            })
            .collect();
        threads.into_iter().map(|thread| thread.join().expect("the thread ends")).collect()
    })
}

/// A line for every 2 %, or every 10,000 inputs if that is more often.
fn progress(done: u64, count: u64) {
    let pace = (count / 50).clamp(1, 10_000);
    if done.is_multiple_of(pace) {
        println!("{done} of {count}");
    }
}
