//! The library called from several threads at once, each with buffers of its own: every thread plans all boards, and has to get the
//! answers, and leave the buffers, that one thread alone gets and leaves.

use crate::boards::JOBS;
use crate::planners::{Buffers, Planner, LENT};
use crate::timing;
use std::thread;
use std::time::Instant;

const ROUNDS: usize = 5;
/// How many threads call at once.
pub const THREADS: [usize; 3] = [1, 2, 4];

/// So many threads, and the calls that they make in a second of the clock on the wall, all together.
pub struct Together {
    pub threads: usize,
    pub calls: f64,
}

/// All boards in a row, by one thread.
fn ends(planner: Planner) -> Vec<(u64, Buffers)> {
    let end = |job| {
        let mut buffers = LENT;
        (planner.plan(&timing::order(job), &mut buffers), buffers)
    };
    JOBS.iter().map(end).collect()
}

pub fn measure(planner: Planner) -> Vec<Together> {
    let alone = ends(planner);
    let together = |threads: usize| {
        let mut least = f64::MAX;
        for _ in 0..ROUNDS {
            let start = Instant::now();
            let all: Vec<_> = thread::scope(|scope| {
                let running: Vec<_> = (0..threads).map(|_| scope.spawn(move || ends(planner))).collect();
                running.into_iter().map(|thread| thread.join().expect("a thread ends")).collect()
            });
            least = least.min(start.elapsed().as_secs_f64());
            assert!(all.iter().all(|ends| *ends == alone), "of {threads} threads one gets another answer");
        }
        Together { threads, calls: (threads * JOBS.len()) as f64 / least }
    };
    THREADS.map(together).into()
}
