//! Work for many seeds on all cores.

use generator::Tally;
use std::thread;

/// The bytes of a worker's stack: states are passed by value.
const STACK: usize = 16 << 20;

/// What all workers met, and the sum of what the work for each seed gave.
pub fn in_parallel(
    seeds: u64,
    work: impl Fn(u64, &mut Tally<String>) -> usize + Sync,
) -> (Tally<String>, usize) {
    let workers = thread::available_parallelism().map_or(1, usize::from) as u64;
    let work = &work;
    let share = |worker: u64| {
        move || {
            let (mut met, mut sum) = (Tally::default(), 0);
            for seed in (worker..seeds).step_by(workers as usize) {
                sum += work(seed, &mut met);
            }
            (met, sum)
        }
    };
    let (mut met, mut sum) = (Tally::default(), 0);
    thread::scope(|scope| {
        let start = |worker| {
            let builder = thread::Builder::new().stack_size(STACK);
            let started = builder.spawn_scoped(scope, share(worker));
            started.expect("a worker starts")
        };
        let shares: Vec<_> = (0..workers).map(start).collect();
        for worker in shares {
            let (also, more) = worker.join().expect("a worker found no difference");
            met.add(also);
            sum += more;
        }
    });
    (met, sum)
}
