//! Both readers timed in turn in one process, and what a call of the archive costs.

mod calls;
mod readers;

pub use calls::calls;
pub use readers::{lines, packets};

use std::hint::black_box;
use std::io::{self, Error};

const ROUNDS: usize = 7;

#[repr(C)]
struct Timespec {
    seconds: i64,
    nanoseconds: i64,
}

const PROCESS_TIME: i32 = 2;

unsafe extern "C" {
    fn clock_gettime(clock: i32, time: *mut Timespec) -> i32;
}

/// The processor time of this process in nanoseconds, so that other work on the machine counts as little as it can.
fn now() -> f64 {
    let mut time = Timespec {
        seconds: 0,
        nanoseconds: 0,
    };
    // SAFETY: the struct is that of 64-bit Linux, and the call writes nothing else.
    unsafe { clock_gettime(PROCESS_TIME, &mut time) };
    time.seconds as f64 * 1e9 + time.nanoseconds as f64
}

/// One that is timed: its name, and a run over all inputs that gives their sum.
type Runner<'r> = (&'r str, &'r mut dyn FnMut() -> u64);

/// Runs all in turn, seven rounds, and prints the best of each; the first is what the others are held to. Nothing is timed unless all sums
/// are equal.
fn race(unit: &str, count: usize, runners: &mut [Runner]) -> io::Result<()> {
    let sums: Vec<u64> = runners.iter_mut().map(|(_, run)| run()).collect();
    if sums.iter().any(|sum| *sum != sums[0]) {
        return Err(Error::other(format!("sums differ: {sums:?}")));
    }
    let mut best = vec![f64::INFINITY; runners.len()];
    for _ in 0..ROUNDS {
        for ((_, run), best) in runners.iter_mut().zip(&mut best) {
            let start = now();
            black_box(run());
            *best = best.min(now() - start);
        }
    }
    for ((name, _), time) in runners.iter().zip(&best) {
        let (each, ratio) = (time / count as f64, time / best[0]);
        println!("{name:44} {each:10.1} ns a {unit}  {ratio:6.3}");
    }
    Ok(())
}
