//! Timing: several turns, one after the other in every round.

use std::ffi::{c_int, c_long};
use std::hint::black_box;
use std::time::Duration;

use crate::rows::Buffers;

/// One call of what is measured.
pub type Turn<'a> = Box<dyn Fn(&mut Buffers) -> u64 + 'a>;

const ROUNDS: usize = 31;

/// How long the calls of one turn last, at least.
const LEAST: Duration = Duration::from_millis(2);

/// What one turn measured.
pub struct Measured {
    /// The median over all rounds, a call.
    pub nanoseconds: f64,
    /// The first turn's speed divided by this one's: the median over all rounds,
    /// each compared within itself.
    pub ratio: f64,
}

/// Measures all turns.
pub fn measure(turns: &[Turn], buffers: &mut Buffers) -> Vec<Measured> {
    let calls: Vec<u32> = turns.iter().map(|turn| enough(turn, buffers)).collect();
    let mut times = vec![Vec::new(); turns.len()];
    for _ in 0..ROUNDS {
        for (index, turn) in turns.iter().enumerate() {
            let time = time(turn, calls[index], buffers);
            times[index].push(time.as_nanos() as f64 / f64::from(calls[index]));
        }
    }
    let measured = |own: &Vec<f64>| Measured {
        nanoseconds: median(own.clone()),
        ratio: median(
            own.iter()
                .zip(&times[0])
                .map(|(own, first)| own / first)
                .collect(),
        ),
    };
    times.iter().map(measured).collect()
}

/// A number of calls that lasts long enough.
fn enough(turn: &Turn, buffers: &mut Buffers) -> u32 {
    let mut calls = 1;
    while time(turn, calls, buffers) < LEAST {
        calls *= 2;
    }
    calls
}

fn time(turn: &Turn, calls: u32, buffers: &mut Buffers) -> Duration {
    let start = processor_time();
    for _ in 0..calls {
        black_box(turn(black_box(buffers)));
    }
    processor_time() - start
}

/// C's `struct timespec` on Linux.
#[repr(C)]
#[derive(Default)]
struct Time {
    seconds: c_long,
    nanoseconds: c_long,
}

extern "C" {
    fn clock_gettime(clock: c_int, time: *mut Time) -> c_int;
}

/// Linux's CLOCK_PROCESS_CPUTIME_ID.
const PROCESSOR_TIME: c_int = 2;

/// The time that a processor spent on this program: what other programs take does
/// not count.
fn processor_time() -> Duration {
    let mut time = Time::default();
    let status = unsafe { clock_gettime(PROCESSOR_TIME, &mut time) };
    assert_eq!(status, 0, "the clock can be read");
    Duration::new(time.seconds as u64, time.nanoseconds as u32)
}

fn median(mut numbers: Vec<f64>) -> f64 {
    numbers.sort_by(f64::total_cmp);
    numbers[numbers.len() / 2]
}
