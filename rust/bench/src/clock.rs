//! Times of calls that are run in turn, so that what else the machine does falls on all of them alike.

#[repr(C)]
struct Timespec {
    seconds: i64,
    nanoseconds: i64,
}

extern "C" {
    fn clock_gettime(clock: i32, time: *mut Timespec) -> i32;
    fn sched_getcpu() -> i32;
    fn sched_setaffinity(process: i32, bytes: usize, processors: *const [u64; 16]) -> i32;
}

/// Linux's CLOCK_PROCESS_CPUTIME_ID.
const PROCESS_TIME: i32 = 2;

/// Seconds that this program has had the processor: the turns of other programs do not count. The original's totals start a thread, which
/// counts as well; nothing else here does.
fn now() -> f64 {
    let mut time = Timespec { seconds: 0, nanoseconds: 0 };
    let failed = unsafe { clock_gettime(PROCESS_TIME, &mut time) };
    assert_eq!(failed, 0, "no clock of the program's time");
    time.seconds as f64 + 1e-9 * time.nanoseconds as f64
}

/// Keeps this program and the threads that it starts on the processor that it is on: the time of a thread that still runs elsewhere is counted
/// late, and that of one that was taken off is not.
pub fn stay_on_this_processor() {
    let mut processors = [0; 16];
    // SAFETY: no pointer, and one to as many bytes as are told.
    let failed = unsafe {
        let here = sched_getcpu() as usize % 1024;
        processors[here / 64] = 1 << (here % 64);
        sched_setaffinity(0, 128, &processors)
    };
    assert_eq!(failed, 0, "the program cannot be kept on one processor");
}

/// The time of `calls` calls.
fn time(call: &mut dyn FnMut(), calls: usize) -> f64 {
    let start = now();
    for _ in 0..calls {
        call();
    }
    now() - start
}

/// A round of a side is as many calls as take `round` seconds, one at least. There are `least` rounds or more, for `total` seconds or more.
pub struct Rounds {
    pub least: usize,
    pub round: f64,
    pub total: f64,
}

/// The least time of one call of each side, over rounds that take the sides in turn.
pub fn least_times(rounds: &Rounds, sides: &mut [&mut dyn FnMut()]) -> Vec<f64> {
    let calls: Vec<usize> = sides.iter_mut().map(|side| calls_in(rounds.round, side)).collect();
    let mut least = vec![f64::INFINITY; sides.len()];
    let start = now();
    let mut round = 0;
    while round < rounds.least || now() - start < rounds.total {
        for (side, call) in sides.iter_mut().enumerate() {
            least[side] = least[side].min(time(call, calls[side]) / calls[side] as f64);
        }
        round += 1;
    }
    least
}

/// How many calls take so many seconds, by ever longer trials.
fn calls_in(seconds: f64, call: &mut dyn FnMut()) -> usize {
    let mut calls = 1;
    loop {
        let taken = time(call, calls);
        if taken > 0.3 * seconds {
            return ((calls as f64 * seconds / taken) as usize).max(1);
        }
        calls *= 2;
    }
}
