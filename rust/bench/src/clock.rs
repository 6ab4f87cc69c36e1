//! Processor time of this thread, medians, and fixed loops that tell a slow phase of the machine from a quiet one.

#[repr(C)]
struct Timespec {
    seconds: i64,
    nanoseconds: i64,
}

extern "C" {
    fn clock_gettime(clock: i32, time: *mut Timespec) -> i32;
}

/// Linux: processor time of the calling thread.
const THREAD_TIME: i32 = 3;

/// Processor time of this thread, in seconds.
pub fn now() -> f64 {
    let mut time = Timespec { seconds: 0, nanoseconds: 0 };
    // SAFETY: the C library's function writes one timespec, whose layout on 64-bit Linux is this one.
    let failed = unsafe { clock_gettime(THREAD_TIME, &mut time) };
    assert!(failed == 0, "no thread clock");
    time.seconds as f64 + time.nanoseconds as f64 / 1e9
}

/// How long the work takes, in seconds.
pub fn timed<T>(work: impl FnOnce() -> T) -> (f64, T) {
    let start = now();
    let result = work();
    (now() - start, result)
}

pub fn median(times: &[f64]) -> f64 {
    let mut sorted = times.to_vec();
    sorted.sort_by(f64::total_cmp);
    sorted.get(sorted.len() / 2).copied().unwrap_or(0.0)
}

/// The median time of some work over so many rounds, in milliseconds, and the fixed loop's beside it.
pub fn measured(rounds: usize, mut work: impl FnMut()) -> (f64, f64) {
    let (mut times, mut fixed) = (Vec::new(), Vec::new());
    for _ in 0..rounds {
        fixed.push(calibration());
        times.push(timed(&mut work).0);
    }
    (1e3 * median(&times), 1e3 * median(&fixed))
}

pub fn best(times: &[f64]) -> f64 {
    times.iter().copied().fold(f64::INFINITY, f64::min)
}

/// One chain of multiplications, each of which waits for the one before: about 4 ms, hardly more in a slow phase.
pub fn latency() -> f64 {
    let work = || {
        let mut chain = std::hint::black_box(1u64);
        for _ in 0..2_500_000u32 {
            chain = (chain ^ (chain >> 29)).wrapping_mul(0x9E37_79B9_7F4A_7C15);
        }
        chain
    };
    let (time, result) = timed(work);
    std::hint::black_box(result);
    time
}

/// A fixed amount of work in the first-level cache, with four independent chains: about 10 ms on a quiet machine.
pub fn calibration() -> f64 {
    let table: Vec<u32> = (0..4096u32).map(|k| k.wrapping_mul(2_654_435_761)).collect();
    let work = || {
        let mut lanes = [1u32, 2, 3, 4];
        for step in 0..2_500_000u32 {
            for lane in &mut lanes {
                *lane = lane.wrapping_add(table[(*lane >> 20) as usize]) ^ step;
            }
        }
        lanes.iter().fold(0, |a, b| a ^ b)
    };
    let (time, result) = timed(work);
    std::hint::black_box(result);
    time
}
