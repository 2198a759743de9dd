//! Pieces of work that the library and the reference do, and the time that each takes.

/// Runs of each side in a round.
const RUNS: usize = 6;
/// How long one run lasts, in nanoseconds.
const RUN: f64 = 4e6;

pub type Side = Box<dyn FnMut()>;

/// A piece of work.
pub struct Work {
    /// How many parts it has, calls, chains or records: the figure is the time of one.
    pub parts: usize,
    /// The library's side and the reference's.
    pub sides: [Side; 2],
    /// What each run does beside these parts, and is not to count.
    pub beside: Option<[Side; 2]>,
}

/// Seconds and nanoseconds, as the system's clocks give them.
#[repr(C)]
struct Time {
    seconds: i64,
    nanoseconds: i64,
}

extern "C" {
    fn clock_gettime(clock: i32, time: *mut Time) -> i32;
}

/// The clock of the processor time that this thread has had: what others have meanwhile does not count.
const THREAD: i32 = 3;

/// Nanoseconds on that clock.
fn now() -> f64 {
    let mut time = Time { seconds: 0, nanoseconds: 0 };
    // SAFETY: the time is lent for the call and has the layout that the system writes.
    let failed = unsafe { clock_gettime(THREAD, &mut time) };
    assert_eq!(failed, 0, "the clock is there");
    time.seconds as f64 * 1e9 + time.nanoseconds as f64
}

/// Nanoseconds for one call of `work`, which is called `times` times.
fn run(times: usize, work: &mut Side) -> f64 {
    let start = now();
    for _ in 0..times {
        work();
    }
    (now() - start) / times as f64
}

/// The best run of each side; they run in turn, so that a disturbance meets both.
fn best(sides: &mut [Side; 2]) -> [f64; 2] {
    let once = sides.iter_mut().map(|side| run(2, side)).fold(1.0, f64::max);
    let times = (RUN / once).max(1.0) as usize;
    let mut best = [f64::MAX; 2];
    for number in 0..RUNS {
        for at in [number % 2, 1 - number % 2] {
            best[at] = best[at].min(run(times, &mut sides[at]));
        }
    }
    best
}

impl Work {
    /// Nanoseconds for one part, of each side.
    pub fn figures(&mut self) -> [f64; 2] {
        let mut figures = best(&mut self.sides);
        if let Some(beside) = &mut self.beside {
            let beside = best(beside);
            figures = [figures[0] - beside[0], figures[1] - beside[1]];
        }
        figures.map(|figure| figure / self.parts as f64)
    }
}
