//! Turns on the thread's own clock.

use std::hint::black_box;

/// Nanoseconds of one turn: enough that reading the clock doesn't count, and few enough that a disturbance spoils few turns.
const TURN: f64 = 1e5;
/// However long one takes.
const FEWEST_TURNS: usize = 11;

#[repr(C)]
struct Timespec {
    seconds: i64,
    nanoseconds: i64,
}

unsafe extern "C" {
    safe fn clock_gettime(clock: i32, time: &mut Timespec) -> i32;
}

/// Nanoseconds that this thread has been on a processor: other programs don't count.
fn time_on_processor() -> f64 {
    const CLOCK_THREAD_CPUTIME_ID: i32 = 3;
    let mut time = Timespec { seconds: 0, nanoseconds: 0 };
    assert_eq!(clock_gettime(CLOCK_THREAD_CPUTIME_ID, &mut time), 0);
    time.seconds as f64 * 1e9 + time.nanoseconds as f64
}

/// One side of a row: its turn, repeated as often as is asked, and how many operations a turn has.
pub struct Side<'a> {
    turns: Box<dyn FnMut(usize) + 'a>,
    operations: usize,
}

impl<'a> Side<'a> {
    /// A side whose turn is one operation.
    pub fn new(turn: impl FnMut() + 'a) -> Self {
        Self::of_many(1, turn)
    }

    /// A side whose turn has so many operations.
    pub fn of_many(operations: usize, mut turn: impl FnMut() + 'a) -> Self {
        // The turn is compiled into the loop.
        Self::repeating(operations, move |repeats| (0..repeats).for_each(|_| turn()))
    }

    /// A side that repeats its turn itself, so that what goes before the first isn't charged to each.
    pub fn repeating(operations: usize, turns: impl FnMut(usize) + 'a) -> Self {
        Self { turns: Box::new(turns), operations }
    }

    /// How many operations a turn has.
    pub fn operations(&self) -> usize {
        self.operations
    }

    /// Takes so many turns.
    pub fn go(&mut self, repeats: usize) {
        (self.turns)(repeats);
    }

    /// Nanoseconds of one operation, in so many turns.
    fn time(&mut self, repeats: usize) -> f64 {
        let start = time_on_processor();
        self.go(repeats);
        (time_on_processor() - start) / (repeats * self.operations) as f64
    }

    /// How many turns take about [`TURN`] on warm memory.
    fn repeats(&mut self) -> usize {
        self.go(1);
        let turn = self.time(1) * self.operations as f64;
        (TURN / turn).ceil() as usize
    }
}

fn median(mut times: Vec<f64>) -> f64 {
    times.sort_by(f64::total_cmp);
    times[times.len() / 2]
}

/// Median nanoseconds for one operation of each side, which together take so many. The sides take turns, so that a change of the
/// processor's clock meets all.
pub fn medians<const N: usize>(budget: f64, mut sides: [Side; N]) -> [f64; N] {
    let repeats = sides.each_mut().map(Side::repeats);
    let mut times = [const { Vec::new() }; N];
    let start = time_on_processor();
    while time_on_processor() - start < budget || times[0].len() < FEWEST_TURNS {
        for i in 0..N {
            times[i].push(sides[i].time(repeats[i]));
        }
    }
    times.map(median)
}

/// Uses a value as far as the compiler can tell.
pub fn keep<T>(value: T) {
    black_box(value);
}
