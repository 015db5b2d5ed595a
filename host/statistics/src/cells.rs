//! Cells of sets: which views are drawn, and how often.

use crate::draw::{Kind, between, draw};
use crate::measured::Measured;
use random::Random;
use std::f64::consts::PI;
use std::sync::Mutex;
use std::sync::atomic::{AtomicUsize, Ordering};
use std::thread;

/// The deviations of a pixel's errors.
pub const NOISES: [f64; 3] = [0.05, 0.1, 0.3];

/// 49 typed tilts within ±15°, with rounds that reach between them.
pub const TYPED: &str = "tilts-x -15deg,-10deg,-5deg,0deg,5deg,10deg,15deg\n\
                         tilts-y -15deg,-10deg,-5deg,0deg,5deg,10deg,15deg\n\
                         step 2.5deg\nrounds 7";

/// How many sets, from which seed, by how many threads.
#[derive(Clone, Debug)]
pub struct Runner {
    /// Any word. The same one draws the same sets.
    pub seed: String,
    /// Sets of a cell.
    pub sets: usize,
    /// Threads.
    pub threads: usize,
}

impl Runner {
    /// Draws and measures the sets of a cell. `kind` is given a set's number.
    ///
    /// # Panics
    ///
    /// A thread does.
    pub fn sets(
        &self,
        cell: &str,
        options: &str,
        kind: impl Fn(usize, &mut Random) -> Kind + Sync,
    ) -> Vec<Measured> {
        let (next, done) = (AtomicUsize::new(0), Mutex::new(vec![]));
        let work = || {
            loop {
                let set = next.fetch_add(1, Ordering::Relaxed);
                if set >= self.sets {
                    break;
                }
                let mut random = Random::named(&format!("{} {cell} {set}", self.seed));
                let kind = kind(set, &mut random);
                let measured = Measured::new(set, draw(&kind, &mut random), options);
                done.lock().expect("no thread panics").push(measured);
            }
        };
        thread::scope(|scope| (0..self.threads).for_each(|_| drop(scope.spawn(work))));
        let mut done = done.into_inner().expect("no thread panics");
        done.sort_by_key(|measured| measured.set);
        done
    }
}

/// Views through a lens that nobody states: p of 0.0005 to 0.01, k1 of ±0.005 to ±0.3. Half of the lenses bend by p1, p2 or both, a
/// quarter by k1, a quarter by all three.
#[must_use]
pub fn lens(random: &mut Random) -> Kind {
    let views = random.pick(&[4, 6, 8, 10, 14, 20]);
    let noise = between(random, 0.05, 0.4);
    let size = |random: &mut Random, least: f64, most: f64| {
        let size = (between(random, least.ln(), most.ln())).exp();
        if random.below(2) == 0 { size } else { -size }
    };
    let (p, about) = (size(random, 0.0005, 0.01), random.within(PI));
    let k1 = size(random, 0.005, 0.3);
    let tangential = [p * about.sin(), p * about.cos()];
    let lens = match random.below(4) {
        0 => [0.0, 0.0, p, 0.0],
        1 => [0.0, 0.0, tangential[0], tangential[1]],
        2 => [k1, 0.0, 0.0, 0.0],
        _ => [k1, 0.0, tangential[0], tangential[1]],
    };
    Kind { lens, is_spread: random.below(2) == 0, ..Kind::clean(views, noise) }
}

/// Views with one of 121 true tilts within ±15°, for the sets 0 to 241 on two kinds of poses.
#[must_use]
pub fn typed(set: usize, random: &mut Random) -> Kind {
    let (views, noise) = (random.pick(&[3, 4, 6, 8, 14]), random.pick(&NOISES));
    let tilts = [set % 11, set / 11 % 11].map(|i| [3.0 * i as f64 - 15.0; 2]);
    Kind { tilts, is_spread: set % 242 < 121, ..Kind::clean(views, noise) }
}
