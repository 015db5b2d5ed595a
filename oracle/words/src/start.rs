//! Start's inputs, which begin the input of every operation that begins a search.

use crate::{Reader, float_words};

/// More views than this have no case: the oracle's scripted dataset holds each of them.
const MOST_VIEWS: usize = 64;

/// Start's inputs.
#[derive(Clone, Debug)]
pub struct Inputs {
    pub views: usize,
    pub tilt_x_seeds: Vec<f64>,
    pub tilt_y_seeds: Vec<f64>,
    pub rounds: usize,
    pub refine_step: f64,
    pub max_abs_tilt: f64,
    /// Six numbers a seed.
    pub decomposition: Vec<f64>,
    pub base: [f64; 4],
    pub center: [f64; 2],
}

impl Inputs {
    /// # Errors
    ///
    /// The words don't make up Start's inputs.
    pub fn read(input: &mut Reader) -> Result<Self, String> {
        let inputs = Self {
            views: input.count()?,
            tilt_x_seeds: input.list()?,
            tilt_y_seeds: input.list()?,
            rounds: input.count()?,
            refine_step: input.float()?,
            max_abs_tilt: input.float()?,
            decomposition: input.list()?,
            base: input.floats()?,
            center: input.floats()?,
        };
        if inputs.views > MOST_VIEWS {
            return Err(format!("more than {MOST_VIEWS} views"));
        }
        Ok(inputs)
    }

    /// The words that [`Inputs::read`] reads.
    pub fn words(&self) -> Vec<u64> {
        let mut words = vec![self.views as u64];
        for list in [&self.tilt_x_seeds, &self.tilt_y_seeds] {
            words.push(list.len() as u64);
            words.extend(float_words(list));
        }
        words.push(self.rounds as u64);
        words.extend(float_words(&[self.refine_step, self.max_abs_tilt]));
        words.push(self.decomposition.len() as u64);
        words.extend(float_words(&self.decomposition));
        words.extend(float_words(&self.base));
        words.extend(float_words(&self.center));
        words
    }
}
