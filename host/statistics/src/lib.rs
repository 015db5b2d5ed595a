//! What the example host says of drawn views with known tilts, counted, beside an independent least-squares fit.
//!
//! | module | does |
//! |---|---|
//! | [`dual`] | numbers with their derivatives, forward mode |
//! | [`model`] | the camera with a lens and a tilted sensor, written from OpenCV's documentation |
//! | [`orthogonal`] | Householder's reduction, and the covariance of what it leaves |
//! | [`reference`](mod@reference) | the independent fit: its optimum, its squares, its covariance |
//! | [`draw`] | views of a plate in random poses, with a known camera |
//! | [`answer`](mod@answer) | what the program's `search` answers, in-process |
//! | [`measured`] | a set that was searched and fitted |
//! | [`summary`] | what is counted of measured sets |
//! | [`tally`] | shares with Wilson's bounds, medians, root mean squares |
//! | [`cells`] | which sets are drawn, and how often |
//! | [`stored_fit`] | stored views with the answers of outside programs |
//!
//! Nothing of the host's own fit is used here but through [`answer`](mod@answer).

pub mod answer;
pub mod cells;
pub mod draw;
pub mod dual;
pub mod measured;
pub mod model;
pub mod orthogonal;
pub mod reference;
pub mod stored_fit;
pub mod summary;
pub mod tally;
