//! The program `jinnychair`, an example host of the proved tilt search: what the library leaves to the host, in plain Rust.
//!
//! | module | does |
//! |---|---|
//! | [`commands`] | the sub-commands, their words and what they end with |
//! | [`choices`] | what a lab chooses: tilts, bound, step, rounds, seeds, limits |
//! | [`case`] | a search with all that it starts from; it runs it, goes on with it, and gives its verdict |
//! | [`plan`] | what will be tried and what can be missed, shown before the search |
//! | [`views`] | reads the views of a plate from a text file |
//! | [`synthetic`] | makes views of a plate seen by a known camera |
//! | [`linear`] | eigenvectors and least squares, as far as needed here |
//! | [`homography`] | the map from plate to pixels, view by view |
//! | [`zhang`] | focal lengths and centre from these maps |
//! | [`pose`] | where the plate was |
//! | [`elementary`] | sine, cosine, arctangent and logarithm with the same bits on every machine |
//! | [`camera`], [`least_squares`] | the camera and poses with the smallest squared errors |
//! | [`solve`] | base camera, decomposition seed, and the solved camera of each tilt |
//! | [`drive`] | runs the search and keeps every tried tilt |
//! | [`progress`] | how far the search has come, and the time left |
//! | [`stop`], [`system`] | stops it after some minutes, by Enter or Ctrl-C; what the system says |
//! | [`journal`] | reads a journal, and what stands beside it |
//! | [`stretches`] | winners of a journal's stretches and rounds |
//! | [`compare`], [`drift`] | where two journals part, and whether the sensor has moved between them |
//! | [`again`] | finds the views of a search that began earlier |
//! | [`residuals`] | the errors, dot by dot and view by view |
//! | [`lean`], [`open`] | the least-squares optimum beside the winner, and how far both are left open |
//! | [`distribution`], [`influence`] | what chance does, and what a fit makes of errors |
//! | [`outliers`], [`view_test`] | dots and views that disagree with the others |
//! | [`fit_test`], [`neighbour_test`] | whether one camera explains the views, and whether the errors are noise |
//! | [`rivals`] | tried tilts elsewhere that fit as well |
//! | [`next_view`] | which turn of the plate would help most |
//! | [`verdict`] | what speaks against the winner, and what to do |
//! | [`report`] | the winner in words |
//! | [`table`], [`chart`] | the search as text, and as a picture drawn from that |
//! | [`page`] | a journal as one page of HTML |
//! | [`summary`], [`json`] | a result for programs |
//! | [`fleet`] | many journals |
//! | [`manual`] | the manual page and completions, from the words of the helps |
//! | [`bad_view`] | the views at fault where no camera fits |
//! | [`walk`] | runs a journal again before it is believed |
//! | [`files`], [`output`], [`screen`] | what is read, what is written, what is shown |
//! | [`typed`], [`angle`], [`date`] | what people type, angles with their unit, the date |

pub mod again;
pub mod angle;
pub mod bad_view;
pub mod camera;
pub mod case;
pub mod chart;
pub mod choices;
pub mod commands;
pub mod compare;
pub mod date;
pub mod distribution;
pub mod drift;
pub mod drive;
pub mod elementary;
pub mod files;
pub mod fit_test;
pub mod fleet;
pub mod homography;
pub mod influence;
pub mod journal;
pub mod json;
pub mod lean;
pub mod least_squares;
pub mod linear;
pub mod manual;
pub mod neighbour_test;
pub mod next_view;
pub mod open;
pub mod outliers;
pub mod output;
pub mod page;
pub mod plan;
pub mod pose;
pub mod progress;
pub mod report;
pub mod residuals;
pub mod rivals;
pub mod screen;
pub mod solve;
pub mod stop;
pub mod stretches;
pub mod summary;
pub mod synthetic;
pub mod system;
pub mod table;
pub mod typed;
pub mod verdict;
pub mod view_test;
pub mod views;
pub mod walk;
pub mod zhang;
