//! What the program's `search` answers to views: the same calls, without its screen and files.

use jinnychair::journal::Views;
use tool::case::Case;
use tool::choices::Choices;
use tool::drive::Source;
use tool::screen::Screen;
use tool::views::Plate;

/// How a search ended.
#[derive(Clone, Debug, PartialEq)]
pub struct Answer {
    /// What speaks against the winner; nothing where the program ends with 0.
    pub reasons: Vec<String>,
    /// The winner's tilts, in radians.
    pub winner: [f64; 2],
    /// Its whole bounds.
    pub winner_bounds: [f64; 2],
    /// The headline's tilts: the lean's.
    pub lean: [f64; 2],
    /// Its whole bounds; infinite where the views don't determine it.
    pub lean_bounds: [f64; 2],
    /// The lean's sum of squares, in pixels²; infinite where there is none.
    pub squares: f64,
    /// How many typed tilts were handed out, and how many of them were skipped.
    pub typed: [usize; 2],
}

impl Answer {
    /// Whether the program ends with 0.
    #[must_use]
    pub fn is_good(&self) -> bool {
        self.reasons.is_empty()
    }

    /// Whether a distortion is among the reasons.
    #[must_use]
    pub fn blames_the_lens(&self) -> bool {
        self.reasons.iter().any(|reason| reason.contains("lens") || reason.contains("distort"))
    }
}

/// Searches with the words of a file of options.
///
/// # Errors
///
/// Says why the program ends with 1.
pub fn answer(plate: Plate, options: &str) -> Result<Answer, String> {
    let choices = Choices::parse(options)?;
    let from = (Views::BuiltIn, "drawn views".to_owned());
    let case = Case::new(plate, from, &choices, &mut Screen::silent())?;
    let (finished, winner, judged) = case.answer()?;
    let typed: Vec<_> = finished.tried.iter().filter(|one| one.source == Source::Grid).collect();
    let skipped = typed.iter().filter(|one| one.outcome.score().is_none()).count();
    let (lean, lean_bounds) = judged.open.headline();
    let squares = judged.lean.as_ref().map(|lean| lean.plain.fitted.squares);
    Ok(Answer {
        reasons: judged.against.into_iter().map(|point| point.what).collect(),
        winner: [winner.sensor.tilt_x, winner.sensor.tilt_y],
        winner_bounds: judged.open.winner_total(),
        lean,
        lean_bounds: lean_bounds.unwrap_or([f64::INFINITY; 2]),
        squares: squares.unwrap_or(f64::INFINITY),
        typed: [typed.len(), skipped],
    })
}
