//! Dots and views that disagree with all others: single wrong dots by an F test of what each adds to the squares, and a view
//! that alone disagrees. What is left without them is judged further.

use crate::camera::Camera;
use crate::distribution::f_above;
use crate::influence;
use crate::lean::{ByModel, Lean, Optimum, by_model};
use crate::least_squares::Problem;
use crate::solve::Host;
use crate::view_test::{Without, disagrees, without_each};
use crate::views::{LEAST_DOTS, Plate, View};
use jinnychair::{Pt2, ScheimpflugParams, Seed};

/// The level of the test, of all dots together: chance alone names one once in a thousand sets of views.
pub const LEVEL: f64 = 0.001;
/// More than so many aren't single dots: then something else is wrong.
const MOST_SINGLE: usize = 5;

/// A dot that disagrees with all others.
#[derive(Clone, Copy, Debug, PartialEq)]
pub struct Stray {
    /// The view, counted from 0.
    pub view: usize,
    /// Its place on the plate.
    pub place: Pt2,
    /// How far it is seen from where the others put it, in pixels.
    pub off: f64,
}

/// What disagrees, and what is left without it.
#[derive(Clone, Debug)]
pub struct Outliers {
    /// Single dots.
    pub dots: Vec<Stray>,
    /// A view, with the lean without it.
    pub view: Option<Without>,
    /// The leans without each view in turn.
    pub without: Vec<Without>,
    /// The views that are left, and their lean; nothing where nothing disagrees.
    pub rest: Option<Box<(Host, Lean)>>,
}

impl Outliers {
    /// Looks for them around a lean.
    #[must_use]
    pub fn new(host: &Host, lean: &Lean) -> Self {
        let without = without_each(host, lean);
        if let Some((dots, rest)) = single_dots(host, lean) {
            let is_clean = disagrees(&without_each(&rest.0, &rest.1)).is_none();
            if is_clean {
                return Self { dots, view: None, without, rest: Some(Box::new(rest)) };
            }
        }
        let mut view = disagrees(&without).copied();
        let rest = view.and_then(|one| without_view(host, lean, one.view));
        let Some((host, lean)) = rest else {
            return Self { dots: vec![], view, without, rest: None };
        };
        view.iter_mut().for_each(|one| one.tilts = lean.tilts());
        let (dots, rest) = single_dots(&host, &lean).unwrap_or((vec![], (host, lean)));
        // The views behind the one that was left out have moved up.
        let place = |dot: Stray| Stray {
            view: dot.view + usize::from(view.is_some_and(|one| dot.view >= one.view)),
            ..dot
        };
        let dots = dots.into_iter().map(place).collect();
        Self { dots, view, without, rest: Some(Box::new(rest)) }
    }
}

impl Outliers {
    /// The host and the lean without what disagrees; these where nothing does.
    #[must_use]
    pub fn rest<'a>(&'a self, host: &'a Host, lean: &'a Lean) -> (&'a Host, &'a Lean) {
        self.rest.as_ref().map_or((host, lean), |rest| (&rest.0, &rest.1))
    }
}

/// The dots that disagree, the worst first, and what is left without them; nothing where there are none, or too many to be
/// single ones.
fn single_dots(host: &Host, lean: &Lean) -> Option<(Vec<Stray>, (Host, Lean))> {
    let (mut dots, mut rest) = (vec![], (host.clone(), lean.clone()));
    while let Some((view, dot)) = worst(&rest.0, &rest.1) {
        if dots.len() == MOST_SINGLE {
            return None;
        }
        let place = rest.0.plate().views[view].board[dot];
        let pixel = rest.0.plate().views[view].pixels[dot];
        let mut plate = rest.0.plate().clone();
        plate.views[view].board.remove(dot);
        plate.views[view].pixels.remove(dot);
        rest = again(host, plate, &rest.1)?;
        dots.push((view, place, pixel));
    }
    let stray = |&(view, place, pixel): &(usize, Pt2, Pt2)| {
        Some(Stray { view, place, off: off(&rest, view, place, pixel)? })
    };
    let dots: Vec<_> = dots.iter().filter_map(stray).collect();
    (!dots.is_empty()).then_some((dots, rest))
}

/// How far a pixel is from where a lean puts a place of a view.
fn off((host, lean): &(Host, Lean), view: usize, place: Pt2, pixel: Pt2) -> Option<f64> {
    let at = &lean.plain.fitted;
    let pose = host.distinct_numbers().iter().position(|number| *number == view)?;
    let camera = Camera::new(&at.shared, host.held_centre(), host.model().lens.k3)?;
    let sight = camera.see(&at.poses[pose], host.centred(view).enter(&place))?;
    Some((camera.pixel(&sight, 0) - pixel.x).hypot(camera.pixel(&sight, 1) - pixel.y))
}

/// The view and the number in it of the dot that adds most to the squares, if that is more than chance; by the model that
/// explains the views.
fn worst(host: &Host, lean: &Lean) -> Option<(usize, usize)> {
    let (view, dot, chance) = by_model(host, lean, &MostGain)?;
    let view = host.distinct_numbers()[view];
    let can_go = host.plate().views[view].dots() > LEAST_DOTS;
    (chance * (host.plate().dots() as f64) < LEVEL && can_go).then_some((view, dot))
}

/// The dot without which the squares would be smallest, and the chance of that for one dot.
struct MostGain;

impl ByModel for MostGain {
    type Out = Option<(usize, usize, f64)>;

    fn run<const N: usize>(&self, problem: &Problem, free: [usize; N], at: &Optimum) -> Self::Out {
        let influences = influence::of_views(problem, free, &at.fitted)?;
        let gains = influences.iter().enumerate().flat_map(|(view, influence)| {
            let dots = 0..influence.errors.len() / 2;
            dots.map(move |dot| (view, dot, influence.gain_without(dot)))
        });
        let (view, dot, gain) = gains.max_by(|a, b| a.2.total_cmp(&b.2))?;
        let left = at.freedom.checked_sub(2).filter(|left| *left > 0 && at.has_noise())? as f64;
        let f = gain / 2.0 / ((at.fitted.squares - gain) / left);
        Some((view, dot, f_above(f, 2.0, left)))
    }
}

/// The host without a view, and its lean.
fn without_view(host: &Host, lean: &Lean, number: usize) -> Option<(Host, Lean)> {
    let views = host.plate().views.iter().enumerate();
    let views: Vec<View> =
        views.filter(|(i, _)| *i != number).map(|(_, view)| view.clone()).collect();
    again(host, Plate { views, ..host.plate().clone() }, lean)
}

fn again(host: &Host, plate: Plate, lean: &Lean) -> Option<(Host, Lean)> {
    let plate = Plate { centre: Some(host.held_centre()), ..plate };
    let rest = Host::with_model(plate, host.model()).ok()?;
    let [tilt_x, tilt_y] = lean.tilts();
    let sensor = ScheimpflugParams { tilt_x, tilt_y };
    let found = Lean::new(&rest, &Seed { reference_k: rest.base(), sensor }, lean.lens)?;
    Some((rest, found))
}
