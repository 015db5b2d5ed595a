//! Where no camera fits: the views that are at fault.

use crate::homography::homography;
use crate::solve::Host;
use crate::views::{Plate, View};
use jinnychair::geometry::apply_homography;
use jinnychair::{ScheimpflugParams, Seed};

/// An error of more than this many times the usual one of the views' own maps, and of more than this many pixels, isn't noise.
const FAR: f64 = 20.0;
const LEAST: f64 = 1.0;

/// The views that are at fault, in words; nothing where none can be named.
#[must_use]
pub fn text(plate: &Plate) -> Option<String> {
    let stray = stray(plate);
    if !stray.is_empty() {
        let error = |rms: f64| if rms < 1e4 { format!("{rms:.1} px") } else { "far off".into() };
        let name = |&(view, rms): &(usize, f64)| format!("view {} ({})", view + 1, error(rms));
        let views: Vec<_> = stray.iter().map(name).collect();
        return Some(format!(
            "The dots of {} don't lie as any picture of a plate has them, by their own map's error. Look whether each \
             place stands beside its own pixel, or leave the view out",
            views.join(", ")
        ));
    }
    let numbers =
        |views: &[usize]| views.iter().map(|view| (view + 1).to_string()).collect::<Vec<_>>();
    match &without(plate)[..] {
        [] => None,
        [view] => Some(format!(
            "Without view {} a camera fits: look at its dots, or leave it out",
            view + 1
        )),
        views => Some(format!(
            "Without one of the views {} a camera fits: look at their dots, or leave one out",
            numbers(views).join(", ")
        )),
    }
}

/// The views whose dots no map from plate to pixels explains, with the error that is left, in pixels.
fn stray(plate: &Plate) -> Vec<(usize, f64)> {
    let errors: Vec<f64> =
        plate.views.iter().map(|view| map_error(view).unwrap_or(f64::INFINITY)).collect();
    let mut sorted = errors.clone();
    sorted.sort_by(f64::total_cmp);
    // The lower of the two in the middle: of few views half may be stray.
    let usual = sorted.get(sorted.len().saturating_sub(1) / 2).copied().unwrap_or_default();
    let is_far = |error: &f64| *error > (FAR * usual).max(LEAST);
    errors.into_iter().enumerate().filter(|(_, error)| is_far(error)).collect()
}

/// The root of the mean square by which a view's dots lie beside its own map.
fn map_error(view: &View) -> Option<f64> {
    let map = homography(&view.board, &view.pixels)?;
    let square = |(place, pixel): (_, &jinnychair::Pt2)| {
        let seen = apply_homography(map, place);
        (seen.x - pixel.x).powi(2) + (seen.y - pixel.y).powi(2)
    };
    let squares: f64 = view.board.iter().copied().zip(&view.pixels).map(square).sum();
    Some((squares / view.dots() as f64).sqrt())
}

/// The views without which a camera fits the others, the sensor untilted.
fn without(plate: &Plate) -> Vec<usize> {
    let fits = |view: &usize| {
        let mut rest = plate.clone();
        rest.views.remove(*view);
        let host = Host::new(rest).ok()?;
        let sensor = ScheimpflugParams { tilt_x: 0.0, tilt_y: 0.0 };
        host.solve(&Seed { reference_k: host.base(), sensor })
    };
    let views = 0..plate.views.len();
    if views.len() < 4 { vec![] } else { views.filter(|view| fits(view).is_some()).collect() }
}

#[cfg(test)]
mod tests {
    use super::*;
    use crate::synthetic::BUILT_IN;

    #[test]
    fn the_view_whose_dots_are_exchanged_is_named() {
        let mut plate = BUILT_IN.plate();
        assert_eq!(stray(&plate), vec![]);
        plate.views[4].pixels.reverse();
        plate.views[4].pixels.swap(0, 35);
        plate.views[9].pixels.rotate_left(17);
        let told = text(&plate).unwrap();
        assert!(told.starts_with("The dots of view 5 (") && told.contains(", view 10 ("), "{told}");
    }
}
