//! How far each dot is seen from where a camera puts it, dot by dot and view by view.

use crate::linear::dot;
use crate::pose::Pose;
use crate::views::{Plate, called};
use jinnychair::{PinholeCamera, Pt2, Rows, ScheimpflugParams, TiltTrig, geometry};

/// Sine and cosine of both tilts, by the library's own series, so that they are those that a score is made with.
///
/// # Panics
///
/// A tilt is beyond 0.5 radians: no search has one, since its bound is refused above that.
#[must_use]
pub fn trig(sensor: ScheimpflugParams) -> TiltTrig {
    TiltTrig::try_from(sensor).expect("a bound of at most 0.5")
}

/// For each row how far its pixel is seen from where the camera puts it, right and down, in pixels; nothing where the
/// row isn't counted. The camera's distortion is taken as given.
#[must_use]
pub fn row_errors(
    camera: PinholeCamera,
    sensor: ScheimpflugParams,
    rows: Rows,
) -> Vec<Option<[f64; 2]>> {
    let tilt = geometry::tilt_projection_matrix(trig(sensor));
    let (numbers, _) = rows.numbers.as_chunks::<4>();
    let errors = numbers.iter().zip(rows.flags).map(|(&[x, y, u, v], flag)| {
        let bent = camera.dist.distort(Pt2 { x, y });
        let put = camera.k.sensor_to_pixel(geometry::apply_homography(tilt, bent));
        let error = [u - put.x, v - put.y];
        (*flag == 1 && size(error).is_finite()).then_some(error)
    });
    errors.collect()
}

/// The length of an error.
#[must_use]
pub fn size([dx, dy]: [f64; 2]) -> f64 {
    geometry::sqrt(dx * dx + dy * dy)
}

/// The root of the mean square of the counted errors; 0 where there are none.
#[must_use]
pub fn rms<'a>(errors: impl Iterator<Item = &'a [f64; 2]>) -> f64 {
    let (sum, count) =
        errors.fold((0.0, 0.0), |(sum, count), &[dx, dy]| (sum + dx * dx + dy * dy, count + 1.0));
    if count > 0.0 { geometry::sqrt(sum / count) } else { 0.0 }
}

/// A dot, and how far from its place it is seen.
#[derive(Clone, Copy, Debug, PartialEq)]
pub struct Dot {
    /// The view, counted from 0.
    pub view: usize,
    /// Its place on the plate.
    pub place: Pt2,
    /// Right and down, in pixels; nothing where it isn't counted.
    pub error: Option<[f64; 2]>,
}

impl Dot {
    /// The error's length, 0 where it isn't counted.
    #[must_use]
    pub fn size(&self) -> f64 {
        self.error.map_or(0.0, size)
    }
}

/// How a camera fits the views.
#[derive(Clone, Debug, PartialEq)]
pub struct Fit {
    /// Every dot, view after view.
    pub dots: Vec<Dot>,
    /// Whether the plate's x and y turn the same way as those of the picture, view by view.
    pub is_right_handed: Vec<bool>,
    /// The views' names, empty where they have none.
    pub names: Vec<String>,
}

impl Fit {
    /// The fit of a solution with its poses.
    #[must_use]
    pub fn new(plate: &Plate, errors: &[Option<[f64; 2]>], poses: &[Pose]) -> Self {
        let views = plate.views.iter().enumerate();
        let places = views.flat_map(|(i, view)| view.board.iter().map(move |place| (i, *place)));
        let dots =
            places.zip(errors).map(|((view, place), error)| Dot { view, place, error: *error });
        let is_right_handed = poses.iter().map(|pose| dot(&pose.normal(), &pose.origin) > 0.0);
        let names = plate.views.iter().map(|view| view.name.clone()).collect();
        Self { dots: dots.collect(), is_right_handed: is_right_handed.collect(), names }
    }

    /// A view, counted from 0, as it is called in a sentence.
    #[must_use]
    pub fn called(&self, view: usize) -> String {
        called(view, self.names.get(view).map_or("", String::as_str))
    }

    /// The dots of a view, counted from 0.
    pub fn view(&self, view: usize) -> impl Iterator<Item = &Dot> + Clone {
        self.dots.iter().filter(move |dot| dot.view == view)
    }

    /// How many dots are counted.
    #[must_use]
    pub fn counted(&self) -> usize {
        self.dots.iter().filter(|dot| dot.error.is_some()).count()
    }

    /// The root of the mean square of all counted errors.
    #[must_use]
    pub fn rms(&self) -> f64 {
        rms(self.dots.iter().filter_map(|dot| dot.error.as_ref()))
    }

    /// The root of the mean square of a view's counted errors.
    #[must_use]
    pub fn view_rms(&self, view: usize) -> f64 {
        rms(self.view(view).filter_map(|dot| dot.error.as_ref()))
    }

    /// The dots with the largest errors first.
    #[must_use]
    pub fn worst(&self) -> Vec<&Dot> {
        let mut dots: Vec<_> = self.dots.iter().filter(|dot| dot.error.is_some()).collect();
        dots.sort_by(|a, b| b.size().total_cmp(&a.size()));
        dots
    }

    /// The sum of the squares of some views' counted errors.
    #[must_use]
    pub fn squares_of(&self, views: &[usize]) -> f64 {
        let dots = self.dots.iter().filter(|dot| views.contains(&dot.view));
        dots.filter_map(|dot| dot.error).map(|[dx, dy]| dx * dx + dy * dy).sum()
    }

    /// The mean length of all counted errors, in pixels.
    #[must_use]
    pub fn mean(&self) -> f64 {
        self.dots.iter().map(Dot::size).sum::<f64>() / self.counted() as f64
    }
}
