//! What the search asks of its host: a base camera, decomposition seeds, and for each seed a solved
//! camera with its rows.
//!
//! The optical centre is held. Without distortion a tilted sensor is exactly an untilted one with
//! another centre and other poses: with R the tilt's rotation, the tilt matrix is P × R, and
//! K × P is the upper triangular matrix of a camera without tilt,
//!
//! ```text
//! fx' = fx·r22    cx' = cx − fx·r02 = cx + fx·sin(tilt_y)·cos(tilt_x)
//! fy' = fy·r22    cy' = cy − fy·r12 = cy − fy·sin(tilt_x)
//! ```
//!
//! while R turns the poses. A free centre would take up every tilt, and all tilts would score alike.
//!
//! All that enters a run is worked out by + − × ÷ √ and [`crate::elementary`] alone, so that a journal has the same bits on
//! every machine.

use crate::camera::{Shared, TiltMatrices};
use crate::elementary::{arctangent, sine_cosine};
use crate::homography::homography;
use crate::least_squares::{Centred, FOCAL, FOCAL_TANGENTIAL, FOR_A_SEED, Fitted, Prior, Problem};
use crate::linear::{Matrix3, product};
use crate::pose::Pose;
use crate::residuals::{Fit, row_errors};
use crate::views::{MOST_SCORED, Plate, View, called};
use crate::zhang::{Frame, camera, camera_with_held_centre};
use jinnychair::{
    BrownConrady5, FxFyCxCy, PinholeCamera, Pt2, ScheimpflugParams, Seed, Solution, geometry,
};
use std::collections::HashSet;

/// This host's name and version, as inputs have them. The version is raised with each change that changes the bits of a
/// seed, a camera or a row.
pub const NAME: &str = "example-host";
/// The version.
pub const VERSION: &str = "2";

/// The most that the search takes of tangential distortion.
pub const MOST_TANGENTIAL: f64 = 0.05;
/// How often the focal lengths are solved again with the tilt taken off by the last ones.
const UNTILT_ITERATIONS: usize = 4;
/// How often a stated lens is taken off the pixels, with the focal length that this gives, before the maps are worked out.
const STRAIGHTEN_ITERATIONS: usize = 2;
/// Focal lengths to start from where nothing else leads to a camera: so many times the picture's size.
const SIZES: [f64; 4] = [1.0, 3.0, 10.0, 30.0];

/// What is said of the lens for the solution.
#[derive(Clone, Copy, Debug, Default, PartialEq)]
pub struct Model {
    /// The stated lens; without distortion where none is stated.
    pub lens: BrownConrady5,
    /// Whether p1 and p2 are solved for, with the lens otherwise straight.
    pub tangential: bool,
}

impl Model {
    fn shared(&self, focal: [f64; 2], tilts: [f64; 2]) -> Shared {
        let BrownConrady5 { k1, k2, p1, p2, .. } = self.lens;
        [focal[0], focal[1], tilts[0], tilts[1], k1, k2, p1, p2]
    }
}

/// A plate, and where its host takes the optical centre to be.
#[derive(Clone, Debug)]
pub struct Host {
    plate: Plate,
    model: Model,
    held: [f64; 2],
    observed: Pt2,
    /// The views about their plates' middles, and the maps from there to the pixels, a stated lens taken off.
    centred: Vec<Centred>,
    maps: Vec<Matrix3>,
    /// For each view the earlier one that it repeats, if it does.
    repeats: Vec<Option<usize>>,
}

impl Host {
    /// Prepares the views, for a lens without distortion. The plate's centre is held where it states one, else the observed
    /// one.
    ///
    /// # Errors
    ///
    /// Names the view whose dots determine no homography.
    pub fn new(plate: Plate) -> Result<Self, String> {
        Self::with_model(plate, Model::default())
    }

    /// The same for what is said of the lens.
    ///
    /// # Errors
    ///
    /// As [`Host::new`].
    pub fn with_model(plate: Plate, model: Model) -> Result<Self, String> {
        let observed = geometry::observed_pixel_center(&plate.pixels());
        let held = plate.centre.unwrap_or([observed.x, observed.y]);
        let centred: Vec<_> = plate.views.iter().map(Centred::new).collect();
        let maps = maps_of(&centred, &plate.views)?;
        let repeats = repeats(&plate.views);
        let mut host = Self { held, observed, model, centred, maps, repeats, plate };
        if model.lens != BrownConrady5::default() {
            for _ in 0..STRAIGHTEN_ITERATIONS {
                host.maps = maps_of(&host.centred, &host.straightened())?;
            }
        }
        Ok(host)
    }

    /// The views as a straight lens would show them, by the base camera and without regard to the tilt: good enough to start
    /// from.
    fn straightened(&self) -> Vec<View> {
        let k = self.base();
        let straight = |pixel: &Pt2| {
            let bent = k.pixel_to_sensor(*pixel);
            let found = k.sensor_to_pixel(self.model.lens.undistorted(bent));
            if found.x.is_finite() && found.y.is_finite() { found } else { *pixel }
        };
        let views = self.plate.views.iter();
        views
            .map(|view| View {
                board: view.board.clone(),
                pixels: view.pixels.iter().map(straight).collect(),
                name: view.name.clone(),
            })
            .collect()
    }

    /// The plate.
    pub fn plate(&self) -> &Plate {
        &self.plate
    }

    /// What is said of the lens.
    pub fn model(&self) -> Model {
        self.model
    }

    /// The held optical centre, in pixels.
    pub fn held_centre(&self) -> [f64; 2] {
        self.held
    }

    /// The centre of what is seen, which the search is given.
    pub fn observed_centre(&self) -> Pt2 {
        self.observed
    }

    /// For each view that shows what an earlier one does, its number from 0 and the earlier one's.
    pub fn repeats(&self) -> Vec<[usize; 2]> {
        let repeats = self.repeats.iter().enumerate();
        repeats.filter_map(|(i, earlier)| earlier.map(|earlier| [i, earlier])).collect()
    }

    /// The views that show what no earlier one does.
    pub fn distinct(&self) -> Vec<Centred> {
        self.only_distinct(&self.centred)
    }

    /// Their numbers, from 0.
    pub fn distinct_numbers(&self) -> Vec<usize> {
        (0..self.repeats.len()).filter(|view| self.repeats[*view].is_none()).collect()
    }

    /// A fit to these views alone.
    pub fn distinct_of(&self, fitted: Fitted) -> Fitted {
        Fitted { poses: self.only_distinct(&fitted.poses), ..fitted }
    }

    fn only_distinct<T: Clone>(&self, of_views: &[T]) -> Vec<T> {
        let views = of_views.iter().zip(&self.repeats);
        views.filter(|(_, earlier)| earlier.is_none()).map(|(one, _)| one.clone()).collect()
    }

    /// The least-squares problem of some of the views.
    pub fn problem<'a>(&self, views: &'a [Centred], prior: Prior) -> Problem<'a> {
        Problem { views, centre: self.held, k3: self.model.lens.k3, prior }
    }

    /// The middle of what is seen, and half its size, in pixels.
    pub fn seen(&self) -> [[f64; 2]; 2] {
        let pixels = self.plate.pixels();
        let range = |of: fn(&Pt2) -> f64| {
            let least = pixels.iter().map(of).fold(f64::INFINITY, f64::min);
            let most = pixels.iter().map(of).fold(f64::NEG_INFINITY, f64::max);
            [0.5 * (least + most), 0.5 * (most - least)]
        };
        let [x, y] = [range(|pixel| pixel.x), range(|pixel| pixel.y)];
        [[x[0], y[0]], [x[1], y[1]]]
    }

    fn unit(&self) -> f64 {
        self.observed.x.abs().max(self.observed.y.abs()).max(1.0)
    }

    fn frame(&self) -> Frame {
        Frame::new(self.held, self.unit())
    }

    /// The camera of an untilted sensor; where the views give none, one that their decomposition gives, or else a guess from
    /// the picture's size. It is where the search starts from, and no seed depends on it alone.
    pub fn base(&self) -> FxFyCxCy {
        let untilted = camera_with_held_centre(&self.maps, self.frame());
        let decomposed = || self.decomposition().map(|seed| seed.reference_k);
        untilted.or_else(decomposed).unwrap_or_else(|| {
            let ([cx, cy], size) = (self.held, 2.0 * self.unit());
            FxFyCxCy { fx: size, fy: size, cx, cy }
        })
    }

    /// The tilts that explain why a camera with a free centre isn't centred where it should be; nothing where no
    /// camera is found. They may lie beyond any bound.
    pub fn decomposition(&self) -> Option<Seed> {
        self.explained(|seen| arctangent((seen.cx - self.held[0]) / seen.fx))
    }

    /// The same with tilt y held at 0: the tilt about x explains the centre's y alone.
    pub fn decomposition_on_one_axis(&self) -> Option<Seed> {
        self.explained(|_| 0.0)
    }

    /// A tilt y of a camera with a free centre, and the tilt x that goes with it.
    fn explained(&self, tilt_y: impl Fn(&FxFyCxCy) -> f64) -> Option<Seed> {
        let seen = camera(&self.maps, self.frame())?;
        let [cx, cy] = self.held;
        let tilt_y = tilt_y(&seen);
        let (_, cos_y) = sine_cosine(tilt_y);
        let tilt_x = arctangent((cy - seen.cy) / seen.fy * cos_y);
        let shortening = sine_cosine(tilt_x).1 * cos_y;
        let seed = Seed {
            reference_k: FxFyCxCy { fx: seen.fx / shortening, fy: seen.fy / shortening, cx, cy },
            sensor: ScheimpflugParams { tilt_x, tilt_y },
        };
        let is_seed = seed.numbers().iter().all(|number| number.is_finite());
        (is_seed && seed.reference_k.fx > 0.0 && seed.reference_k.fy > 0.0).then_some(seed)
    }

    /// The best camera with a seed's tilts, or nothing where no start leads to one.
    pub fn solve(&self, seed: &Seed) -> Option<Solution> {
        Some(self.solution(&self.fitted(seed)?, MOST_SCORED))
    }

    /// How the camera of a seed fits the views.
    pub fn fit(&self, seed: &Seed) -> Option<Fit> {
        let fitted = self.fitted(seed)?;
        let solution = self.solution(&fitted, usize::MAX);
        let errors = row_errors(solution.camera, seed.sensor, solution.rows());
        Some(Fit::new(&self.plate, &errors, &fitted.poses))
    }

    /// A view about its plate's middle.
    pub fn centred(&self, view: usize) -> &Centred {
        &self.centred[view]
    }

    /// 1 where the first view shows the plate's axes turned as the picture's, −1 where it shows them mirrored.
    pub fn hand(&self) -> f64 {
        let [[a, b, u], [c, d, v], [p, q, one]] = self.maps[0];
        let (u, v) = (u / one, v / one);
        ((a - u * p) * (d - v * q) - (b - u * q) * (c - v * p)).signum()
    }

    /// The maps from each view's centred places to its pixels.
    pub fn maps(&self) -> &[Matrix3] {
        &self.maps
    }

    /// The camera and poses with the smallest squares, with a seed's tilts held: from the first start that leads there.
    pub fn fitted(&self, seed: &Seed) -> Option<Fitted> {
        let ScheimpflugParams { tilt_x, tilt_y } = seed.sensor;
        let tilts = [tilt_x, tilt_y];
        let given = [seed.reference_k.fx, seed.reference_k.fy];
        let by_maps = || self.focal_lengths(given, tilts);
        let by_decomposition =
            || self.decomposition().map(|seed| [seed.reference_k.fx, seed.reference_k.fy]);
        let first: [&dyn Fn() -> Option<[f64; 2]>; 3] =
            [&by_maps, &|| Some(given), &by_decomposition];
        let by_size = SIZES.iter().map(|times| Some([times * self.unit(); 2]));
        let starts = first.iter().map(|start| start()).chain(by_size).flatten();
        starts.filter_map(|focal| self.start(focal, tilts)).find_map(|start| self.led_from(start))
    }

    fn led_from(&self, start: Fitted) -> Option<Fitted> {
        let problem = self.problem(&self.centred, Prior::default());
        if !self.model.tangential {
            return problem.optimum(FOCAL, start, FOR_A_SEED);
        }
        let found = problem.optimum(FOCAL_TANGENTIAL, start, FOR_A_SEED)?;
        let [.., p1, p2] = found.shared;
        if p1.abs() <= MOST_TANGENTIAL && p2.abs() <= MOST_TANGENTIAL {
            return Some(found);
        }
        // The search takes no more of it, so the rest is solved for with that.
        let mut held = found;
        for p in &mut held.shared[6..] {
            *p = p.clamp(-MOST_TANGENTIAL, MOST_TANGENTIAL);
        }
        problem.optimum(FOCAL, held, FOR_A_SEED)
    }

    /// Focal lengths from the maps, with these tilts: those of the untilted camera that sees the same.
    fn focal_lengths(&self, mut focal: [f64; 2], [x, y]: [f64; 2]) -> Option<[f64; 2]> {
        let ((sx, cx), (sy, cy)) = (sine_cosine(x), sine_cosine(y));
        for _ in 0..UNTILT_ITERATIONS {
            let centre = [self.held[0] + focal[0] * sy * cx, self.held[1] - focal[1] * sx];
            let seen = camera_with_held_centre(&self.maps, Frame::new(centre, self.unit()))?;
            focal = [seen.fx, seen.fy].map(|seen| seen / (cx * cy));
        }
        Some(focal)
    }

    /// A start with these focal lengths and tilts: the poses from the maps. Nothing where a view gives none.
    pub fn start(&self, focal: [f64; 2], tilts: [f64; 2]) -> Option<Fitted> {
        let [cx, cy] = self.held;
        let camera = [[focal[0], 0.0, cx], [0.0, focal[1], cy], [0.0, 0.0, 1.0]];
        let back = geometry::inverse(product(&camera, &TiltMatrices::new(tilts).matrix)).ok()?;
        let straight = FxFyCxCy { fx: 1.0, fy: 1.0, cx: 0.0, cy: 0.0 };
        let poses =
            self.maps.iter().map(|map| Pose::from_homography(&straight, &product(&back, map)));
        let shared = self.model.shared(focal, tilts);
        Some(Fitted { shared, poses: poses.collect::<Option<_>>()?, squares: f64::NAN })
    }

    /// A camera and its rows: of all dots, or of so many that are chosen evenly, view after view and along each plate. A
    /// stated lens bends the ideal points of the rows; one that is solved for stands in the camera.
    fn solution(&self, fitted: &Fitted, most: usize) -> Solution {
        let ([fx, fy, ..], [cx, cy]) = (fitted.shared, self.held);
        let [p1, p2] =
            if self.model.tangential { [fitted.shared[6], fitted.shared[7]] } else { [0.0; 2] };
        let dist = BrownConrady5 { p1, p2, ..BrownConrady5::default() };
        let camera = PinholeCamera { k: FxFyCxCy { fx, fy, cx, cy }, dist };
        let chosen = Chosen { all: self.plate.dots(), most };
        let (mut rows, mut flags, mut number) = (Vec::new(), Vec::new(), 0);
        let views = self.plate.views.iter().zip(&self.centred).zip(&fitted.poses);
        for ((view, centred), pose) in views {
            for (place, pixel) in view.board.iter().zip(&view.pixels) {
                if chosen.has(number) {
                    let [a, b] = centred.enter(place);
                    let [x, y, z] = pose.place(a, b);
                    let ideal = self.model.lens.distort(Pt2 { x: x / z, y: y / z });
                    rows.extend([ideal.x, ideal.y, pixel.x, pixel.y]);
                    flags.push(u8::from(z > 0.0));
                }
                number += 1;
            }
        }
        Solution { camera, rows, flags }
    }
}

/// Which of all dots a tilt is scored by: number i, counted from 0 over all views in their order, where i·most/all and
/// (i + 1)·most/all, both rounded down, differ. All of them where there are no more than the most.
struct Chosen {
    all: usize,
    most: usize,
}

impl Chosen {
    fn has(&self, i: usize) -> bool {
        self.all <= self.most || i * self.most / self.all != (i + 1) * self.most / self.all
    }
}

/// For each view its map from centred places to pixels.
fn maps_of(centred: &[Centred], views: &[View]) -> Result<Vec<Matrix3>, String> {
    let maps = centred.iter().zip(views).enumerate().map(|(i, (centred, view))| {
        homography(&centred.board(), &view.pixels).ok_or_else(|| {
            format!(
                "the dots of view {} determine no map from plate to pixels: they lie on a line, or in \
                 one place. Leave the view out",
                called(i, &views[i].name)
            )
        })
    });
    maps.collect()
}

/// For each view the first earlier one that shows most of the same dots at the same pixels, if there is one.
fn repeats(views: &[View]) -> Vec<Option<usize>> {
    let bits = |x: f64| (x + 0.0).to_bits();
    let dots = |view: &View| -> HashSet<[u64; 4]> {
        let dots = view.board.iter().zip(&view.pixels);
        dots.map(|(place, pixel)| [place.x, place.y, pixel.x, pixel.y].map(bits)).collect()
    };
    let dots: Vec<_> = views.iter().map(dots).collect();
    let is_same = |i: usize, j: usize| {
        2 * dots[i].intersection(&dots[j]).count() > dots[i].len().min(dots[j].len())
    };
    (0..views.len()).map(|i| (0..i).find(|&earlier| is_same(i, earlier))).collect()
}
