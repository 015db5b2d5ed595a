//! Leaf operations on hostile numbers: the library beside the specification's formulas in plain C (`leaves.c`).

use crate::plain::{
    leaf_apply_homography, leaf_apply_homography_inverse, leaf_centre, leaf_centre_penalty,
    leaf_collinear, leaf_conic_to_camera, leaf_cosine, leaf_damp, leaf_design_rows,
    leaf_determinant, leaf_distort, leaf_distort_with_jacobian, leaf_distortion_penalty,
    leaf_has_plate, leaf_inverse, leaf_map_points, leaf_normalize, leaf_pixel_to_sensor, leaf_root,
    leaf_sensor_to_pixel, leaf_sine, leaf_tilt_matrix, leaf_tilt_penalty, leaf_undistort,
};
use jinnychair::geometry::{self, Conic, DistortedPoint, Matrix3};
use jinnychair::{BrownConrady5, FxFyCxCy, PinholeCamera, Pt2, ScheimpflugParams, TiltTrig};
use random::Random;
use words::{float_words, line, word};

/// Numbers at which comparisons, roots and roundings change, and what is no number.
const ODD: &[f64] = &[
    0.0,
    -0.0,
    1.0,
    -1.0,
    0.5,
    -0.5,
    2.0,
    1e-12,
    1e-9,
    1e-6,
    -1e-6,
    f64::EPSILON,
    0.05,
    -0.05,
    f64::MIN_POSITIVE,
    5e-324,
    -5e-324,
    1e-160,
    1e155,
    -1e155,
    1e200,
    f64::MAX,
    f64::MIN,
    f64::INFINITY,
    f64::NEG_INFINITY,
    f64::NAN,
];

/// Draws numbers, of which some are odd: once in two, ten or fifty for a whole case.
struct Numbers<'a> {
    random: &'a mut Random,
    odd_once_in: usize,
    /// All that was drawn, to name a case.
    drawn: Vec<u64>,
}

impl<'a> Numbers<'a> {
    fn new(random: &'a mut Random) -> Self {
        let odd_once_in = random.pick(&[2, 10, 50]);
        Self { random, odd_once_in, drawn: vec![] }
    }

    fn one(&mut self, range: f64) -> f64 {
        let random = &mut *self.random;
        let x = if !random.once_in(self.odd_once_in) {
            random.within(range)
        } else {
            let odd = random.pick(ODD);
            match random.below(4) {
                0 => f64::from_bits(random.bits()),
                1 => odd.next_up(),
                2 => odd.next_down(),
                _ => odd,
            }
        };
        self.drawn.push(word(x));
        x
    }

    /// A limit, or a number some steps beside it, of either sign.
    fn about(&mut self, limit: f64) -> f64 {
        let steps = self.random.below(7) as u64;
        let x = self.random.pick(&[1.0, -1.0]) * f64::from_bits(limit.to_bits() + steps - 3);
        self.drawn.push(word(x));
        x
    }

    fn some<const N: usize>(&mut self, range: f64) -> [f64; N] {
        [(); N].map(|()| self.one(range))
    }

    fn point(&mut self, range: f64) -> Pt2 {
        Pt2 { x: self.one(range), y: self.one(range) }
    }

    /// Sines and cosines of two small tilts, mostly.
    fn trig(&mut self) -> TiltTrig {
        let [x, y] = self.some(0.5);
        let of = [x.sin(), x.cos(), y.sin(), y.cos()];
        let any = self.random.once_in(4);
        let [sin_x, cos_x, sin_y, cos_y] = if any { self.some(1.0) } else { of };
        TiltTrig { sin_x, cos_x, sin_y, cos_y }
    }

    fn intrinsics(&mut self) -> FxFyCxCy {
        let [fx, fy] = self.some(900.0);
        let [cx, cy] = self.some(600.0);
        FxFyCxCy { fx, fy, cx, cy }
    }

    fn distortion(&mut self, range: f64) -> BrownConrady5 {
        let [k1, k2, k3, p1, p2] = self.some(range);
        BrownConrady5 { k1, k2, k3, p1, p2 }
    }

    fn matrix(&mut self) -> Matrix3 {
        [self.some(2.0), self.some(2.0), self.some(2.0)]
    }

    /// Points anywhere, on a grid, nearly in one place, nearly on a line, or at the limits of the tests for that.
    fn points(&mut self) -> Vec<Pt2> {
        if self.random.once_in(6) {
            return self.points_at_limits();
        }
        let count = match self.random.below(12) {
            0 => self.random.pick(&[399, 400, 401]),
            _ => self.random.below(12),
        };
        let (spread, kind) = (self.random.pick(&[1e-13, 1e-9, 1e-6, 1.0]), self.random.below(4));
        let centre = self.point(500.0);
        let mut points = vec![];
        for i in 0..count {
            let p = match kind {
                0 => self.point(500.0),
                1 => Pt2 { x: (i % 4) as f64, y: (i / 4) as f64 },
                2 => Pt2 { x: centre.x + self.one(spread), y: centre.y + self.one(spread) },
                _ => Pt2 { x: i as f64, y: centre.y + 3.0 * i as f64 + self.one(spread) },
            };
            points.push(p);
        }
        points
    }
}

impl Numbers<'_> {
    fn points_at_limits(&mut self) -> Vec<Pt2> {
        let spread = self.about(f64::EPSILON);
        let mut zero = || self.random.pick(&[0.0, -0.0, 0.0, -0.0, -1.0, 1.0]);
        let zeros = [zero(), zero(), zero(), zero()];
        let numbers = match self.random.below(5) {
            4 => zeros.to_vec(),
            0 => vec![spread, 0.0, -spread, 0.0],
            1 => vec![0.0, 0.0, 1.0, 0.0, 2.0, self.about(1e-6)],
            2 => vec![0.0, 0.0, 1e4, 0.0, 0.0, self.about(1e-9)],
            _ => vec![0.0, 0.0, 0.0, self.about(1e-9), 1e4, 1e4],
        };
        let mut points: Vec<Pt2> =
            numbers.chunks_exact(2).map(|c| Pt2 { x: c[0], y: c[1] }).collect();
        if self.random.once_in(2) {
            points.extend(points.clone());
        }
        points
    }
}

type Words = Vec<u64>;

/// What the library and plain C answer to a drawn case.
type Case = fn(&mut Numbers) -> [Words; 2];

/// Each operation with its cases.
const LEAVES: &[(&str, Case)] = &[
    ("sqrt", root),
    ("sine and cosine", series),
    ("pixels and sensor", intrinsics),
    ("tilt_projection_matrix", tilt_matrix),
    ("inverse", inverse),
    ("homographies", homographies),
    ("distort", distort),
    ("undistort", undistort),
    ("point maps", maps),
    ("normalize_points_2d", normalize),
    ("points_are_collinear", collinear),
    ("design_rows", rows),
    ("conic_to_camera", conic),
    ("observed_pixel_center", centre),
    ("damping and penalties", penalties),
    ("known_plate", plate),
];

/// How many operations there are.
pub const COUNT: usize = LEAVES.len();

/// Compares so many cases of each operation, and gives what differs.
pub fn compare(each: usize, random: &mut Random) -> Vec<String> {
    let mut faults = vec![];
    for (name, case) in LEAVES {
        for _ in 0..each {
            let mut numbers = Numbers::new(random);
            let [library, plain] = case(&mut numbers);
            if library != plain {
                let drawn = line(&numbers.drawn);
                let [library, plain] = [line(&library), line(&plain)];
                faults.push(format!("{name} {drawn}: the library gives {library}, C {plain}"));
            }
        }
    }
    faults
}

fn of_point(p: Pt2) -> Words {
    float_words(&[p.x, p.y])
}

fn of_points(points: &[Pt2]) -> Words {
    points.iter().flat_map(|p| of_point(*p)).collect()
}

fn of_k(k: FxFyCxCy) -> Words {
    float_words(&[k.fx, k.fy, k.cx, k.cy])
}

/// A place for a camera.
const NO_CAMERA: FxFyCxCy = FxFyCxCy { fx: 0.0, fy: 0.0, cx: 0.0, cy: 0.0 };

/// A refusal, or 0 and the words.
fn refused_or(number: i32, words: Words) -> Words {
    if number == 0 { [vec![0], words].concat() } else { vec![number as u64] }
}

fn root(n: &mut Numbers) -> [Words; 2] {
    let x = n.one(1e6);
    [vec![word(geometry::sqrt(x))], vec![word(leaf_root(x))]]
}

fn series(n: &mut Numbers) -> [Words; 2] {
    let x = n.one(0.6);
    let library = [geometry::sine(x), geometry::cosine(x)].map(|answer| match answer {
        Ok(value) => vec![0, word(value)],
        Err(error) => vec![error.number().into()],
    });
    let plain = [leaf_sine(x), leaf_cosine(x)].map(|c| refused_or(c.number, vec![word(c.value)]));
    [library.concat(), plain.concat()]
}

fn intrinsics(n: &mut Numbers) -> [Words; 2] {
    let (k, p) = (n.intrinsics(), n.point(1000.0));
    let library = [k.pixel_to_sensor(p), k.sensor_to_pixel(p)];
    [of_points(&library), of_points(&[leaf_pixel_to_sensor(&k, p), leaf_sensor_to_pixel(&k, p)])]
}

fn tilt_matrix(n: &mut Numbers) -> [Words; 2] {
    let (trig, mut to) = (n.trig(), Matrix3::default());
    leaf_tilt_matrix(&trig, &mut to);
    [geometry::tilt_projection_matrix(trig), to].map(|m| float_words(m.as_flattened()))
}

fn inverse(n: &mut Numbers) -> [Words; 2] {
    let (mut m, mut to) = (n.matrix(), Matrix3::default());
    // Two equal rows, so that there is no inverse.
    if n.random.once_in(8) {
        m[2] = m[0];
    }
    let determinants = [geometry::determinant(m), leaf_determinant(&m)].map(word);
    let library = match geometry::inverse(m) {
        Ok(inverse) => [vec![0], float_words(inverse.as_flattened())].concat(),
        Err(error) => vec![error.number().into()],
    };
    let plain = leaf_inverse(&m, &mut to);
    let plain = refused_or(plain, float_words(to.as_flattened()));
    [[library, vec![determinants[0]]].concat(), [plain, vec![determinants[1]]].concat()]
}

fn homographies(n: &mut Numbers) -> [Words; 2] {
    let (m, p) = (n.matrix(), n.point(2.0));
    let library = [geometry::apply_homography(m, p), geometry::apply_homography_inverse(m, p)];
    let plain = [leaf_apply_homography(&m, p), leaf_apply_homography_inverse(&m, p)];
    [of_points(&library), of_points(&plain)]
}

fn distort(n: &mut Numbers) -> [Words; 2] {
    let (d, p) = (n.distortion(0.5), n.point(1.0));
    let words = |alone: Pt2, DistortedPoint { point, jacobian: j }: DistortedPoint| {
        [of_points(&[alone, point]), float_words(&[j.xx, j.xy, j.yx, j.yy])].concat()
    };
    [
        words(d.distort(p), d.distort_with_jacobian(p)),
        words(leaf_distort(&d, p), leaf_distort_with_jacobian(&d, p)),
    ]
}

fn undistort(n: &mut Numbers) -> [Words; 2] {
    let (d, p) = (n.distortion(0.5), n.point(1.0));
    let iters = n.random.pick(&[0, 0, 1, 2, 5, 20, 40]);
    [of_point(d.undistort(iters, p)), of_point(leaf_undistort(&d, iters, p))]
}

/// Two destinations for so many points.
fn places(count: usize) -> [Vec<Pt2>; 2] {
    [vec![Pt2::default(); count], vec![Pt2::default(); count]]
}

fn maps(n: &mut Numbers) -> [Words; 2] {
    let (k, dist, trig) = (n.intrinsics(), n.distortion(0.2), n.trig());
    let (points, iters) = (n.points(), n.random.pick(&[0, 1, 3]));
    let has_lens = n.random.once_in(2);
    let [mut to, mut other] = places(points.len());
    let library = if has_lens {
        geometry::ideal_points(PinholeCamera { k, dist }, iters, trig, &points, &mut to)
    } else {
        geometry::untilt_points(k, trig, &points, &mut to)
    };
    let lens = has_lens.then_some((&dist, iters));
    let plain = leaf_map_points(&k, lens, &trig, &points, &mut other);
    let library = library.map_or_else(|e| vec![e.number().into()], |()| vec![0]);
    [[library, of_points(&to)].concat(), [vec![plain as u64], of_points(&other)].concat()]
}

fn normalize(n: &mut Numbers) -> [Words; 2] {
    let points = n.points();
    let [mut to, mut other] = places(points.len());
    let library = match geometry::normalize_points_2d(&points, &mut to) {
        Ok(t) => [vec![0], float_words(&[t.scale, t.offset_x, t.offset_y])].concat(),
        Err(error) => vec![error.number().into()],
    };
    let mut three = [0.0; 3];
    let plain = leaf_normalize(&points, &mut other, &mut three);
    let plain = refused_or(plain, float_words(&three));
    [[library, of_points(&to)].concat(), [plain, of_points(&other)].concat()]
}

fn collinear(n: &mut Numbers) -> [Words; 2] {
    let points = n.points();
    [geometry::points_are_collinear(&points), leaf_collinear(&points)].map(|is| vec![is.into()])
}

fn rows(n: &mut Numbers) -> [Words; 2] {
    let (from, mut onto) = (n.points(), n.points());
    if !n.random.once_in(4) {
        onto.resize(from.len(), Pt2 { x: 2.0, y: 5.0 });
    }
    let (mut to, mut other) = (vec![0.0; 18 * from.len()], vec![0.0; 18 * from.len()]);
    let library = geometry::design_rows(&from, &onto, &mut to);
    let plain = leaf_design_rows(&from, &onto, &mut other);
    let library = library.map_or_else(|e| vec![e.number().into()], |()| vec![0]);
    [[library, float_words(&to)].concat(), [vec![plain as u64], float_words(&other)].concat()]
}

fn conic(n: &mut Numbers) -> [Words; 2] {
    // Mostly that of a camera.
    let [fx, fy] = [2.0 + n.one(1.0), 2.0 + n.one(1.0)];
    let [cx, cy, scale] = n.some(3.0);
    let [x, y] = [scale / (fx * fx), scale / (fy * fy)];
    let of_camera = [x, 0.0, y, -cx * x, -cy * y, cx * cx * x + cy * cy * y + scale];
    let small = n.about(1e-12);
    let b = match n.random.below(12) {
        0..4 => n.some(3.0),
        4 => [1.0, 0.0, n.about(1e-6 * (1.0 + 1e-12)).abs(), 0.0, 0.0, 1.0],
        5 => [small, 0.0, small, 0.0, 0.0, small.signum()],
        _ => of_camera,
    };
    let [b11, b12, b22, b13, b23, b33] = b;
    let b = Conic { b11, b12, b22, b13, b23, b33 };
    let library = match geometry::conic_to_camera(b) {
        Ok(k) => [vec![0], of_k(k)].concat(),
        Err(error) => vec![error.number().into()],
    };
    let mut to = NO_CAMERA;
    let plain = leaf_conic_to_camera(&b, &mut to);
    [library, refused_or(plain, of_k(to))]
}

fn centre(n: &mut Numbers) -> [Words; 2] {
    let points = n.points();
    [geometry::observed_pixel_center(&points), leaf_centre(&points)].map(of_point)
}

fn penalties(n: &mut Numbers) -> [Words; 2] {
    let (d, k, centre) = (n.distortion(0.3), n.intrinsics(), n.point(500.0));
    let [tilt_x, tilt_y] = n.some(0.5);
    let words = |damped: BrownConrady5, penalties: [f64; 3]| {
        let BrownConrady5 { k1, k2, k3, p1, p2 } = damped;
        [float_words(&[k1, k2, k3, p1, p2]), float_words(&penalties)].concat()
    };
    let library = [
        d.complexity(),
        geometry::tilt_complexity(ScheimpflugParams { tilt_x, tilt_y }),
        geometry::principal_point_complexity(k, centre),
    ];
    let plain = [
        leaf_distortion_penalty(&d),
        leaf_tilt_penalty(tilt_x, tilt_y),
        leaf_centre_penalty(&k, centre),
    ];
    [words(d.damped(), library), words(leaf_damp(&d), plain)]
}

/// Whether a camera has a plate; one that has comes back from it by plain C's closed form too, a zero with either sign.
fn plate(n: &mut Numbers) -> [Words; 2] {
    let power = f64::from(1 << n.random.below(10));
    let mut number = |least: i32| {
        let whole = f64::from(least + n.random.below((258 - least) as usize) as i32);
        if n.random.once_in(20) { n.one(300.0) } else { whole * power }
    };
    let k = FxFyCxCy { fx: number(1), fy: number(1), cx: number(-256), cy: number(-256) };
    n.drawn.extend(of_k(k));
    let plain = vec![leaf_has_plate(&k) as u64];
    let library = match geometry::known_plate(k) {
        Err(error) => vec![u64::from(error.number() != 34)],
        Ok(b) => {
            let mut back = NO_CAMERA;
            vec![u64::from(leaf_conic_to_camera(&b, &mut back) == 0 && back == k)]
        }
    };
    [library, plain]
}
