//! Prints where the answers of the published text and of the specification differ, each with a smallest input:
//! numbers as decimals, and the bits on both sides. docs/DIFFERENCES.md lists them.

use oracle::operations::answer;
use oracle::operations::search::finding_words;
use random::Random;
use std::hint::black_box;
use vision_calibration_core::given_tilt::GivenTilt;
use vision_calibration_linear::script::{Finding, Row};
use words::start::Inputs;
use words::{float_words, line};

fn main() {
    distortion_terms();
    terms_that_underflow();
    hypotenuse();
    zeros_of_two_signs();
    nan_first();
    maths_library();
}

/// The answers by the specification's lines and by the published ones.
fn both(operation: &str, input: &[u64]) -> [Vec<u64>; 2] {
    [operation.to_owned(), format!("{operation}_as_published")]
        .map(|operation| answer(&operation, input).expect("both variants take this input"))
}

fn print_both(operation: &str, input: &[u64], floats: &[f64]) {
    let [specified, published] = both(operation, input);
    println!("{operation} {floats:?}\n  input     {}", line(input));
    println!("  specified {}\n  published {}", line(&specified), line(&published));
}

/// The tangential parts: ((2·p1)·x)·y against (2·p1)·(x·y).
fn distortion_terms() {
    print_smallest("distort", float_words);
    print_smallest("undistort", |floats| {
        let (coefficients, point) = floats.split_at(5);
        [float_words(coefficients), vec![0], float_words(point)].concat()
    });
    shares();
}

/// The first input with p1, x and y of one decimal digit that differs.
fn print_smallest(operation: &str, words: impl Fn(&[f64]) -> Vec<u64>) {
    let digits = || (1..10).map(|digit| f64::from(digit) / 10.0);
    for p1 in digits() {
        for x in digits() {
            for y in digits() {
                let floats = [0.0, 0.0, 0.0, p1, 0.0, x, y];
                let [specified, published] = both(operation, &words(&floats));
                if specified != published {
                    return print_both(operation, &words(&floats), &floats);
                }
            }
        }
    }
    println!("{operation}: no input of one decimal digit differs");
}

/// How often ordinary inputs differ, in the point and in the derivatives.
fn shares() {
    let mut random = Random::named("shares");
    let (mut points, mut derivatives) = (0, 0);
    const DRAWS: u32 = 100_000;
    for _ in 0..DRAWS {
        let [k1, k2, k3] = [0; 3].map(|_| random.within(0.5));
        let [p1, p2] = [0; 2].map(|_| random.within(0.05));
        let [x, y] = [0; 2].map(|_| random.within(1.0));
        let input = float_words(&[k1, k2, k3, p1, p2, x, y]);
        let [specified, published] = both("distort_with_jacobian", &input);
        points += u32::from(specified[..2] != published[..2]);
        derivatives += u32::from(specified[2..] != published[2..]);
    }
    println!("of {DRAWS} ordinary inputs {points} points and {derivatives} Jacobians differ");
}

/// 2·x·x from the left against 2·(x·x): other bits only where the square is subnormal, so that a
/// huge coefficient is needed to see it.
fn terms_that_underflow() {
    let two_to = |exponent: i32| 2.0_f64.powi(exponent);
    let floats = [0.0, 0.0, 0.0, 0.0, two_to(1000), 1.5 * two_to(-538), 0.0];
    print_both("distort", &float_words(&floats), &floats);
}

/// The line test's distance: two points of the image and one so near to the first that only the
/// last bit of the distance decides whether it counts as the same.
fn hypotenuse() {
    let mut random = Random::named("hypotenuse");
    let limit = black_box(1e-9_f64);
    let (dx, dy) = std::iter::repeat_with(|| {
        let dx = f64::from(random.below(1000) as u32) * 1e-12;
        let around = (limit * limit - dx * dx).sqrt().to_bits() + random.bits() % 9 - 4;
        (dx, f64::from_bits(around))
    })
    .find(|&(dx, dy)| (dx.hypot(dy) <= limit) != ((dx * dx + dy * dy).sqrt() <= limit))
    .expect("the draws never end");
    let list = [0.0, 0.0, 10_000.0, 0.0, dx, dy];
    let input = [vec![list.len() as u64], float_words(&list)].concat();
    let specified = answer("points_are_collinear", &input).expect("whole points");
    println!("points_are_collinear {list:?}\n  input     {}", line(&input));
    println!("  root of squares {:016x}", (dx * dx + dy * dy).sqrt().to_bits());
    println!("  hypot           {:016x}", dx.hypot(dy).to_bits());
    println!("  limit           {:016x}", limit.to_bits());
    println!("  cross product   {:e}\n  specified {}", 10_000.0 * dy, line(&specified));
}

/// The observed centre: the greatest of −0 and 0, in that order.
fn zeros_of_two_signs() {
    let (first, second) = (black_box(-0.0_f64), black_box(0.0_f64));
    let list = [first, 0.0, second, 0.0];
    let input = [vec![list.len() as u64], float_words(&list)].concat();
    let specified = answer("observed_pixel_center", &input).expect("whole points");
    println!("observed_pixel_center {list:?}\n  specified {}", line(&specified));
    let (greatest, least) = (first.max(second), second.min(first));
    println!("  f64::max(-0, 0) here {:016x}", greatest.to_bits());
    println!("  f64::min(0, -0) here {:016x}", least.to_bits());
}

/// Two candidates, of which the first has its centre so far out that its score is NaN.
fn nan_first() {
    let camera = [100.0, 100.0, 50.0, 50.0];
    let inputs = Inputs {
        views: 3,
        tilt_x_seeds: vec![0.0, 0.25],
        tilt_y_seeds: vec![0.0],
        rounds: 0,
        refine_step: 0.0,
        max_abs_tilt: 0.25,
        decomposition: Vec::new(),
        base: camera,
        center: [50.0, 50.0],
    };
    let found = |cx: f64| {
        let row = Row { ideal: [0.0, 0.0], seen: [cx, 50.0], in_front: true };
        finding_words(&Finding::Solved {
            camera: [100.0, 100.0, cx, 50.0, 0.0, 0.0, 0.0, 0.0, 0.0],
            rows: vec![row],
        })
    };
    let input = [inputs.words(), vec![2], found(1e200), found(50.0)].concat();
    let [specified, published] = both("search", &input);
    println!("search, centres 1e200 and 50\n  input     {}", line(&input));
    println!("  specified {}\n  published {}", line(&specified), line(&published));
}

/// The published search calls the machine's maths library: the first tilt in thousandths at which
/// it gives other bits than the series, and how many of the tilts that are drawn have another one.
fn maths_library() {
    print_first_tilt("sine", series::sine, f64::sin);
    print_first_tilt("cosine", series::cosine, f64::cos);
    let mut random = Random::named("maths library");
    const DRAWS: usize = 100_000;
    let differs = |x: f64| {
        let (x, sine, cosine) = (black_box(x), series::sine(x), series::cosine(x));
        sine.to_bits() != x.sin().to_bits() || cosine.to_bits() != x.cos().to_bits()
    };
    let count = (0..DRAWS).filter(|_| differs(random.within(series::MOST))).count();
    println!("of {DRAWS} tilts {count} have another sine or cosine in the maths library");
}

fn print_first_tilt(name: &str, own: fn(f64) -> f64, library: fn(f64) -> f64) {
    let tilts = (1..=500).map(|thousandths| f64::from(thousandths) / 1000.0);
    let differs = |x: &f64| own(*x).to_bits() != library(black_box(*x)).to_bits();
    let Some(x) = tilts.into_iter().find(differs) else {
        return println!("{name}: no tilt in thousandths differs");
    };
    println!("{name} {x:?}\n  input     {}", line(&float_words(&[x])));
    println!(
        "  specified {}\n  library   {}",
        line(&float_words(&[own(x)])),
        line(&float_words(&[library(x)]))
    );
}
