//! Square roots of numbers of every kind: the library's from the bits, the machine's instruction, the C library's, and the root in the
//! library's loop over rows. All are correctly rounded, so all are the same.

use jinnychair::{BrownConrady5, FxFyCxCy, PinholeCamera, Rows, TiltTrig, geometry};
use random::Random;
use std::ffi::{c_char, c_int, c_void};
use std::mem::transmute;
use words::word;

type Root = fn(f64) -> f64;

/// The library's `jc_sqrt`, beside which the others are held.
const FROM_BITS: Root = geometry::sqrt;

/// The machine's, which is what Rust's compiler makes of `f64::sqrt`, as the library's does in its loops.
const OF_THE_MACHINE: Root = f64::sqrt;

type CRoot = extern "C" fn(f64) -> f64;

/// The C library's function. It is asked for by name in the system's file: the linker would take Rust's own of that name.
fn of_c_library() -> CRoot {
    unsafe extern "C" {
        fn dlopen(file: *const c_char, flags: c_int) -> *mut c_void;
        fn dlsym(library: *mut c_void, name: *const c_char) -> *mut c_void;
    }
    const RTLD_NOW: c_int = 2;
    // SAFETY: both texts end with a zero; libm's `sqrt` takes a double and returns one.
    unsafe {
        let library = dlopen(c"libm.so.6".as_ptr(), RTLD_NOW);
        assert!(!library.is_null(), "the C library's mathematics, libm.so.6, can't be opened");
        let root = dlsym(library, c"sqrt".as_ptr());
        assert!(!root.is_null(), "libm.so.6 has no sqrt");
        transmute::<*mut c_void, CRoot>(root)
    }
}

fn power_of_two(exponent: i32) -> f64 {
    2.0_f64.powi(exponent)
}

/// A whole number below 2^53 times a power of four, at random; what is below the least normal number is rounded.
fn scaled(whole: u64, random: &mut Random) -> f64 {
    let exponent = 2 * (random.below(1022) as i32 - 536);
    let half = exponent / 2;
    whole as f64 * power_of_two(half) * power_of_two(exponent - half)
}

/// The same some steps up or down.
fn beside(x: f64, random: &mut Random) -> f64 {
    let step = [f64::next_down, f64::next_up][random.below(2)];
    (0..random.below(3)).fold(x, |x, _| step(x))
}

fn any(random: &mut Random) -> f64 {
    f64::from_bits(random.bits())
}

fn positive(random: &mut Random) -> f64 {
    f64::from_bits(random.bits() % f64::INFINITY.to_bits())
}

fn subnormal(random: &mut Random) -> f64 {
    let shift = 12 + random.below(52);
    let sign = if random.once_in(16) { 1 << 63 } else { 0 };
    f64::from_bits(random.bits() >> shift | sign)
}

/// The square of a whole number of at most 26 bits, which is one, and its neighbours.
fn about_a_square(random: &mut Random) -> f64 {
    let k = random.bits() >> (38 + random.below(26));
    beside(scaled(k * k, random), random)
}

/// A number whose root is near a float: the rounded square of one, and its neighbours.
fn about_a_float(random: &mut Random) -> f64 {
    let r = 1.0 + random.unit();
    let square = beside(r * r, random);
    let exponent = random.below(1020) as i32 - 510;
    square * power_of_two(exponent) * power_of_two(exponent)
}

/// A number whose root is near the middle of two floats: the square of such a middle, cut to a float, and its neighbours.
fn about_a_middle(random: &mut Random) -> f64 {
    // 54 bits, the last of them 1: between two numbers of 53.
    let middle = u128::from(1_u64 << 53 | random.bits() >> 11 | 1);
    let square = middle * middle;
    let digits = 128 - square.leading_zeros();
    // An even number of digits is cut, so that what is left is a square times a power of four.
    let cut = (digits - 52) / 2 * 2;
    beside(scaled((square >> cut) as u64, random), random)
}

/// The roots of c modulo 2^bits, c being one more than a multiple of 8.
fn roots_modulo(c: i64, bits: u32) -> [u64; 4] {
    let mut m = 1_u64;
    for bit in 3..bits {
        if m.wrapping_mul(m).wrapping_sub(c as u64) >> bit & 1 == 1 {
            m += 1 << (bit - 1);
        }
    }
    let (mask, half) = ((1 << bits) - 1, 1 << (bits - 1));
    [m, m.wrapping_neg(), m + half, half.wrapping_sub(m)].map(|root| root & mask)
}

/// A number and the middle of two floats, of 54 bits, whose square it is but for a small c: no root is harder to round.
fn nearest_to_a_middle(random: &mut Random) -> Option<(u64, u64)> {
    let c = 8 * (random.below(64) as i64 - 32) + 1;
    let bits = random.pick(&[54, 55]);
    let fits = |(_, whole): &(u64, u64)| {
        whole >> (bits - 54) < 1 << 53 && (1 << 52..1 << 54).contains(whole)
    };
    let whole = |m: u64| {
        let square = i128::from(m) * i128::from(m) - i128::from(c);
        (m, (square >> bits << (bits - 54)) as u64)
    };
    let of_54_bits = |m: &u64| (1 << 53..1 << 54).contains(m);
    roots_modulo(c, bits).into_iter().filter(of_54_bits).map(whole).find(fits)
}

fn hardest(random: &mut Random) -> f64 {
    loop {
        if let Some((_, whole)) = nearest_to_a_middle(random) {
            return scaled(whole, random);
        }
    }
}

/// Where exponents and kinds of numbers change.
fn at_an_edge(random: &mut Random) -> f64 {
    let edges = [0.0, f64::MIN_POSITIVE, f64::MAX, f64::INFINITY, f64::NAN, 5e-324, 1.0];
    let x = match random.below(4) {
        0 => random.pick(&edges),
        _ => f64::from_bits((random.below(2047) as u64) << 52),
    };
    let x = beside(x, random);
    if random.once_in(16) { -x } else { x }
}

/// A kind of numbers, and how one is drawn.
type Kind = (&'static str, fn(&mut Random) -> f64);

/// The kinds of numbers, which are drawn in turn.
pub const KINDS: [Kind; 8] = [
    ("any bits", any),
    ("positive numbers", positive),
    ("subnormal numbers", subnormal),
    ("squares and their neighbours", about_a_square),
    ("squares of floats", about_a_float),
    ("squares of middles of two floats", about_a_middle),
    ("the nearest to such squares", hardest),
    ("powers of two, ends, and their neighbours", at_an_edge),
];

/// With this camera and no tilt the ideal point (0, 0) is projected to (0, 0), so that a row's error is that of its seen pixel.
const UNIT: PinholeCamera = PinholeCamera {
    k: FxFyCxCy { fx: 1.0, fy: 1.0, cx: 0.0, cy: 0.0 },
    dist: BrownConrady5 { k1: 0.0, k2: 0.0, k3: 0.0, p1: 0.0, p2: 0.0 },
};
const NO_TILT: TiltTrig = TiltTrig { sin_x: 0.0, cos_x: 1.0, sin_y: 0.0, cos_y: 1.0 };

/// How many rows the library takes together.
const BLOCK: usize = 16;

/// A pixel whose squared distance from 0 is the number, or next to it: its x has half of the root's bits, so its square is exact.
fn pixel(x: f64) -> [f64; 2] {
    let root = f64::from_bits(x.sqrt().to_bits() & !0 << 27);
    [root, (x - root * root).sqrt()]
}

/// The mean error of rows of which one sees this pixel and the others see what they should: in that place of so many.
fn mean_of_rows([x, y]: [f64; 2], place: usize, count: usize) -> f64 {
    let mut numbers = [0.0; 4 * BLOCK];
    numbers[4 * place + 2..][..2].copy_from_slice(&[x, y]);
    let rows = Rows { numbers: &numbers[..4 * count], flags: &[1; BLOCK][..count] };
    geometry::mean_reproj_error(UNIT, NO_TILT, rows)
}

/// The mean by a root: an error that isn't finite isn't counted.
fn expected([x, y]: [f64; 2], count: usize, root: Root) -> f64 {
    let error = root(x * x + y * y);
    match (error.is_finite(), count) {
        (true, _) => error / count as f64,
        (false, 1) => f64::INFINITY,
        (false, _) => 0.0,
    }
}

/// How many rows were scored for the numbers of a chunk, by themselves and in blocks.
pub type Scored = [usize; 2];

/// Compares the roots of so many numbers, and of each number that isn't below 0 the root in the loop over rows; of one in eight in each
/// place of a block by turns. Tells each difference, and gives how many rows were scored.
pub fn compare(count: usize, random: &mut Random, mut differs: impl FnMut(String)) -> Scored {
    let (mut scored, c_root) = ([0, 0], of_c_library());
    for i in 0..count {
        let (kind, draw) = KINDS[i % KINDS.len()];
        let x = draw(random);
        for (name, other) in [("the machine", OF_THE_MACHINE(x)), ("the C library", c_root(x))] {
            compare_one(x, name, other, |fault| differs(format!("{kind}: {fault}")));
        }
        if x >= 0.0 {
            let turn = i / KINDS.len();
            let in_block = turn % 8 == i % 8;
            let (place, rows) = if in_block { (turn / 8 % BLOCK, BLOCK) } else { (0, 1) };
            scored[usize::from(in_block)] += 1;
            compare_row(x, place, rows, FROM_BITS, |fault| differs(format!("{kind}: {fault}")));
        }
    }
    scored
}

fn compare_one(x: f64, name: &str, other: f64, mut differs: impl FnMut(String)) {
    let [library, other] = [FROM_BITS(x), other].map(word);
    if library != other {
        let x = word(x);
        differs(format!("{x:016x}: from the bits {library:016x}, {name} {other:016x}"));
    }
}

fn compare_row(x: f64, place: usize, rows: usize, root: Root, mut differs: impl FnMut(String)) {
    let pixel = pixel(x);
    let [library, bits] = [mean_of_rows(pixel, place, rows), expected(pixel, rows, root)].map(word);
    if library != bits {
        let [x, y] = pixel.map(word);
        differs(format!(
            "{x:016x} {y:016x} in place {place} of {rows} rows: {library:016x}, by the root from the bits {bits:016x}"
        ));
    }
}

#[cfg(test)]
mod tests {
    use super::*;

    fn drawn(kind: usize, count: usize) -> Vec<f64> {
        let mut random = Random::named(KINDS[kind].0);
        (0..count).map(|_| KINDS[kind].1(&mut random)).collect()
    }

    /// One step off where it was rounded up.
    fn rounded_down(x: f64) -> f64 {
        let root = x.sqrt();
        if root.mul_add(root, -x) > 0.0 { root.next_down() } else { root }
    }

    #[test]
    fn all_roots_agree() {
        let mut faults = vec![];
        compare(80_000, &mut Random::named("roots"), |fault| faults.push(fault));
        assert!(faults.is_empty(), "{faults:?}");
    }

    #[test]
    fn a_root_that_is_rounded_down_is_found_among_each_kind_of_normal_numbers() {
        for kind in [1, 3, 4, 5, 6] {
            let (mut one, mut row) = (0, 0);
            for x in drawn(kind, 100) {
                compare_one(x, "down", rounded_down(x), |_| one += 1);
                compare_row(x, 3, BLOCK, rounded_down, |_| row += 1);
            }
            assert!(one > 10 && row > 10, "{}: {one}, {row}", KINDS[kind].0);
        }
    }

    #[test]
    fn the_nearest_to_a_middle_differ_from_its_square_by_little() {
        let mut random = Random::named("nearest");
        let found: Vec<_> = (0..1000).filter_map(|_| nearest_to_a_middle(&mut random)).collect();
        assert!(found.len() > 300);
        for (middle, whole) in found {
            let square = u128::from(middle) * u128::from(middle);
            assert!(middle % 2 == 1 && square.abs_diff(u128::from(whole) << 54) < 512);
            assert_eq!((whole as f64) as u64, whole);
        }
    }

    #[test]
    fn the_squared_distance_of_a_pixel_is_mostly_the_number() {
        for kind in [1, 5, 6] {
            let same = |x: &f64| pixel(*x).map(|c| c * c).iter().sum::<f64>() == *x;
            let count = drawn(kind, 1000).iter().filter(|x| same(x)).count();
            assert!(count > 900, "{}: {count}", KINDS[kind].0);
        }
    }

    #[test]
    fn kinds_are_what_they_say() {
        assert!(drawn(1, 1000).iter().all(|x| *x >= 0.0 && x.is_finite()));
        assert!(drawn(2, 1000).iter().all(|x| x.abs() < f64::MIN_POSITIVE));
        let is_square = |x: &f64| (x.sqrt() * x.sqrt()) == *x;
        assert!(drawn(3, 1000).iter().filter(|x| is_square(x)).count() > 300);
    }
}
