//! Rows whose errors are zeros, subnormal, at the ends of the numbers, infinite, NaN, or next to whole numbers, in each place of a block, and
//! random ones: the library's blocks compared with the plain loop.

use crate::plain::plain_c;
use jinnychair::{BrownConrady5, FxFyCxCy, PinholeCamera, Rows, TiltTrig, geometry};
use random::Random;
use words::{line, word};

/// With this camera and no tilt the ideal point (0, 0) is projected to (0, 0), so that a row's error is that of its seen pixel.
const UNIT: [f64; 9] = [1.0, 1.0, 0.0, 0.0, 0.0, 0.0, 0.0, 0.0, 0.0];
const NO_TILT: TiltTrig = TiltTrig { sin_x: 0.0, cos_x: 1.0, sin_y: 0.0, cos_y: 1.0 };

/// More rows than two blocks have.
const MOST_ROWS: usize = 40;

/// Pixels whose squared distances from 0 are zeros, subnormal, the least and greatest normal, infinite, NaN, exact squares and the
/// neighbours of these.
fn hostile() -> Vec<[f64; 2]> {
    let mut pixels = vec![
        [0.0, 0.0],
        [-0.0, -0.0],
        [1e-170, 0.0],
        [1.5e-162, 0.0],
        [1e-160, 2e-161],
        [f64::MIN_POSITIVE.sqrt(), 0.0],
        [f64::MIN_POSITIVE.sqrt().next_down(), 0.0],
        [f64::MAX.sqrt(), 0.0],
        [f64::MAX.sqrt().next_up(), 0.0],
        [1e200, 1.0],
        [f64::INFINITY, 0.0],
        [0.0, f64::NEG_INFINITY],
        [f64::NAN, 1.0],
    ];
    for k in [1.0_f64, 2.0, 3.0, 4.0, 5.0, 1023.0, 4095.0, 46341.0, 67108863.0, 67108864.0] {
        // One step of the square's last place is a power of 2; where it is an even one, it is a square too.
        let step = (k * k).next_up() - k * k;
        pixels.extend([
            [k, 0.0],
            [0.0, -k],
            [k, step.sqrt()],
            [k.next_down(), 0.0],
            [k.next_up(), 0.0],
        ]);
        pixels.extend([[k / 1024.0, 0.0], [k * 1024.0, 0.0]]);
    }
    pixels
}

fn camera(numbers: &[f64; 9]) -> PinholeCamera {
    let [fx, fy, cx, cy, k1, k2, k3, p1, p2] = *numbers;
    PinholeCamera { k: FxFyCxCy { fx, fy, cx, cy }, dist: BrownConrady5 { k1, k2, k3, p1, p2 } }
}

fn compare(of: &[f64; 9], trig: TiltTrig, numbers: &[f64], flags: &[u8]) -> Result<(), String> {
    let library = word(geometry::mean_reproj_error(camera(of), trig, Rows { numbers, flags }));
    let plain = word(plain_c(of, &trig, numbers, flags));
    if library == plain {
        return Ok(());
    }
    let words: Vec<u64> = numbers.iter().map(|&x| word(x)).collect();
    Err(format!("rows {} flags {flags:?}: {library:016x}, {plain:016x}", line(&words)))
}

/// Each hostile pixel in each place of each number of rows, all in front of the camera and with some behind. Gives what differs, and
/// how many were compared.
pub fn in_each_place(random: &mut Random) -> (usize, Vec<String>) {
    let (mut count, mut faults) = (0, vec![]);
    for pixel in hostile() {
        for rows in 1..=MOST_ROWS {
            for place in 0..rows {
                let mut numbers: Vec<f64> = (0..rows)
                    .flat_map(|_| [0.0, 0.0, random.within(3.0), random.within(3.0)])
                    .collect();
                numbers[4 * place + 2..][..2].copy_from_slice(&pixel);
                let mut flags = vec![1; rows];
                faults.extend(compare(&UNIT, NO_TILT, &numbers, &flags).err());
                flags.iter_mut().for_each(|flag| *flag = u8::from(!random.once_in(4)));
                faults.extend(compare(&UNIT, NO_TILT, &numbers, &flags).err());
                count += 2;
            }
        }
    }
    (count, faults)
}

/// Random cameras, tilts, rows and flags of any shape, with some hostile pixels.
pub fn at_random(count: usize, random: &mut Random) -> Vec<String> {
    let hostile = hostile();
    let one = |_| {
        let mut of = [0.0; 9].map(|_| random.within(0.5));
        (of[0], of[1]) = (800.0 + random.within(100.0), 790.0 + random.within(100.0));
        let (x, y) = (random.within(0.3), random.within(0.3));
        let trig = TiltTrig { sin_x: x.sin(), cos_x: x.cos(), sin_y: y.sin(), cos_y: y.cos() };
        let rows = random.below(5 * MOST_ROWS);
        let (odd, behind) = (random.pick(&[2, 30, 1000]), random.pick(&[1, 2, 4, 100]));
        let mut numbers = vec![];
        for _ in 0..rows {
            let seen = [random.within(600.0), random.within(600.0)];
            let seen = if random.once_in(odd) { random.pick(&hostile) } else { seen };
            numbers.extend([random.within(0.4), random.within(0.3), seen[0], seen[1]]);
        }
        let flag = |_| if random.once_in(behind) { random.pick(&[0, 0, 2, 255]) } else { 1 };
        let flags: Vec<u8> = (0..rows).map(flag).collect();
        compare(&of, trig, &numbers, &flags).err()
    };
    (0..count).filter_map(one).collect()
}
