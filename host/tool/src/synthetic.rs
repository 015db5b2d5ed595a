//! Views of a plate as a known camera with a known tilt sees them.

use crate::angle::degrees;
use crate::elementary::{logarithm, sine_cosine};
use crate::linear::{Matrix3, add_scaled, column, product};
use crate::residuals::trig;
use crate::views::{Plate, View};
use jinnychair::{BrownConrady5, FxFyCxCy, Pt2, ScheimpflugParams, geometry};

/// A camera to make views with.
#[derive(Clone, Copy, Debug, PartialEq)]
pub struct Truth {
    /// Focal lengths and optical centre.
    pub k: FxFyCxCy,
    /// The planted tilts.
    pub sensor: ScheimpflugParams,
    /// How far a seen pixel lies beside the true one: standard deviation in pixels, along each axis.
    pub noise: f64,
}

/// The camera that the built-in plate is seen by.
pub const BUILT_IN: Truth = Truth {
    k: FxFyCxCy { fx: 1420.0, fy: 1415.0, cx: 655.0, cy: 470.0 },
    // −1.2° and −0.4°.
    sensor: ScheimpflugParams { tilt_x: -0.020943951023931952, tilt_y: -0.006981317007977318 },
    noise: 0.05,
};

/// What the built-in plate is, in words.
#[must_use]
pub fn built_in_text() -> String {
    let [x, y] = [BUILT_IN.sensor.tilt_x, BUILT_IN.sensor.tilt_y].map(degrees);
    format!("the built-in plate (planted tilts {x}° {y}°, noise {} px)", BUILT_IN.noise)
}

/// Dots along each side of the plate, and the distance between two, in millimetres.
const DOTS: [usize; 2] = [10, 7];
const PITCH: f64 = 20.0;

/// How the plate is held: turned about x, then y, in degrees, and shifted by millimetres.
const HELD: [[f64; 5]; 14] = [
    [0.0, 0.0, 0.0, 0.0, 420.0],
    [32.0, 0.0, 10.0, -8.0, 440.0],
    [-32.0, 4.0, -12.0, 6.0, 440.0],
    [3.0, 34.0, 8.0, 12.0, 430.0],
    [-5.0, -34.0, -9.0, -10.0, 430.0],
    [26.0, 26.0, 14.0, 4.0, 450.0],
    [-26.0, 26.0, -14.0, -6.0, 450.0],
    [26.0, -26.0, 6.0, 14.0, 460.0],
    [-26.0, -26.0, -4.0, -14.0, 460.0],
    [40.0, 12.0, 0.0, 18.0, 470.0],
    [-40.0, -12.0, 12.0, -18.0, 470.0],
    [12.0, 40.0, -18.0, 0.0, 470.0],
    [-12.0, -40.0, 18.0, 4.0, 470.0],
    [18.0, -8.0, 20.0, 20.0, 400.0],
];

impl Truth {
    /// The views of the built-in plate as this camera sees them, the same ones each time.
    pub fn plate(&self) -> Plate {
        self.plate_held(&HELD)
    }

    /// The same through a lens.
    pub fn plate_through(&self, lens: &BrownConrady5) -> Plate {
        self.seen(&HELD, lens)
    }

    /// Views of a plate that is turned about x, then y, in degrees, and shifted by three millimetres' numbers.
    pub fn plate_held(&self, held: &[[f64; 5]]) -> Plate {
        self.seen(held, &BrownConrady5::default())
    }

    fn seen(&self, held: &[[f64; 5]], lens: &BrownConrady5) -> Plate {
        let mut noise = Noise { state: 1 };
        let views = held.iter().map(|held| self.view(held, lens, &mut noise)).collect();
        Plate { centre: Some([self.k.cx, self.k.cy]), views }
    }

    fn view(
        &self,
        &[about_x, about_y, x, y, distance]: &[f64; 5],
        lens: &BrownConrady5,
        noise: &mut Noise,
    ) -> View {
        let turn = rotation(about_x.to_radians(), about_y.to_radians());
        let tilt = geometry::tilt_projection_matrix(trig(self.sensor));
        let mut view = View::default();
        for i in 0..DOTS[0] * DOTS[1] {
            let place = [i % DOTS[0], i / DOTS[0]].map(|index| index as f64 * PITCH);
            let middle = DOTS.map(|dots| 0.5 * (dots - 1) as f64 * PITCH);
            let seen = [x, y, distance];
            let seen = add_scaled(&seen, place[0] - middle[0], &column(&turn, 0));
            let seen = add_scaled(&seen, place[1] - middle[1], &column(&turn, 1));
            let ideal = Pt2 { x: seen[0] / seen[2], y: seen[1] / seen[2] };
            let Pt2 { x: u, y: v } = geometry::apply_homography(tilt, lens.distort(ideal));
            view.board.push(Pt2 { x: place[0], y: place[1] });
            view.pixels.push(Pt2 {
                x: self.k.fx * u + self.k.cx + self.noise * noise.normal(),
                y: self.k.fy * v + self.k.cy + self.noise * noise.normal(),
            });
        }
        view
    }
}

fn rotation(about_x: f64, about_y: f64) -> Matrix3 {
    let ((sx, cx), (sy, cy)) = (sine_cosine(about_x), sine_cosine(about_y));
    let about_x = [[1.0, 0.0, 0.0], [0.0, cx, -sx], [0.0, sx, cx]];
    let about_y = [[cy, 0.0, sy], [0.0, 1.0, 0.0], [-sy, 0.0, cy]];
    product(&about_y, &about_x)
}

/// Normal deviates that are the same on each run: SplitMix64, then Box and Muller's transform.
struct Noise {
    state: u64,
}

impl Noise {
    fn uniform(&mut self) -> f64 {
        self.state = self.state.wrapping_add(0x9e37_79b9_7f4a_7c15);
        let mut z = self.state;
        z = (z ^ (z >> 30)).wrapping_mul(0xbf58_476d_1ce4_e5b9);
        z = (z ^ (z >> 27)).wrapping_mul(0x94d0_49bb_1331_11eb);
        ((z ^ (z >> 31)) >> 11) as f64 / (1_u64 << 53) as f64
    }

    fn normal(&mut self) -> f64 {
        let (a, b) = (self.uniform(), self.uniform());
        (-2.0 * logarithm(1.0 - a)).sqrt() * sine_cosine(2.0 * std::f64::consts::PI * b).1
    }
}
