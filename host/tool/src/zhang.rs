//! A camera from the homographies of its views (Zhang 2000): each view gives two linear equations
//! for the conic B = K⁻ᵀ·K⁻¹, since the plate's axes are orthogonal and of one length.

use crate::linear::{Matrix3, column, dot, least_squares_2, nearly_cancelled, product};
use jinnychair::FxFyCxCy;
use jinnychair::geometry::{Conic, conic_to_camera};

/// Pixels seen from a given centre, in units that make the numbers near 1.
#[derive(Clone, Copy, Debug)]
pub struct Frame {
    centre: [f64; 2],
    unit: f64,
}

impl Frame {
    /// A frame around a centre. The unit should be about the image's size.
    pub fn new(centre: [f64; 2], unit: f64) -> Self {
        Self { centre, unit }
    }

    /// A homography to pixels as one to this frame. All get the same weight in the equations.
    fn enter(&self, h: &Matrix3) -> Matrix3 {
        let s = 1.0 / self.unit;
        let [x, y] = self.centre;
        let h = product(&[[s, 0.0, -s * x], [0.0, s, -s * y], [0.0, 0.0, 1.0]], h);
        let size =
            (dot(&column(&h, 0), &column(&h, 0)) + dot(&column(&h, 1), &column(&h, 1))).sqrt();
        h.map(|row| row.map(|entry| entry / size))
    }

    fn leave(&self, k: FxFyCxCy) -> FxFyCxCy {
        let [x, y] = self.centre;
        let s = self.unit;
        FxFyCxCy { fx: s * k.fx, fy: s * k.fy, cx: s * k.cx + x, cy: s * k.cy + y }
    }
}

/// A view's two equations for B11, B12, B22, B13, B23, B33.
fn equations(h: &Matrix3) -> [[f64; 6]; 2] {
    let products = |i: usize, j: usize| {
        let (a, b) = (column(h, i), column(h, j));
        [
            a[0] * b[0],
            a[0] * b[1] + a[1] * b[0],
            a[1] * b[1],
            a[2] * b[0] + a[0] * b[2],
            a[2] * b[1] + a[1] * b[2],
            a[2] * b[2],
        ]
    };
    let (first, second) = (products(0, 0), products(1, 1));
    [products(0, 1), std::array::from_fn(|i| first[i] - second[i])]
}

/// Focal lengths and centre, all free.
pub fn camera(homographies: &[Matrix3], frame: Frame) -> Option<FxFyCxCy> {
    let rows: Vec<_> = homographies.iter().flat_map(|h| equations(&frame.enter(h))).collect();
    let [b11, b12, b22, b13, b23, b33] = nearly_cancelled(&rows);
    let k = conic_to_camera(Conic { b11, b12, b22, b13, b23, b33 }).ok()?;
    Some(frame.leave(k))
}

/// Focal lengths with the centre held at the frame's. B is then the diagonal 1/fx², 1/fy², 1.
pub fn camera_with_held_centre(homographies: &[Matrix3], frame: Frame) -> Option<FxFyCxCy> {
    let views = homographies.iter().flat_map(|h| equations(&frame.enter(h)));
    let rows: Vec<_> = views.map(|row| [row[0], row[2], -row[5]]).collect();
    let [b11, b22] = least_squares_2(&rows)?;
    let is_camera = b11 > 0.0 && b22 > 0.0;
    let k = FxFyCxCy { fx: 1.0 / b11.sqrt(), fy: 1.0 / b22.sqrt(), cx: 0.0, cy: 0.0 };
    is_camera.then(|| frame.leave(k))
}
