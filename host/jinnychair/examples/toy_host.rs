//! A whole search with a host of a few lines: a plate is seen by a camera with a known tilt, and the host knows all but the tilt.

use jinnychair::*;

const K: FxFyCxCy = FxFyCxCy { fx: 1400.0, fy: 1400.0, cx: 640.0, cy: 480.0 };
const PLANTED: ScheimpflugParams = ScheimpflugParams { tilt_x: -0.021, tilt_y: 0.007 };

/// Where the tilted sensor sees an ideal point.
fn seen(planted: TiltTrig, ideal: Pt2) -> Pt2 {
    let tilt = geometry::tilt_projection_matrix(planted);
    K.sensor_to_pixel(geometry::apply_homography(tilt, ideal))
}

fn main() -> Result<(), Box<dyn std::error::Error>> {
    let dots =
        (0..35).map(|i| Pt2 { x: 0.05 * f64::from(i % 7 - 3), y: 0.05 * f64::from(i / 7 - 2) });
    let planted = TiltTrig::try_from(PLANTED)?;
    let row = |p| [p, seen(planted, p)].map(|p: Pt2| [p.x, p.y]).concat();
    let rows: Vec<f64> = dots.flat_map(row).collect();
    let flags = vec![1; rows.len() / 4];

    let mut options = Options::default();
    options.refine_rounds = 8;
    let center = Pt2 { x: K.cx, y: K.cy };
    let inputs = Inputs { views: 3, options: &options, decomposition: &[], base: K, center };
    let mut search = Search::start(&inputs)?;
    let mut skipped = 0;
    let winner = search.run_watched(
        |_| {
            let camera = PinholeCamera { k: K, dist: BrownConrady5::default() };
            let (rows, flags) = (rows.clone(), flags.clone());
            Some(Solution { camera, rows, flags })
        },
        |tried| skipped += usize::from(tried.outcome.score().is_none()),
    )?;
    let ScheimpflugParams { tilt_x, tilt_y } = winner.sensor;
    println!("{} tilts tried, {skipped} skipped", search.answered());
    println!(
        "no. {} won: {tilt_x:+.4} {tilt_y:+.4}, {:.3} px",
        winner.number, winner.mean_reproj_error
    );
    assert!((tilt_x - PLANTED.tilt_x).hypot(tilt_y - PLANTED.tilt_y) < 0.0005);
    Ok(())
}
