//! Every change that the build makes to a published text, in one table.
//!
//! A text that an edit looks for must stand exactly once in the published file, or the build
//! stops. All edits are found in the unpatched text and may not overlap, so their order is free.
//! Texts to look for are kept as short as being found once allows.

use crate::files::{CORE, GEOMETRY, LINEAR};

/// Why a text is changed.
#[derive(Clone, Copy, Debug, PartialEq, Eq)]
pub enum Purpose {
    /// The library doesn't have the part, or it needs a file that isn't published; nothing compared uses it.
    LeftOut,
    /// The specification has other arithmetic or other inputs than the published lines.
    Arithmetic,
    /// The specification has another rule than the published lines; a search may still be played by theirs.
    Rule,
    /// The host's part of a search (estimates, poses, rows) comes from the case.
    Scripted,
    /// Tells the record of a search what happens, and changes nothing else.
    Observes,
    /// Lets the oracle call private functions.
    Access,
}

/// A change of one text.
pub enum Edit {
    /// `new` in the place of `old`.
    Replace { old: &'static str, new: &'static str },
    /// `new` in the place of everything from `from` up to `until`, which stays.
    Span { from: &'static str, until: &'static str, new: &'static str },
    /// `new` in the place of everything from `from` to the file's end.
    Tail { from: &'static str, new: &'static str },
    /// A child module `access` at the file's end, whose text is this file of our own.
    Child { file: &'static str },
}

/// One listed change.
pub struct Patch {
    pub krate: &'static str,
    pub module: &'static str,
    pub purpose: Purpose,
    pub edit: Edit,
}

/// The specification's derivatives, each sum and product from the left.
const SPECIFIED_JACOBIAN: &str = "\
fn radial_tangential_jacobian<T: RealField>(x: T, y: T, radial: T, d: T, p1: T, p2: T) -> [[T; 2]; 2] {
    let two = || T::from_f64(2.0).unwrap();
    let six = || T::from_f64(6.0).unwrap();
    let (x, y, p1, p2) = (|| x.clone(), || y.clone(), || p1.clone(), || p2.clone());
    let (radial, d) = (|| radial.clone(), || d.clone());
    let xx = radial() + two() * x() * x() * d() + two() * p1() * y() + six() * p2() * x();
    let cross = || two() * x() * y() * d() + two() * p1() * x() + two() * p2() * y();
    let yy = radial() + two() * y() * y() * d() + six() * p1() * y() + two() * p2() * x();
    [[xx, cross()], [cross(), yy]]
}

";

/// The specification's radial factor and tangential parts, each sum and product from the left.
const SPECIFIED_TERMS: &str = "\
fn brown_conrady_terms<T: RealField>(x: &T, y: &T, k: [&T; 3], p1: &T, p2: &T) -> (T, T, T, T) {
    let two = || T::from_f64(2.0).unwrap();
    let [k1, k2, k3] = k.map(|k| || k.clone());
    let (x, y, p1, p2) = (|| x.clone(), || y.clone(), || p1.clone(), || p2.clone());
    let r2 = x() * x() + y() * y();
    let r4 = r2.clone() * r2.clone();
    let r6 = r4.clone() * r2.clone();
    let radial = T::one() + k1() * r2.clone() + k2() * r4 + k3() * r6;
    let x_tan = two() * p1() * x() * y() + p2() * (r2.clone() + two() * x() * x());
    let y_tan = p1() * (r2.clone() + two() * y() * y()) + two() * p2() * x() * y();
    (radial, x_tan, y_tan, r2)
}

";

/// The case's decomposition seeds, through the published merging.
const SCRIPTED_DECOMPOSITION: &str = "\
fn homography_decomposition_seeds(
    _dataset: &PlanarDataset,
    _opts: &ScheimpflugIntrinsicsInitOptions,
) -> Result<Vec<CandidateSeed>, Error> {
    let mut out = Vec::new();
    for numbers in crate::script::decomposition() {
        let seed = access::candidate_seed(numbers);
        push_candidate_seed(&mut out, seed.reference_k, seed.sensor);
    }
    Ok(out)
}

";

pub const PATCHES: &[Patch] = &[
    // core/lib.rs: the pinhole camera's type and constructor are taken, the crate's surface isn't.
    Patch {
        krate: CORE,
        module: "pinhole_camera",
        purpose: Purpose::LeftOut,
        edit: Edit::Span {
            from: "//! Core math and geometry",
            until: "/// Concrete pinhole camera with",
            new: "use crate::*;\n\n",
        },
    },
    Patch {
        krate: CORE,
        module: "pinhole_camera",
        purpose: Purpose::LeftOut,
        edit: Edit::Tail { from: "/// Convert a concrete [`PinholeCamera`]", new: "" },
    },
    // core/linalg.rs: `normalize_points_2d` is taken; the decompositions need nalgebra itself.
    Patch {
        krate: CORE,
        module: "linalg",
        purpose: Purpose::LeftOut,
        edit: Edit::Span {
            from: "use nalgebra::",
            until: "/// Errors returned by the fallible",
            new: "",
        },
    },
    Patch {
        krate: CORE,
        module: "linalg",
        purpose: Purpose::LeftOut,
        edit: Edit::Tail { from: "/// Hartley normalization for 3D points.", new: "" },
    },
    // core/math/mod.rs names a file that isn't published.
    Patch {
        krate: CORE,
        module: "math",
        purpose: Purpose::LeftOut,
        edit: Edit::Span { from: "mod coordinate_utils;", until: "/// Scalar type used", new: "" },
    },
    // core/models/sensor.rs: sine and cosine of each tilt are given instead of the angles.
    Patch {
        krate: CORE,
        module: "sensor",
        purpose: Purpose::Arithmetic,
        edit: Edit::Replace {
            old: "tilt_projection_matrix(self.tilt_x, self.tilt_y);",
            new: "crate::given_tilt::current().matrix();",
        },
    },
    Patch {
        krate: CORE,
        module: "sensor",
        purpose: Purpose::Arithmetic,
        edit: Edit::Replace {
            old: "(tau_x: T, tau_y: T)",
            new: "(s_tx: T, c_tx: T, s_ty: T, c_ty: T)",
        },
    },
    Patch {
        krate: CORE,
        module: "sensor",
        purpose: Purpose::Arithmetic,
        edit: Edit::Span {
            from: "    let s_tx = tau_x",
            until: "    let zero = T::zero();",
            new: "",
        },
    },
    // The optimizer's sensor model works from angles; the search compiles the tilt instead.
    Patch {
        krate: CORE,
        module: "sensor",
        purpose: Purpose::LeftOut,
        edit: Edit::Span {
            from: "impl<T: RealField> SensorModel<T> for ScheimpflugParams<T>",
            until: "/// `H·[p, 1]` dehomogenized",
            new: "",
        },
    },
    // core/models/distortion.rs: the specification's lines for two functions.
    Patch {
        krate: CORE,
        module: "distortion",
        purpose: Purpose::Arithmetic,
        edit: Edit::Span {
            from: "fn radial_tangential_jacobian",
            until: "/// Brown-Conrady radial and tangential terms",
            new: SPECIFIED_JACOBIAN,
        },
    },
    Patch {
        krate: CORE,
        module: "distortion",
        purpose: Purpose::Arithmetic,
        edit: Edit::Span {
            from: "fn brown_conrady_terms",
            until: "/// Brown-Conrady 5-parameter",
            new: SPECIFIED_TERMS,
        },
    },
    Patch {
        krate: CORE,
        module: "distortion",
        purpose: Purpose::Access,
        edit: Edit::Child { file: "distortion_access.rs" },
    },
    Patch {
        krate: CORE,
        module: "distortion_as_published",
        purpose: Purpose::Access,
        edit: Edit::Child { file: "distortion_access.rs" },
    },
    // geometry/homography.rs: `hypot` as the root of the sum of squares, and the rows instead of what follows them.
    Patch {
        krate: GEOMETRY,
        module: "homography",
        purpose: Purpose::Arithmetic,
        edit: Edit::Replace {
            old: "(p2.x - p0.x).hypot(p2.y - p0.y)",
            new: "f64::sqrt((p2.x - p0.x) * (p2.x - p0.x) + (p2.y - p0.y) * (p2.y - p0.y))",
        },
    },
    Patch {
        krate: GEOMETRY,
        module: "homography",
        purpose: Purpose::LeftOut,
        edit: Edit::Replace {
            old: "mat3_from_vec, normalize_points_2d, null_space",
            new: "normalize_points_2d",
        },
    },
    Patch {
        krate: GEOMETRY,
        module: "homography",
        purpose: Purpose::Arithmetic,
        edit: Edit::Replace { old: "Result<Mat3>", new: "Result<DMatrix<f64>>" },
    },
    Patch {
        krate: GEOMETRY,
        module: "homography",
        purpose: Purpose::Arithmetic,
        edit: Edit::Tail { from: "    // Solve `A h = 0` via", new: "    Ok(a)\n}\n" },
    },
    Patch {
        krate: GEOMETRY,
        module: "homography",
        purpose: Purpose::Access,
        edit: Edit::Child { file: "homography_access.rs" },
    },
    // linear/zhang_intrinsics.rs: from the six numbers b on.
    Patch {
        krate: LINEAR,
        module: "zhang_intrinsics",
        purpose: Purpose::LeftOut,
        edit: Edit::Span {
            from: "/// Build the 6-vector v_ij(H)",
            until: "/// High-level linear initialisation",
            new: "",
        },
    },
    Patch {
        krate: LINEAR,
        module: "zhang_intrinsics",
        purpose: Purpose::LeftOut,
        edit: Edit::Span {
            from: "/// Estimate camera intrinsics `K` from a set",
            until: "impl PlanarIntrinsicsLinearInit {",
            new: "",
        },
    },
    Patch {
        krate: LINEAR,
        module: "zhang_intrinsics",
        purpose: Purpose::Arithmetic,
        edit: Edit::Span {
            from: "    pub fn from_homographies(",
            until: "        let b11 = b[0];",
            new: "    pub fn from_homographies(b: &[Real; 6]) -> Result<FxFyCxCy<Real>, Error> {\n",
        },
    },
    Patch {
        krate: LINEAR,
        module: "zhang_intrinsics",
        purpose: Purpose::Arithmetic,
        edit: Edit::Replace { old: "views: m,", new: "views: 0," },
    },
    // linear/scheimpflug_init.rs: what the left-out files and decompositions need.
    Patch {
        krate: LINEAR,
        module: "scheimpflug_init",
        purpose: Purpose::LeftOut,
        edit: Edit::Replace { old: "    planar_pose::estimate_planar_pose_from_h,\n", new: "" },
    },
    Patch {
        krate: LINEAR,
        module: "scheimpflug_init",
        purpose: Purpose::LeftOut,
        edit: Edit::Span { from: "use nalgebra::", until: "use serde::", new: "" },
    },
    Patch {
        krate: LINEAR,
        module: "scheimpflug_init",
        purpose: Purpose::LeftOut,
        edit: Edit::Replace { old: "use vision_calibration_core::linalg::null_space;\n", new: "" },
    },
    // The host's part. `estimate_intrinsics_iterative` is scripted in the stand-in for its file.
    Patch {
        krate: LINEAR,
        module: "scheimpflug_init",
        purpose: Purpose::Scripted,
        edit: Edit::Replace {
            old: "= observed_pixel_center(dataset);",
            new: "= crate::script::observed_center();",
        },
    },
    Patch {
        krate: LINEAR,
        module: "scheimpflug_init",
        purpose: Purpose::Scripted,
        edit: Edit::Span {
            from: "fn homography_decomposition_seeds(",
            until: "fn evaluate_candidate(",
            new: SCRIPTED_DECOMPOSITION,
        },
    },
    Patch {
        krate: LINEAR,
        module: "scheimpflug_init",
        purpose: Purpose::Scripted,
        edit: Edit::Replace {
            old: "for seed in search.drain(..) {",
            new: "for seed in search.drain(..) {\n            crate::script::hand_out(access::numbers(&seed));",
        },
    },
    Patch {
        krate: LINEAR,
        module: "scheimpflug_init",
        purpose: Purpose::Scripted,
        edit: Edit::Span {
            from: "    let ideal = ideal_dataset(",
            until: "fn ideal_dataset(",
            new: "    Ok(crate::script::poses())\n}\n\n",
        },
    },
    Patch {
        krate: LINEAR,
        module: "scheimpflug_init",
        purpose: Purpose::Scripted,
        edit: Edit::Replace {
            old: "mean_reproj_error(dataset, &camera, sensor, &poses);",
            new: "mean_reproj_error(&crate::script::rows(), &camera, sensor, &poses);",
        },
    },
    // A candidate whose score isn't a number is skipped.
    Patch {
        krate: LINEAR,
        module: "scheimpflug_init",
        purpose: Purpose::Rule,
        edit: Edit::Replace {
            old: "    Ok(Candidate {\n        init:",
            new: "    if crate::script::loses(score) {\n        return Err(Error::numerical(\"the score isn't a number\"));\n    }\n    Ok(Candidate {\n        init:",
        },
    },
    // Candidate numbers and the reasons of skips, which the published search doesn't keep.
    Patch {
        krate: LINEAR,
        module: "scheimpflug_init",
        purpose: Purpose::Observes,
        edit: Edit::Replace {
            old: "    init: ScheimpflugIntrinsicsLinearInit,\n",
            new: "    init: ScheimpflugIntrinsicsLinearInit,\n    number: usize,\n",
        },
    },
    Patch {
        krate: LINEAR,
        module: "scheimpflug_init",
        purpose: Purpose::Observes,
        edit: Edit::Replace {
            old: "        score,\n    })",
            new: "        score,\n        number: crate::script::scored(score),\n    })",
        },
    },
    Patch {
        krate: LINEAR,
        module: "scheimpflug_init",
        purpose: Purpose::Observes,
        edit: Edit::Replace {
            old: "validate_camera(&camera)?;",
            new: "validate_camera(&camera).inspect_err(|_| crate::script::bad_camera())?;",
        },
    },
    Patch {
        krate: LINEAR,
        module: "scheimpflug_init",
        purpose: Purpose::Observes,
        edit: Edit::Replace {
            old: "    if !mean_reproj_error.is_finite() {",
            new: "    if !mean_reproj_error.is_finite() {\n        crate::script::bad_mean();",
        },
    },
    Patch {
        krate: LINEAR,
        module: "scheimpflug_init",
        purpose: Purpose::Observes,
        edit: Edit::Replace {
            old: ".map(|candidate| candidate.init)",
            new: ".inspect(|best| crate::script::won(best.number, best.score))\n        .map(|candidate| candidate.init)",
        },
    },
    // Zeros of two signs: the first is kept. `f64::min` and `f64::max` may return either.
    Patch {
        krate: LINEAR,
        module: "scheimpflug_init",
        purpose: Purpose::Arithmetic,
        edit: Edit::Replace { old: "min_x.min(p.x)", new: "crate::first_kept::min(min_x, p.x)" },
    },
    Patch {
        krate: LINEAR,
        module: "scheimpflug_init",
        purpose: Purpose::Arithmetic,
        edit: Edit::Replace { old: "min_y.min(p.y)", new: "crate::first_kept::min(min_y, p.y)" },
    },
    Patch {
        krate: LINEAR,
        module: "scheimpflug_init",
        purpose: Purpose::Arithmetic,
        edit: Edit::Replace { old: "max_x.max(p.x)", new: "crate::first_kept::max(max_x, p.x)" },
    },
    Patch {
        krate: LINEAR,
        module: "scheimpflug_init",
        purpose: Purpose::Arithmetic,
        edit: Edit::Replace { old: "max_y.max(p.y)", new: "crate::first_kept::max(max_y, p.y)" },
    },
    Patch {
        krate: LINEAR,
        module: "scheimpflug_init",
        purpose: Purpose::Access,
        edit: Edit::Child { file: "scheimpflug_access.rs" },
    },
];
