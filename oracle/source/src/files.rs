//! The published files that the oracle compiles: calibration-rs, commit 1c21d7f0aa, licence MIT.
//! The build stops unless each has the SHA-256 recorded here.

/// One published file and the modules made from it.
pub struct PublishedFile {
    /// The crate that it belongs to.
    pub krate: &'static str,
    /// Its path below that crate's `src`.
    pub path: &'static str,
    /// Its SHA-256.
    pub sha256: &'static str,
    /// The modules compiled from it, each with a patched text of its own.
    pub modules: &'static [&'static str],
}

pub const CORE: &str = "vision-calibration-core";
pub const GEOMETRY: &str = "vision-geometry";
pub const LINEAR: &str = "vision-calibration-linear";

/// Every file that is compiled. The distortion models are compiled twice: with the
/// specification's lines, which give the answers, and as published, which show the difference.
pub const FILES: &[PublishedFile] = &[
    PublishedFile {
        krate: CORE,
        path: "error.rs",
        sha256: "db37e9735142fb875101fa9b7bd2dc4073c5ece02a4b58a4ea6be926b3a41871",
        modules: &["error"],
    },
    PublishedFile {
        krate: CORE,
        path: "lib.rs",
        sha256: "93139ca6bab7006920c488de83a01d0121412120778fb3767db16e7a3c595489",
        modules: &["pinhole_camera"],
    },
    PublishedFile {
        krate: CORE,
        path: "linalg.rs",
        sha256: "0f091ad07dec206a38e3af9d905bf09b48913ec862059378c4703d97791fdf9c",
        modules: &["linalg"],
    },
    PublishedFile {
        krate: CORE,
        path: "math/mod.rs",
        sha256: "def22194679ee79b82883a9369d30248c42adb954fd8177cc51342067c1ee6b5",
        modules: &["math"],
    },
    PublishedFile {
        krate: CORE,
        path: "models/camera.rs",
        sha256: "b08e1d53682e93683c5952157dcc8ca5ef2dd0f1299e9a1a15da7f7b1c199fa9",
        modules: &["camera"],
    },
    PublishedFile {
        krate: CORE,
        path: "models/distortion.rs",
        sha256: "2588181c63e57e2803c478a4c76ef9f2d9923d284fc915cd2469e941b1ca80d9",
        modules: &["distortion", "distortion_as_published"],
    },
    PublishedFile {
        krate: CORE,
        path: "models/intrinsics.rs",
        sha256: "3721fbca5acf9b10ae68bec850d0d2b67ada8319256e58a59f31fcac6de554b8",
        modules: &["intrinsics"],
    },
    PublishedFile {
        krate: CORE,
        path: "models/projection.rs",
        sha256: "a30a3fd07aa292dee7844f279d99ee197d1a1fdd7cf60b526c1d19270c088754",
        modules: &["projection"],
    },
    PublishedFile {
        krate: CORE,
        path: "models/sensor.rs",
        sha256: "28cc8ea0449884a377f48116e06fa30aed68dd7992d9ceed2c2872826cfe71d3",
        modules: &["sensor"],
    },
    PublishedFile {
        krate: CORE,
        path: "types/observation.rs",
        sha256: "da5a1bc409aee4bfbc2b5b5d00478e2ac064c036dfb9c7bd49fde070e4e52da3",
        modules: &["observation"],
    },
    PublishedFile {
        krate: CORE,
        path: "view.rs",
        sha256: "5b0c0ef6da1a85821c3e37f32ad95f496c7d19dbe72e261b3aeadeb36c272d0a",
        modules: &["view"],
    },
    PublishedFile {
        krate: GEOMETRY,
        path: "error.rs",
        sha256: "c95fbf2a6fb5ec129758075bd916f41e55edd8ea898559e1ddf87c6a05c6133d",
        modules: &["error"],
    },
    PublishedFile {
        krate: GEOMETRY,
        path: "homography.rs",
        sha256: "3b5820ae8f9f2dabb8020a874a4b6104eb8bc81435271a515fb2dacc9ea41ef4",
        modules: &["homography"],
    },
    PublishedFile {
        krate: GEOMETRY,
        path: "math.rs",
        sha256: "0858c126ab8739a1ca4c4d817cc7ed5d6b69b682ae50ef4fbf36b233578a1618",
        modules: &["math"],
    },
    PublishedFile {
        krate: LINEAR,
        path: "error.rs",
        sha256: "ae669126796f8515b71588ef01b6b25546be59c2b327d271ec1594ccc70bcbd9",
        modules: &["error"],
    },
    PublishedFile {
        krate: LINEAR,
        path: "scheimpflug_init.rs",
        sha256: "79c269f54ef25efcb0784ecd2f23754061578ba74836a52e40948f34ca287329",
        modules: &["scheimpflug_init"],
    },
    PublishedFile {
        krate: LINEAR,
        path: "zhang_intrinsics.rs",
        sha256: "58957b5a42a5eca6213e356e2da7e0aa3595da0db8384faefc24cec3912436b5",
        modules: &["zhang_intrinsics"],
    },
];
