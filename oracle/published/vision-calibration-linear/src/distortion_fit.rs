//! Stand-in for the left-out file of this name: its options, which nothing reads here.

/// The options' names and types, as the published search fills them in.
#[derive(Debug, Clone, Copy)]
pub struct DistortionFitOptions {
    pub fix_tangential: bool,
    pub fix_k3: bool,
    pub iters: u32,
}
