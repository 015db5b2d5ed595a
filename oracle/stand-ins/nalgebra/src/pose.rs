//! The pose of a board. Poses are the host's and come to the search as ideal points, so the one
//! pose needed is the identity, which moves no point and rounds nothing.

use crate::Point3;
use std::marker::PhantomData;

#[derive(Clone, Copy, Debug)]
pub struct Isometry3<T> {
    scalar: PhantomData<T>,
}

impl<T: Clone> Isometry3<T> {
    pub fn identity() -> Self {
        Self { scalar: PhantomData }
    }

    pub fn transform_point(&self, point: &Point3<T>) -> Point3<T> {
        point.clone()
    }
}
