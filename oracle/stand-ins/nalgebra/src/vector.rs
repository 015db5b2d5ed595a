//! Vectors and points of two and three coordinates.

use crate::RealField;
use std::ops::{Add, Deref, Mul, Sub};

#[derive(Clone, Copy, Debug, PartialEq)]
pub struct Vector2<T> {
    pub x: T,
    pub y: T,
}

impl<T> Vector2<T> {
    pub fn iter(&self) -> impl Iterator<Item = &T> {
        [&self.x, &self.y].into_iter()
    }
}

impl<T: RealField> Vector2<T> {
    /// The root of x·x + y·y.
    pub fn norm(&self) -> T {
        (self.x.clone() * self.x.clone() + self.y.clone() * self.y.clone()).sqrt()
    }
}

#[derive(Clone, Copy, Debug, PartialEq)]
pub struct Vector3<T> {
    pub x: T,
    pub y: T,
    pub z: T,
}

impl<T: RealField> Vector3<T> {
    pub fn new(x: T, y: T, z: T) -> Self {
        Self { x, y, z }
    }

    pub fn zeros() -> Self {
        Self::new(T::zero(), T::zero(), T::zero())
    }
}

impl<T: RealField> Add<Vector3<T>> for &Vector3<T> {
    type Output = Vector3<T>;

    fn add(self, other: Vector3<T>) -> Vector3<T> {
        Vector3::new(self.x.clone() + other.x, self.y.clone() + other.y, self.z.clone() + other.z)
    }
}

impl<T: RealField> Mul<T> for &Vector3<T> {
    type Output = Vector3<T>;

    fn mul(self, s: T) -> Vector3<T> {
        Vector3::new(self.x.clone() * s.clone(), self.y.clone() * s.clone(), self.z.clone() * s)
    }
}

/// A point, whose coordinates are also its fields x and y.
#[derive(Clone, Copy, Debug, PartialEq)]
pub struct Point2<T> {
    pub coords: Vector2<T>,
}

impl<T> Point2<T> {
    pub fn new(x: T, y: T) -> Self {
        Self { coords: Vector2 { x, y } }
    }
}

impl<T> Deref for Point2<T> {
    type Target = Vector2<T>;

    fn deref(&self) -> &Vector2<T> {
        &self.coords
    }
}

impl<T: RealField> Sub for Point2<T> {
    type Output = Vector2<T>;

    fn sub(self, other: Self) -> Vector2<T> {
        Vector2 { x: self.coords.x - other.coords.x, y: self.coords.y - other.coords.y }
    }
}

/// A point, whose coordinates are also its fields x, y and z.
#[derive(Clone, Copy, Debug, PartialEq)]
pub struct Point3<T> {
    pub coords: Vector3<T>,
}

impl<T: RealField> Point3<T> {
    pub fn new(x: T, y: T, z: T) -> Self {
        Self { coords: Vector3::new(x, y, z) }
    }
}

impl<T> Deref for Point3<T> {
    type Target = Vector3<T>;

    fn deref(&self) -> &Vector3<T> {
        &self.coords
    }
}
