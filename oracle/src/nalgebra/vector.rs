//! Vectors of three doubles: sums, products by a number, cross and dot.

use std::ops::{Add, Index, Mul};

/// Three components in memory order x, y, z.
#[repr(C)]
#[derive(Clone, Copy, Debug, PartialEq)]
pub struct Vector3<T> {
    pub x: T,
    pub y: T,
    pub z: T,
}

/// A value that its maker calls a unit; nothing is normalised here.
#[derive(Clone, Copy, Debug, PartialEq)]
pub struct Unit<T>(pub T);

impl<T> AsRef<T> for Unit<T> {
    /// The value itself.
    fn as_ref(&self) -> &T {
        &self.0
    }
}

impl<T> Vector3<T> {
    /// The vector of three components.
    pub const fn new(x: T, y: T, z: T) -> Self {
        Self { x, y, z }
    }

    /// The components in order, as a slice.
    pub fn as_slice(&self) -> &[T] {
        // Sound: repr(C) lays three fields of one type out as an array of three.
        unsafe { std::slice::from_raw_parts((self as *const Self).cast::<T>(), 3) }
    }

    /// Walks the components in order.
    pub fn iter(&self) -> std::slice::Iter<'_, T> {
        self.as_slice().iter()
    }
}

impl Vector3<f64> {
    /// Three positive zeros.
    pub const fn zeros() -> Self {
        Self::new(0.0, 0.0, 0.0)
    }

    /// The cross product, one component after the other.
    pub fn cross(&self, b: &Self) -> Self {
        Self::new(
            self.y * b.z - self.z * b.y,
            self.z * b.x - self.x * b.z,
            self.x * b.y - self.y * b.x,
        )
    }

    /// The dot product, added x, y, z.
    pub fn dot(&self, b: &Self) -> f64 {
        self.x * b.x + self.y * b.y + self.z * b.z
    }
}

impl Add for Vector3<f64> {
    type Output = Self;

    /// The sum by components.
    fn add(self, b: Self) -> Self {
        Self::new(self.x + b.x, self.y + b.y, self.z + b.z)
    }
}

impl Mul<Vector3<f64>> for f64 {
    type Output = Vector3<f64>;

    /// A number times a vector.
    fn mul(self, v: Vector3<f64>) -> Vector3<f64> {
        Vector3::new(self * v.x, self * v.y, self * v.z)
    }
}

impl Mul<&Vector3<f64>> for f64 {
    type Output = Vector3<f64>;

    /// A number times a lent vector.
    fn mul(self, v: &Vector3<f64>) -> Vector3<f64> {
        self * *v
    }
}

impl<T> Index<usize> for Vector3<T> {
    type Output = T;

    /// A component by its number.
    fn index(&self, at: usize) -> &T {
        &self.as_slice()[at]
    }
}
