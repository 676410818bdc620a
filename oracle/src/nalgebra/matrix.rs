//! Matrices of three rows: the sum, and a matrix on a vector.

use crate::Vector3;
use std::ops::{Add, Mul};

/// Nine entries, row after row.
#[derive(Clone, Copy, Debug, PartialEq)]
pub struct Matrix3<T> {
    rows: [T; 9],
}

/// A matrix that came from a rotation.
#[derive(Clone, Copy, Debug, PartialEq)]
pub struct Rotation3<T>(pub Matrix3<T>);

impl<T> Matrix3<T> {
    /// The matrix of nine entries, given by rows.
    #[allow(clippy::too_many_arguments)]
    pub const fn new(a: T, b: T, c: T, d: T, e: T, f: T, g: T, h: T, i: T) -> Self {
        Self {
            rows: [a, b, c, d, e, f, g, h, i],
        }
    }

    /// Walks the entries.
    pub fn iter(&self) -> std::slice::Iter<'_, T> {
        self.rows.iter()
    }
}

impl Add for Matrix3<f64> {
    type Output = Self;

    /// The sum by entries.
    fn add(self, b: Self) -> Self {
        Self {
            rows: std::array::from_fn(|at| self.rows[at] + b.rows[at]),
        }
    }
}

impl Mul<Vector3<f64>> for Matrix3<f64> {
    type Output = Vector3<f64>;

    /// Each row's dot with the vector, added x, y, z.
    fn mul(self, v: Vector3<f64>) -> Vector3<f64> {
        let row = |r: usize| self.rows[r] * v.x + self.rows[r + 1] * v.y + self.rows[r + 2] * v.z;
        Vector3::new(row(0), row(3), row(6))
    }
}

impl Mul<Vector3<f64>> for Rotation3<f64> {
    type Output = Vector3<f64>;

    /// The matrix on the vector.
    fn mul(self, v: Vector3<f64>) -> Vector3<f64> {
        self.0 * v
    }
}
