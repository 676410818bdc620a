//! Quaternions and frames: inverse, product, a quaternion on a vector, its matrix.

use crate::{Matrix3, Rotation3, Vector3};
use std::ops::Mul;

/// A rotation's four numbers in the order w, i, j, k.
#[derive(Clone, Copy, Debug, PartialEq)]
pub struct UnitQuaternion<T> {
    pub coords: [T; 4],
}

/// A translation, held as a vector.
#[derive(Clone, Copy, Debug, PartialEq)]
pub struct Translation3<T> {
    pub vector: Vector3<T>,
}

/// A rotation and a translation.
#[derive(Clone, Copy, Debug, PartialEq)]
pub struct Isometry3<T> {
    pub rotation: UnitQuaternion<T>,
    pub translation: Translation3<T>,
}

impl UnitQuaternion<f64> {
    /// The same quaternion with i, j and k negated.
    pub fn inverse(&self) -> Self {
        let [w, i, j, k] = self.coords;
        Self {
            coords: [w, -i, -j, -k],
        }
    }

    /// The rotation's matrix; each mixed product is multiplied, then doubled.
    pub fn to_rotation_matrix(&self) -> Rotation3<f64> {
        let [w, i, j, k] = self.coords;
        let (ww, ii, jj, kk) = (w * w, i * i, j * j, k * k);
        let (ij, wk, wj) = (i * j * 2.0, w * k * 2.0, w * j * 2.0);
        let (ik, jk, wi) = (i * k * 2.0, j * k * 2.0, w * i * 2.0);
        Rotation3(Matrix3::new(
            ww + ii - jj - kk,
            ij - wk,
            wj + ik,
            wk + ij,
            ww - ii + jj - kk,
            jk - wi,
            ik - wj,
            wi + jk,
            ww - ii - jj + kk,
        ))
    }
}

impl Mul for UnitQuaternion<f64> {
    type Output = Self;

    /// The quaternion product.
    fn mul(self, b: Self) -> Self {
        let [w, i, j, k] = self.coords;
        let [bw, bi, bj, bk] = b.coords;
        Self {
            coords: [
                w * bw - i * bi - j * bj - k * bk,
                w * bi + i * bw + j * bk - k * bj,
                w * bj - i * bk + j * bw + k * bi,
                w * bk + i * bj - j * bi + k * bw,
            ],
        }
    }
}

impl Mul<Vector3<f64>> for UnitQuaternion<f64> {
    type Output = Vector3<f64>;

    /// The rotated vector: t w + u×t + v, where t is twice u×v.
    fn mul(self, v: Vector3<f64>) -> Vector3<f64> {
        let [w, i, j, k] = self.coords;
        let u = Vector3::new(i, j, k);
        let t = 2.0 * u.cross(&v);
        w * t + u.cross(&t) + v
    }
}
