//! Quaternions and the rotation they stand for.

use core::ops::{Deref, Index, Mul};

use crate::{Matrix3, Vector3, Vector4};

/// A quaternion, its parts in the order i, j, k, w as nalgebra stores them.
#[derive(Clone, Copy, Debug, PartialEq)]
pub struct Quaternion<T> {
    pub coords: Vector4<T>,
}

/// The names of a quaternion's parts.
#[repr(C)]
pub struct Ijkw<T> {
    pub i: T,
    pub j: T,
    pub k: T,
    pub w: T,
}

impl Quaternion<f32> {
    pub fn new(w: f32, i: f32, j: f32, k: f32) -> Self {
        Self { coords: Vector4::new(i, j, k, w) }
    }

    pub fn imag(&self) -> Vector3<f32> {
        Vector3::new(self.i, self.j, self.k)
    }
}

impl Deref for Quaternion<f32> {
    type Target = Ijkw<f32>;
    fn deref(&self) -> &Ijkw<f32> {
        // Four floats in C layout on both sides.
        unsafe { &*(&raw const self.coords).cast() }
    }
}

/// A quaternion that is taken as a unit. As document 01 has it, nothing makes it one: the
/// parts are what the caller gave.
#[derive(Clone, Copy, Debug, PartialEq)]
pub struct UnitQuaternion<T> {
    quaternion: Quaternion<T>,
}

impl UnitQuaternion<f32> {
    pub fn new_unchecked(quaternion: Quaternion<f32>) -> Self {
        Self { quaternion }
    }

    pub fn identity() -> Self {
        Self::new_unchecked(Quaternion::new(1.0, 0.0, 0.0, 0.0))
    }

    /// The rows of document 01: a square is one product, a mixed term is the product times 2,
    /// and each entry is summed from left to right.
    pub fn to_rotation_matrix(&self) -> Rotation3<f32> {
        let (w, i, j, k) = (self.w, self.i, self.j, self.k);
        let (ww, ii, jj, kk) = (w * w, i * i, j * j, k * k);
        let (ij, wk, wj) = (i * j * 2.0, w * k * 2.0, w * j * 2.0);
        let (ik, jk, wi) = (i * k * 2.0, j * k * 2.0, w * i * 2.0);
        let rows = [
            [ww + ii - jj - kk, ij - wk, wj + ik],
            [wk + ij, ww - ii + jj - kk, jk - wi],
            [ik - wj, wi + jk, ww - ii - jj + kk],
        ];
        Rotation3 { matrix: Matrix3::from_fn(|row, column| rows[row][column]) }
    }

    /// The sources ask for this outside of guidance only.
    pub fn inverse_transform_vector(&self, _v: &Vector3<f32>) -> Vector3<f32> {
        unimplemented!("guidance does not rotate by a quaternion")
    }
}

impl Default for UnitQuaternion<f32> {
    fn default() -> Self {
        Self::identity()
    }
}

impl Deref for UnitQuaternion<f32> {
    type Target = Quaternion<f32>;
    fn deref(&self) -> &Quaternion<f32> {
        &self.quaternion
    }
}

/// The sources ask for this outside of guidance only.
impl Mul<&UnitQuaternion<f32>> for UnitQuaternion<f32> {
    type Output = UnitQuaternion<f32>;
    fn mul(self, _other: &UnitQuaternion<f32>) -> UnitQuaternion<f32> {
        unimplemented!("guidance does not multiply quaternions")
    }
}

/// A rotation in three dimensions, as its matrix.
#[derive(Clone, Copy, Debug, PartialEq)]
pub struct Rotation3<T> {
    matrix: Matrix3<T>,
}

impl Rotation3<f32> {
    pub fn matrix(&self) -> &Matrix3<f32> {
        &self.matrix
    }

    /// The transpose applied to `v`: each component is the dot of a column with `v`.
    pub fn inverse_transform_vector(&self, v: &Vector3<f32>) -> Vector3<f32> {
        self.matrix.tr_mul(v)
    }
}

impl Index<(usize, usize)> for Rotation3<f32> {
    type Output = f32;
    fn index(&self, at: (usize, usize)) -> &f32 {
        &self.matrix[at]
    }
}
