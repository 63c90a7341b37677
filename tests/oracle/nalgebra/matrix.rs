//! Vectors and matrices of a fixed size. A vector is a matrix of one column.

use core::fmt;
use core::ops::{Add, AddAssign, Deref, Div, Index, IndexMut, Mul, Neg, Sub, SubAssign};

/// A matrix of `R` rows and `C` columns, kept column by column.
#[derive(Clone, Copy, PartialEq)]
#[repr(transparent)]
pub struct SMatrix<T, const R: usize, const C: usize> {
    columns: [[T; R]; C],
}

pub type SVector<T, const D: usize> = SMatrix<T, D, 1>;
pub type Vector2<T> = SVector<T, 2>;
pub type Vector3<T> = SVector<T, 3>;
pub type Vector4<T> = SVector<T, 4>;
pub type Matrix2<T> = SMatrix<T, 2, 2>;
pub type Matrix3<T> = SMatrix<T, 3, 3>;

impl SMatrix<f32, 2, 1> {
    pub fn new(x: f32, y: f32) -> Self {
        Self { columns: [[x, y]] }
    }
}

impl SMatrix<f32, 3, 1> {
    pub fn new(x: f32, y: f32, z: f32) -> Self {
        Self { columns: [[x, y, z]] }
    }

    /// The first two components.
    pub fn xy(&self) -> Vector2<f32> {
        Vector2::new(self[0], self[1])
    }
}

impl SMatrix<f32, 4, 1> {
    pub fn new(x: f32, y: f32, z: f32, w: f32) -> Self {
        Self { columns: [[x, y, z, w]] }
    }
}

impl<const R: usize, const C: usize> SMatrix<f32, R, C> {
    /// The matrix whose entry at each row and column is `entry(row, column)`.
    pub fn from_fn(mut entry: impl FnMut(usize, usize) -> f32) -> Self {
        let mut matrix = Self::repeat(0.0);
        for column in 0..C {
            for row in 0..R {
                matrix.columns[column][row] = entry(row, column);
            }
        }
        matrix
    }

    pub fn repeat(value: f32) -> Self {
        Self { columns: [[value; R]; C] }
    }

    pub fn zeros() -> Self {
        Self::repeat(0.0)
    }

    pub fn map(&self, f: impl Fn(f32) -> f32) -> Self {
        Self::from_fn(|row, column| f(self[(row, column)]))
    }

    pub fn iter(&self) -> core::slice::Iter<'_, f32> {
        self.columns.as_flattened().iter()
    }

    pub fn transpose(&self) -> SMatrix<f32, C, R> {
        SMatrix::from_fn(|row, column| self[(column, row)])
    }

    pub fn column(&self, column: usize) -> SVector<f32, R> {
        SVector { columns: [self.columns[column]] }
    }

    /// The product of the transpose with `other`: each entry is the dot of two columns.
    pub fn tr_mul<const K: usize>(&self, other: &SMatrix<f32, R, K>) -> SMatrix<f32, C, K> {
        SMatrix::from_fn(|row, column| self.column(row).dot(&other.column(column)))
    }
}

impl<const D: usize> SMatrix<f32, D, D> {
    pub fn identity() -> Self {
        Self::from_fn(|row, column| if row == column { 1.0 } else { 0.0 })
    }
}

impl<const D: usize> SMatrix<f32, D, 1> {
    /// The sum of the products, from the first component to the last.
    pub fn dot(&self, other: &Self) -> f32 {
        sum_of_products::<D>(|i| self[i], |i| other[i])
    }

    pub fn norm(&self) -> f32 {
        libm::sqrtf(self.dot(self))
    }

    /// The direction, or none for a vector no longer than `min_norm`. Guidance never asks for it.
    pub fn try_normalize(&self, min_norm: f32) -> Option<Self> {
        let norm = self.norm();
        (norm > min_norm).then(|| *self / norm)
    }
}

/// `a(0) * b(0) + a(1) * b(1) + ..`, summed from left to right, each operation rounded once.
fn sum_of_products<const D: usize>(a: impl Fn(usize) -> f32, b: impl Fn(usize) -> f32) -> f32 {
    let mut sum = a(0) * b(0);
    for i in 1..D {
        sum += a(i) * b(i);
    }
    sum
}

/// The columns, as nalgebra shows them.
impl<T: fmt::Debug, const R: usize, const C: usize> fmt::Debug for SMatrix<T, R, C> {
    fn fmt(&self, f: &mut fmt::Formatter<'_>) -> fmt::Result {
        self.columns.fmt(f)
    }
}

impl<const R: usize, const C: usize> Default for SMatrix<f32, R, C> {
    fn default() -> Self {
        Self::zeros()
    }
}

impl<const R: usize, const C: usize> Index<usize> for SMatrix<f32, R, C> {
    type Output = f32;
    fn index(&self, i: usize) -> &f32 {
        &self.columns[i / R][i % R]
    }
}

impl<const R: usize, const C: usize> Index<(usize, usize)> for SMatrix<f32, R, C> {
    type Output = f32;
    fn index(&self, (row, column): (usize, usize)) -> &f32 {
        &self.columns[column][row]
    }
}

impl<const R: usize, const C: usize> IndexMut<(usize, usize)> for SMatrix<f32, R, C> {
    fn index_mut(&mut self, (row, column): (usize, usize)) -> &mut f32 {
        &mut self.columns[column][row]
    }
}

impl<'a, const R: usize, const C: usize> IntoIterator for &'a SMatrix<f32, R, C> {
    type Item = &'a f32;
    type IntoIter = core::slice::Iter<'a, f32>;
    fn into_iter(self) -> Self::IntoIter {
        self.iter()
    }
}

impl<const R: usize, const C: usize> Add for SMatrix<f32, R, C> {
    type Output = Self;
    fn add(self, other: Self) -> Self {
        Self::from_fn(|row, column| self[(row, column)] + other[(row, column)])
    }
}

impl<const R: usize, const C: usize> Sub for SMatrix<f32, R, C> {
    type Output = Self;
    fn sub(self, other: Self) -> Self {
        Self::from_fn(|row, column| self[(row, column)] - other[(row, column)])
    }
}

impl<const R: usize, const C: usize> AddAssign for SMatrix<f32, R, C> {
    fn add_assign(&mut self, other: Self) {
        *self = *self + other;
    }
}

impl<const R: usize, const C: usize> SubAssign for SMatrix<f32, R, C> {
    fn sub_assign(&mut self, other: Self) {
        *self = *self - other;
    }
}

impl<const R: usize, const C: usize> Neg for SMatrix<f32, R, C> {
    type Output = Self;
    fn neg(self) -> Self {
        self.map(|entry| -entry)
    }
}

impl<const R: usize, const C: usize> Mul<f32> for SMatrix<f32, R, C> {
    type Output = Self;
    fn mul(self, factor: f32) -> Self {
        self.map(|entry| entry * factor)
    }
}

impl<const R: usize, const C: usize> Mul<SMatrix<f32, R, C>> for f32 {
    type Output = SMatrix<f32, R, C>;
    fn mul(self, matrix: SMatrix<f32, R, C>) -> SMatrix<f32, R, C> {
        matrix.map(|entry| self * entry)
    }
}

impl<const R: usize, const C: usize> Div<f32> for SMatrix<f32, R, C> {
    type Output = Self;
    fn div(self, divisor: f32) -> Self {
        self.map(|entry| entry / divisor)
    }
}

impl<const R: usize, const M: usize, const C: usize> Mul<SMatrix<f32, M, C>>
    for SMatrix<f32, R, M>
{
    type Output = SMatrix<f32, R, C>;
    fn mul(self, other: SMatrix<f32, M, C>) -> SMatrix<f32, R, C> {
        SMatrix::from_fn(|row, column| {
            sum_of_products::<M>(|i| self[(row, i)], |i| other[(i, column)])
        })
    }
}

/// Names for the components of a vector, so that `v.x` reads as in nalgebra.
macro_rules! component_names {
    ($names:ident { $($name:ident),+ } for $rows:literal) => {
        #[repr(C)]
        pub struct $names<T> { $(pub $name: T),+ }

        impl Deref for SMatrix<f32, $rows, 1> {
            type Target = $names<f32>;
            fn deref(&self) -> &$names<f32> {
                // The matrix is transparently an array of as many floats as the struct in C
                // layout has, so the two have one layout.
                unsafe { &*(self as *const Self).cast() }
            }
        }
    };
}

component_names!(X { x } for 1);
component_names!(Xy { x, y } for 2);
component_names!(Xyz { x, y, z } for 3);
