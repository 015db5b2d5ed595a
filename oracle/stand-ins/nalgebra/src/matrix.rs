//! Matrices of fixed size, and the matrix of the design rows.

use crate::{RealField, Vector3};
use std::array::from_fn;
use std::ops::{Index, IndexMut, Mul};

/// R rows of C numbers.
#[derive(Clone, Copy, Debug, PartialEq)]
pub struct SMatrix<T, const R: usize, const C: usize> {
    rows: [[T; C]; R],
}

pub type Matrix3<T> = SMatrix<T, 3, 3>;
pub type Matrix4<T> = SMatrix<T, 4, 4>;

impl<T: RealField> Matrix3<T> {
    /// The matrix with these entries, row by row.
    #[allow(clippy::too_many_arguments)]
    pub fn new(m00: T, m01: T, m02: T, m10: T, m11: T, m12: T, m20: T, m21: T, m22: T) -> Self {
        Self { rows: [[m00, m01, m02], [m10, m11, m12], [m20, m21, m22]] }
    }

    /// Expanded along the first row, left to right; the middle term is subtracted.
    pub fn determinant(&self) -> T {
        let term = |column: usize| self.rows[0][column].clone() * self.minor(0, column);
        term(0) - term(1) + term(2)
    }

    /// The transposed cofactors, each divided by the determinant; none where that equals 0.
    pub fn try_inverse(self) -> Option<Self> {
        let determinant = self.determinant();
        if determinant == T::zero() {
            return None;
        }
        let entry = |row: usize, column: usize| self.cofactor(column, row) / determinant.clone();
        Some(Self { rows: from_fn(|row| from_fn(|column| entry(row, column))) })
    }

    /// The minor, negated at odd places.
    fn cofactor(&self, row: usize, column: usize) -> T {
        let minor = self.minor(row, column);
        if (row + column) % 2 == 1 { -minor } else { minor }
    }

    /// The main diagonal's product minus the other one, of the rows and columns that remain.
    fn minor(&self, row: usize, column: usize) -> T {
        let [r0, r1] = others(row);
        let [c0, c1] = others(column);
        let at = |r: usize, c: usize| self.rows[r][c].clone();
        at(r0, c0) * at(r1, c1) - at(r0, c1) * at(r1, c0)
    }
}

/// The two indexes of 0, 1, 2 that aren't `index`, in their order.
fn others(index: usize) -> [usize; 2] {
    match index {
        0 => [1, 2],
        1 => [0, 2],
        _ => [0, 1],
    }
}

impl<T: RealField, const R: usize, const K: usize, const C: usize> Mul<SMatrix<T, K, C>>
    for SMatrix<T, R, K>
{
    type Output = SMatrix<T, R, C>;

    fn mul(self, other: SMatrix<T, K, C>) -> SMatrix<T, R, C> {
        let product =
            |r: usize, c: usize, k: usize| self.rows[r][k].clone() * other.rows[k][c].clone();
        let entry =
            |r: usize, c: usize| (1..K).fold(product(r, c, 0), |sum, k| sum + product(r, c, k));
        SMatrix { rows: from_fn(|r| from_fn(|c| entry(r, c))) }
    }
}

impl<T: RealField> Mul<Vector3<T>> for &Matrix3<T> {
    type Output = Vector3<T>;

    fn mul(self, v: Vector3<T>) -> Vector3<T> {
        let entry = |row: &[T; 3]| {
            let [a, b, c] = row.clone();
            a * v.x.clone() + b * v.y.clone() + c * v.z.clone()
        };
        Vector3::new(entry(&self.rows[0]), entry(&self.rows[1]), entry(&self.rows[2]))
    }
}

impl<T, const R: usize, const C: usize> Index<(usize, usize)> for SMatrix<T, R, C> {
    type Output = T;

    fn index(&self, (row, column): (usize, usize)) -> &T {
        &self.rows[row][column]
    }
}

/// A matrix whose size is known at run time.
#[derive(Clone, Debug)]
pub struct DMatrix<T> {
    columns: usize,
    entries: Vec<T>,
}

impl<T: RealField> DMatrix<T> {
    pub fn zeros(rows: usize, columns: usize) -> Self {
        Self { columns, entries: vec![T::zero(); rows * columns] }
    }

    /// The entries, row by row.
    pub fn row_by_row(&self) -> &[T] {
        &self.entries
    }
}

impl<T> Index<(usize, usize)> for DMatrix<T> {
    type Output = T;

    fn index(&self, (row, column): (usize, usize)) -> &T {
        &self.entries[row * self.columns + column]
    }
}

impl<T> IndexMut<(usize, usize)> for DMatrix<T> {
    fn index_mut(&mut self, (row, column): (usize, usize)) -> &mut T {
        &mut self.entries[row * self.columns + column]
    }
}

#[cfg(test)]
mod tests {
    use super::Matrix3;

    #[test]
    fn an_identity_has_negated_zeros_at_the_odd_places_of_its_inverse() {
        let identity = Matrix3::new(1.0, 0.0, 0.0, 0.0, 1.0, 0.0, 0.0, 0.0, 1.0);
        let inverse = identity.try_inverse().expect("its determinant is 1");
        for row in 0..3 {
            for column in 0..3 {
                let odd = (row + column) % 2 == 1;
                let entry: f64 = inverse[(row, column)];
                assert_eq!(entry, if row == column { 1.0 } else { 0.0 });
                assert_eq!(entry.is_sign_negative(), odd);
            }
        }
    }

    #[test]
    fn products_start_with_their_first_product() {
        let negative_zeros = Matrix3::new(-0.0, -0.0, -0.0, 0.0, 0.0, 0.0, 0.0, 0.0, 0.0);
        let ones = Matrix3::new(1.0, 1.0, 1.0, 1.0, 1.0, 1.0, 1.0, 1.0, 1.0);
        let product: f64 = (negative_zeros * ones)[(0, 0)];
        assert!(product.is_sign_negative());
    }
}
