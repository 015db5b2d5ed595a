//! Small linear algebra: 3 × 3 products, and the vector that a set of rows nearly cancels.

/// Three rows of three numbers.
pub type Matrix3 = [[f64; 3]; 3];

/// Far more sweeps than a matrix of this size needs: convergence is quadratic.
const MOST_JACOBI_SWEEPS: usize = 30;

/// a × b.
pub fn product(a: &Matrix3, b: &Matrix3) -> Matrix3 {
    let entry = |i: usize, j: usize| (0..3).map(|k| a[i][k] * b[k][j]).sum();
    std::array::from_fn(|i| std::array::from_fn(|j| entry(i, j)))
}

/// A column of a matrix.
pub fn column(m: &Matrix3, j: usize) -> [f64; 3] {
    [m[0][j], m[1][j], m[2][j]]
}

/// The sum of products.
pub fn dot(a: &[f64; 3], b: &[f64; 3]) -> f64 {
    a[0] * b[0] + a[1] * b[1] + a[2] * b[2]
}

/// The vector product.
pub fn cross(a: &[f64; 3], b: &[f64; 3]) -> [f64; 3] {
    [a[1] * b[2] - a[2] * b[1], a[2] * b[0] - a[0] * b[2], a[0] * b[1] - a[1] * b[0]]
}

/// a + t × b.
pub fn add_scaled(a: &[f64; 3], t: f64, b: &[f64; 3]) -> [f64; 3] {
    std::array::from_fn(|i| a[i] + t * b[i])
}

/// The vector of length 1 in the same direction.
pub fn unit(a: &[f64; 3]) -> [f64; 3] {
    let length = dot(a, a).sqrt();
    a.map(|entry| entry / length)
}

/// The unit vector x for which the sum of squares of rows × x is smallest: the eigenvector of
/// Aᵀ × A with the smallest eigenvalue.
pub fn nearly_cancelled<const N: usize>(rows: &[[f64; N]]) -> [f64; N] {
    let entry = |i: usize, j: usize| rows.iter().map(|row| row[i] * row[j]).sum();
    let normal: [[f64; N]; N] = std::array::from_fn(|i| std::array::from_fn(|j| entry(i, j)));
    let (values, vectors) = symmetric_eigen(normal);
    let smallest = (0..N).min_by(|&i, &j| values[i].total_cmp(&values[j])).expect("N is above 0");
    std::array::from_fn(|i| vectors[i][smallest])
}

/// Eigenvalues, and eigenvectors as columns, of a symmetric matrix: Jacobi's method, which turns
/// each pair of axes until no off-diagonal entry is left.
fn symmetric_eigen<const N: usize>(mut a: [[f64; N]; N]) -> ([f64; N], [[f64; N]; N]) {
    let mut vectors = [[0.0; N]; N];
    for (i, row) in vectors.iter_mut().enumerate() {
        row[i] = 1.0;
    }
    for _ in 0..MOST_JACOBI_SWEEPS {
        let mut is_diagonal = true;
        for p in 0..N {
            for q in p + 1..N {
                let negligible = f64::EPSILON * (a[p][p] * a[q][q]).abs().sqrt();
                if a[p][q].abs() > negligible {
                    turn(&mut a, &mut vectors, p, q);
                    is_diagonal = false;
                }
            }
        }
        if is_diagonal {
            break;
        }
    }
    (std::array::from_fn(|i| a[i][i]), vectors)
}

/// Turns the axes p and q so that the entry (p, q) vanishes (Golub, Van Loan, section 8.5).
fn turn<const N: usize>(a: &mut [[f64; N]; N], vectors: &mut [[f64; N]; N], p: usize, q: usize) {
    let tau = (a[q][q] - a[p][p]) / (2.0 * a[p][q]);
    let tangent = tau.signum() / (tau.abs() + (1.0 + tau * tau).sqrt());
    let cosine = 1.0 / (1.0 + tangent * tangent).sqrt();
    let sine = tangent * cosine;
    let rotated = |x: f64, y: f64| (cosine * x - sine * y, sine * x + cosine * y);
    for row in a.iter_mut() {
        (row[p], row[q]) = rotated(row[p], row[q]);
    }
    let (upper, lower) = a.split_at_mut(q);
    for (x, y) in upper[p].iter_mut().zip(&mut lower[0]) {
        (*x, *y) = rotated(*x, *y);
    }
    for row in vectors.iter_mut() {
        (row[p], row[q]) = rotated(row[p], row[q]);
    }
    // Zero except for rounding.
    (a[p][q], a[q][p]) = (0.0, 0.0);
}

/// The x with the smallest sum of squares of a·x₀ + b·x₁ − c over the rows (a, b, c), if there is
/// one.
pub fn least_squares_2(rows: &[[f64; 3]]) -> Option<[f64; 2]> {
    let sum = |i: usize, j: usize| rows.iter().map(|row| row[i] * row[j]).sum::<f64>();
    let (aa, ab, bb, ac, bc) = (sum(0, 0), sum(0, 1), sum(1, 1), sum(0, 2), sum(1, 2));
    let determinant = aa * bb - ab * ab;
    let x = [(bb * ac - ab * bc) / determinant, (aa * bc - ab * ac) / determinant];
    x.iter().all(|entry| entry.is_finite()).then_some(x)
}

/// The lower triangular factor L of a symmetric matrix L × Lᵀ (Cholesky); nothing where it isn't positive definite. The
/// lower half is read.
pub fn factor<const N: usize>(a: &[[f64; N]; N]) -> Option<[[f64; N]; N]> {
    let mut l = [[0.0; N]; N];
    for i in 0..N {
        for j in 0..=i {
            let rest = a[i][j] - (0..j).map(|k| l[i][k] * l[j][k]).sum::<f64>();
            if i > j {
                l[i][j] = rest / l[j][j];
            } else if rest > 0.0 && rest.is_finite() {
                l[i][i] = rest.sqrt();
            } else {
                return None;
            }
        }
    }
    Some(l)
}

/// The x with L × x = b.
pub fn solve_lower<const N: usize>(l: &[[f64; N]; N], mut b: [f64; N]) -> [f64; N] {
    for i in 0..N {
        b[i] = (b[i] - (0..i).map(|k| l[i][k] * b[k]).sum::<f64>()) / l[i][i];
    }
    b
}

/// The x with L × Lᵀ × x = b.
pub fn solve_factored<const N: usize>(l: &[[f64; N]; N], b: [f64; N]) -> [f64; N] {
    let mut b = solve_lower(l, b);
    for i in (0..N).rev() {
        b[i] = (b[i] - (i + 1..N).map(|k| l[k][i] * b[k]).sum::<f64>()) / l[i][i];
    }
    b
}

#[cfg(test)]
mod tests {
    use super::*;

    #[test]
    fn eigenvectors_fit_their_matrix() {
        let a = [[4.0, 1.0, -2.0], [1.0, 3.0, 0.5], [-2.0, 0.5, 1.0]];
        let (values, vectors) = symmetric_eigen(a);
        for j in 0..3 {
            for i in 0..3 {
                let image: f64 = (0..3).map(|k| a[i][k] * vectors[k][j]).sum();
                assert!((image - values[j] * vectors[i][j]).abs() < 1e-12);
            }
        }
    }

    #[test]
    fn rows_cancel_their_common_normal() {
        let x = nearly_cancelled(&[[1.0, 0.0, -1.0], [0.0, 1.0, -1.0], [1.0, 1.0, -2.0]]);
        let expected = x[0].signum() / 3f64.sqrt();
        assert!(x.iter().all(|entry| (entry - expected).abs() < 1e-12));
    }

    #[test]
    fn least_squares_meets_exact_rows_and_refuses_parallel_ones() {
        let x = least_squares_2(&[[1.0, 0.0, 2.0], [0.0, 1.0, 3.0], [1.0, 1.0, 5.0]]).unwrap();
        assert_eq!(x, [2.0, 3.0]);
        assert_eq!(least_squares_2(&[[1.0, 1.0, 1.0], [2.0, 2.0, 2.0]]), None);
    }

    #[test]
    fn a_factor_solves_its_equations_and_an_indefinite_matrix_has_none() {
        let a = [[4.0, 1.0, -2.0], [1.0, 3.0, 0.5], [-2.0, 0.5, 2.0]];
        let x = solve_factored(&factor(&a).unwrap(), [1.0, 2.0, 3.0]);
        for (row, expected) in a.iter().zip([1.0, 2.0, 3.0]) {
            assert!((dot(row, &x) - expected).abs() < 1e-12);
        }
        assert_eq!(factor(&[[1.0, 2.0], [2.0, 1.0]]), None);
    }
}
