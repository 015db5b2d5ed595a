//! Householder's reduction of a table of rows, and what follows from the triangle that it leaves.

/// A table of numbers, by rows.
#[derive(Clone, Debug, Default, PartialEq)]
pub struct Table {
    columns: usize,
    numbers: Vec<f64>,
}

impl Table {
    /// An empty table.
    #[must_use]
    pub fn new(columns: usize) -> Self {
        Self { columns, numbers: vec![] }
    }

    /// Adds a row.
    ///
    /// # Panics
    ///
    /// The row is of another length.
    pub fn push(&mut self, row: &[f64]) {
        assert_eq!(row.len(), self.columns);
        self.numbers.extend(row);
    }

    /// How many rows there are.
    #[must_use]
    pub fn rows(&self) -> usize {
        self.numbers.len() / self.columns
    }

    /// A row.
    #[must_use]
    pub fn row(&self, i: usize) -> &[f64] {
        &self.numbers[i * self.columns..][..self.columns]
    }

    fn at(&self, i: usize, j: usize) -> f64 {
        self.numbers[i * self.columns + j]
    }

    /// Reflects the rows until the first `columns` of them are a triangle above zeros. Sums of squares of all combinations of
    /// columns stay as they are.
    pub fn reduce(&mut self, columns: usize) {
        for k in 0..columns.min(self.rows()) {
            self.reflect(k);
        }
    }

    /// One reflection: column k, from row k down, becomes one number above zeros.
    fn reflect(&mut self, k: usize) {
        let mut normal: Vec<f64> = (k..self.rows()).map(|i| self.at(i, k)).collect();
        let length = normal.iter().map(|x| x * x).sum::<f64>().sqrt();
        if length == 0.0 {
            return;
        }
        normal[0] += length.copysign(normal[0]);
        let square: f64 = normal.iter().map(|x| x * x).sum();
        for j in k..self.columns {
            let along: f64 =
                normal.iter().enumerate().map(|(i, x)| x * self.at(k + i, j)).sum::<f64>();
            for (i, x) in normal.iter().enumerate() {
                self.numbers[(k + i) * self.columns + j] -= 2.0 * along / square * x;
            }
        }
    }

    /// The rows from one on, without their first columns.
    #[must_use]
    pub fn rest(&self, row: usize, column: usize) -> Self {
        let mut rest = Self::new(self.columns - column);
        (row..self.rows()).for_each(|i| rest.push(&self.row(i)[column..]));
        rest
    }

    /// The solution x of T·x = right, for the triangle T of the first rows and columns; nothing where T is singular.
    #[must_use]
    pub fn solve(&self, right: &[f64]) -> Option<Vec<f64>> {
        let mut x = right.to_vec();
        for i in (0..x.len()).rev() {
            let known: f64 = (i + 1..x.len()).map(|j| self.at(i, j) * x[j]).sum();
            x[i] = (x[i] - known) / self.at(i, i);
        }
        x.iter().all(|entry| entry.is_finite()).then_some(x)
    }

    /// The diagonal of (TᵀT)⁻¹, for the triangle T of the first so many columns: the sums of squares of the rows of T⁻¹.
    #[must_use]
    pub fn variances(&self, columns: usize) -> Option<Vec<f64>> {
        let mut variances = vec![0.0; columns];
        for k in 0..columns {
            let unit: Vec<f64> = (0..columns).map(|i| if i == k { 1.0 } else { 0.0 }).collect();
            let column = self.solve(&unit)?;
            variances.iter_mut().zip(column).for_each(|(variance, x)| *variance += x * x);
        }
        Some(variances)
    }
}

#[cfg(test)]
mod tests {
    use super::*;

    /// y = 1 + 2x at 0, 1, 2, 3 with errors 1, −1, −1, 1, which are orthogonal to both columns; (JᵀJ)⁻¹ = [[0.7, −0.3], [−0.3, 0.2]].
    #[test]
    fn a_line_through_four_points() {
        let mut table = Table::new(3);
        for (x, error) in [(0.0, 1.0), (1.0, -1.0), (2.0, -1.0), (3.0, 1.0)] {
            table.push(&[1.0, x, 1.0 + 2.0 * x + error]);
        }
        table.reduce(3);
        let right = [table.row(0)[2], table.row(1)[2]];
        let line = table.solve(&right).unwrap();
        assert!((line[0] - 1.0).abs() < 1e-14 && (line[1] - 2.0).abs() < 1e-14);
        assert!((table.row(2)[2].abs() - 2.0).abs() < 1e-14);
        let variances = table.variances(2).unwrap();
        assert!((variances[0] - 0.7).abs() < 1e-14 && (variances[1] - 0.2).abs() < 1e-14);
        assert_eq!(table.rest(3, 0).rows(), 1);
    }

    #[test]
    fn a_singular_triangle_has_no_solution() {
        let mut table = Table::new(2);
        table.push(&[1.0, 1.0]);
        table.push(&[1.0, 1.0]);
        table.reduce(2);
        assert!(table.variances(2).is_none_or(|variances| variances[1] > 1e30));
    }
}
