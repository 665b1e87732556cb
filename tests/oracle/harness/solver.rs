/// Appended by tests/oracle: the private calls on bare matrices, made reachable.
pub mod harness {
    /// The rank's threshold, as every fit of the Rust passes it.
    const RANK: f64 = 1e-10;

    /// A row as the Rust has it: columns with their entries.
    pub type Row = Vec<(usize, f64)>;

    /// The answer of elimination, or none.
    pub fn eliminate(a: Vec<f64>, b: Vec<f64>, n: usize) -> Option<Vec<f64>> {
        super::solve_dense(a, b, n)
    }

    /// Rank and basis of a matrix, all its columns free.
    pub fn null_space(rows: &[Row], columns: usize) -> (usize, Vec<Vec<f64>>) {
        super::null_space(rows, &all(columns), RANK)
    }

    /// Whether a dense matrix has a NaN once its rows are scaled to unit length.
    pub fn nan_in_matrix(matrix: &[f64], rows: usize, columns: usize) -> bool {
        nan_when_scaled(&sparse(matrix, rows, columns), &all(columns), columns)
    }

    /// Whether a row has a NaN, over the free ones of `coordinates` coordinates, once it is
    /// divided by its length (which happens where that is above zero).
    pub(crate) fn nan_when_scaled(rows: &[Row], free: &[usize], coordinates: usize) -> bool {
        if free.is_empty() {
            return false;
        }
        let dense = super::dense(rows, &super::columns(free, coordinates), free.len());
        dense.chunks(free.len()).any(|row| {
            let length = super::norm2(row).sqrt();
            row.iter().any(|v| if length > 0.0 { (v / length).is_nan() } else { v.is_nan() })
        })
    }

    /// The rows over the free ones of `coordinates` coordinates, repeated entries added.
    pub(crate) fn dense_rows(rows: &[Row], free: &[usize], coordinates: usize) -> Vec<f64> {
        super::dense(rows, &super::columns(free, coordinates), free.len())
    }

    pub fn max_abs(v: &[f64]) -> f64 {
        super::max_abs(v)
    }

    pub fn norm2(v: &[f64]) -> f64 {
        super::norm2(v)
    }

    pub(crate) fn all(columns: usize) -> Vec<usize> {
        (0..columns).collect()
    }

    /// The rows of a dense matrix given row after row.
    pub fn sparse(matrix: &[f64], rows: usize, columns: usize) -> Vec<Row> {
        (0..rows).map(|i| matrix[i * columns..(i + 1) * columns].iter().copied().enumerate().collect()).collect()
    }
}
