//! The matrix by columns and by rows, and the costs that a search works on, which for SPP1 are those in the file. Rows and columns count
//! from 0 here.

use super::file::Duties;

pub struct Matrix {
    pub rows: usize,
    pub costs: Vec<u32>,
    column_starts: Vec<usize>,
    column_rows: Vec<u8>,
    row_starts: Vec<usize>,
    row_columns: Vec<u8>,
}

impl Matrix {
    pub fn new(duties: &Duties) -> Matrix {
        let columns = duties.columns();
        let mut column_starts = vec![0];
        let mut by_row = vec![Vec::new(); duties.rows];
        for column in 0..columns {
            let start = column_starts[column];
            let end = start + duties.lengths[column] as usize;
            for &row in &duties.numbers[start..end] {
                by_row[row as usize - 1].push(column as u8);
            }
            column_starts.push(end);
        }
        let mut row_starts = vec![0];
        for row in &by_row {
            row_starts.push(row_starts[row_starts.len() - 1] + row.len());
        }
        Matrix {
            rows: duties.rows,
            costs: duties.raised_costs(),
            column_starts,
            column_rows: duties.numbers.iter().map(|row| row - 1).collect(),
            row_starts,
            row_columns: by_row.concat(),
        }
    }

    /// The rows that a column covers, rising.
    #[inline]
    pub fn rows_of(&self, column: usize) -> &[u8] {
        &self.column_rows[self.column_starts[column]..self.column_starts[column + 1]]
    }

    /// The columns that cover a row, rising.
    #[inline]
    pub fn columns_of(&self, row: usize) -> &[u8] {
        &self.row_columns[self.row_starts[row]..self.row_starts[row + 1]]
    }

    /// How many rows a column covers.
    #[inline]
    pub fn size_of(&self, column: usize) -> u32 {
        (self.column_starts[column + 1] - self.column_starts[column]) as u32
    }
}
