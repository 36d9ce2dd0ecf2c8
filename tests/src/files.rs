//! Columns as they are made for a test, and the files that the papers name.

use crate::edition::Edition;

/// The edition of the file, rows, and the cost and the body of each column. Row numbers count from 1.
#[derive(Clone, Debug)]
pub struct Columns {
    pub edition: Edition,
    pub rows: u16,
    pub costs: Vec<i32>,
    pub bodies: Vec<Vec<u8>>,
}

impl Columns {
    /// Columns for an SPP1 file.
    pub fn new(rows: u16, costs: Vec<i32>, bodies: Vec<Vec<u8>>) -> Columns {
        Columns { edition: Edition::One, rows, costs, bodies }
    }

    /// The same columns for a file of an edition.
    pub fn under(&self, edition: Edition) -> Columns {
        Columns { edition, ..self.clone() }
    }

    /// The body length of each column.
    pub fn lengths(&self) -> Vec<u16> {
        self.bodies.iter().map(|body| body.len() as u16).collect()
    }

    /// The row numbers of all bodies.
    pub fn numbers(&self) -> Vec<u8> {
        self.bodies.concat()
    }

    pub fn entries(&self) -> usize {
        self.bodies.iter().map(Vec::len).sum()
    }

    /// The duty file, byte for byte as 01 and 02, P10 lay it out.
    pub fn file(&self) -> Vec<u8> {
        let mut bytes = self.edition.mark().to_vec();
        bytes.extend(self.rows.to_le_bytes());
        bytes.extend((self.costs.len() as u16).to_le_bytes());
        let mut start = 8 + 8 * self.costs.len();
        for (cost, body) in self.costs.iter().zip(&self.bodies) {
            bytes.extend(cost.to_le_bytes());
            bytes.extend((start as u16).to_le_bytes());
            bytes.extend((body.len() as u16).to_le_bytes());
            start += body.len();
        }
        bytes.extend(self.bodies.concat());
        bytes
    }

    /// The file's bytes with a fault that has this refusal, 0 for none. The fault is in the first column or the last body; for 6, which a
    /// small file can't have, it is another file of the same edition.
    pub fn damaged(&self, refusal: u32) -> Vec<u8> {
        let mut file = self.file();
        let (contents, last) = (8 + 8 * self.costs.len(), file.len() - 1);
        match refusal {
            1 => file[3] = b'3',
            2 => file[4] = 65,
            3 => file.truncate(contents - 1),
            4 => file[8..12].copy_from_slice(&self.cost_below().to_le_bytes()),
            5 => file[14] = 0,
            6 => file = too_many_entries().under(self.edition).file(),
            7 => file[12] ^= 1,
            8 => file.push(1),
            9 => file[last] = 0,
            _ => {}
        }
        file
    }

    /// The number below the least cost of the edition.
    fn cost_below(&self) -> i32 {
        match self.edition {
            Edition::One => 0,
            Edition::Two => -1_000_001,
        }
    }
}

/// 65 columns of all 64 rows: 4,160 entries, of which the last 64 are too many.
fn too_many_entries() -> Columns {
    Columns::new(64, vec![1; 65], vec![(1..=64).collect(); 65])
}

/// Columns from pairs of a body and a cost.
pub fn columns(rows: u16, pairs: &[(&[u8], i32)]) -> Columns {
    Columns::new(rows, pairs.iter().map(|pair| pair.1).collect(), pairs.iter().map(|pair| pair.0.to_vec()).collect())
}

/// Columns from the paper's notation: the costs, and for each row the columns that cover it.
fn from_rows(costs: &[i32], rows: &[&[usize]]) -> Columns {
    let mut bodies = vec![Vec::new(); costs.len()];
    for (row, list) in rows.iter().enumerate() {
        for column in *list {
            bodies[column - 1].push(row as u8 + 1);
        }
    }
    Columns::new(rows.len() as u16, costs.to_vec(), bodies)
}

pub fn example_1() -> Columns {
    from_rows(&[3, 7, 5, 8, 10, 4, 6, 9], &[&[1, 2], &[3, 4, 5], &[5, 6, 7], &[7, 8], &[2, 4, 6]])
}

pub fn example_2() -> Columns {
    from_rows(
        &[30, 49, 51, 52, 52, 55, 67, 67, 70, 81, 81, 83],
        &[
            &[1, 2, 3, 4, 8, 9],
            &[1, 2, 3, 6, 7, 10],
            &[1, 4, 5, 6, 8, 11],
            &[2, 5, 7, 8, 9, 12],
            &[3, 4, 9, 10, 11, 12],
            &[5, 6, 7, 10, 11, 12],
        ],
    )
}

pub fn example_3() -> Columns {
    let costs: Vec<i32> = (1..=20).collect();
    from_rows(
        &costs,
        &[
            &[1, 2, 5, 7, 13],
            &[2, 7, 14, 18],
            &[3, 9, 10, 11],
            &[4, 6, 8, 12],
            &[4, 9, 11, 13, 19],
            &[5, 10, 15],
            &[5, 16, 20],
            &[8, 14, 15, 17],
        ],
    )
}

pub fn example_4() -> Columns {
    from_rows(
        &[18, 22, 14, 36, 17, 14, 8, 24, 14, 7],
        &[&[3, 5], &[4, 5, 6], &[2, 4, 8, 9], &[3, 4, 8, 10], &[1, 2, 7, 9], &[1, 2, 4, 6, 8]],
    )
}

/// Section 6 has the matrix and the costs of example 1, with the largest cost as the price.
pub fn example_7() -> Columns {
    example_1()
}

/// 64 rows, 256 columns of 16 rows each: 6,152 bytes.
pub fn largest() -> Columns {
    let body = |column: usize| (0..16).map(|part| (part * 4 + (column + part * column / 7) % 4) as u8 + 1).collect();
    let costs = (0..256).map(|column| 1000 + (column * 7919) % 9973).collect();
    Columns::new(64, costs, (0..256).map(body).collect())
}

/// 17 rows, 256 columns, each of which covers all rows but one, so that any two share a row and no plan exists. Taking a column ends
/// dead at once, and leaving one out leaves each row about 240 columns less one: the tree is one path of some 240 nodes, with a dead node
/// beside each of them. 4,096 entries.
pub fn deepest() -> Columns {
    let bodies = (0..256).map(|column| (1..=17).filter(|row| *row != column % 17 + 1).map(|row| row as u8).collect());
    Columns::new(17, vec![7; 256], bodies.collect())
}

/// The first 192 columns of `deepest`, as many as 02, P6 takes: rows 1 to 17 cannot be covered, rows 1 to 16 can.
pub fn deepest_of_trials() -> Columns {
    let mut columns = deepest();
    columns.costs.truncate(192);
    columns.bodies.truncate(192);
    columns
}

/// The columns of `deepest` at differing costs.
pub fn deepest_at_differing_costs() -> Columns {
    let mut columns = deepest();
    for (column, cost) in columns.costs.iter_mut().enumerate() {
        *cost = 1000 + (column as i32 * 37) % 256;
    }
    columns
}

/// The columns of `deepest`, but 17 of them cover one row alone at a high cost: such a column and one that leaves out its row are a plan.
pub fn deep_with_plans() -> Columns {
    let mut columns = deepest();
    for row in 1..=17 {
        columns.bodies[row] = vec![row as u8];
        columns.costs[row] = 500_000;
    }
    columns
}
