//! Tables of crews against vessels (02, P5) as they are made for a test, and those that the paper names.

/// The most crews and the most vessels.
pub const MOST: usize = 16;

/// 16 costs for each crew.
pub type Costs = [u32; MOST * MOST];

/// Crews and vessels are counted from 0 here.
#[derive(Clone, Debug)]
pub struct Table {
    pub crews: usize,
    pub vessels: usize,
    /// The cost of a crew on a vessel at 16 times the crew plus the vessel; 0 is a closed pairing.
    pub costs: Costs,
}

impl Table {
    /// The cost of each crew on each vessel given, and 0 outside.
    pub fn new(crews: usize, vessels: usize, mut cost: impl FnMut(usize, usize) -> u32) -> Table {
        let mut table = Table { crews, vessels, costs: [0; MOST * MOST] };
        for crew in 0..crews {
            for vessel in 0..vessels {
                table.costs[MOST * crew + vessel] = cost(crew, vessel);
            }
        }
        table
    }

    pub fn cost(&self, crew: usize, vessel: usize) -> u32 {
        self.costs[MOST * crew + vessel]
    }

    /// Whether a place of `costs` is one of the crews and vessels given.
    pub fn is_inside(&self, place: usize) -> bool {
        place / MOST < self.crews && place % MOST < self.vessels
    }

    /// The same table with these costs at the places outside.
    pub fn with_outside(&self, mut cost: impl FnMut() -> u32) -> Table {
        let mut table = self.clone();
        for place in (0..table.costs.len()).filter(|&place| !self.is_inside(place)) {
            table.costs[place] = cost();
        }
        table
    }

    /// The same table with another cost at one place.
    pub fn with(&self, place: usize, cost: u32) -> Table {
        let mut table = self.clone();
        table.costs[place] = cost;
        table
    }

    /// The table as text, for a printed difference.
    pub fn text(&self) -> String {
        let rows: Vec<&[u32]> = self.costs.chunks(MOST).collect();
        format!("{} crews, {} vessels, costs {rows:?}", self.crews, self.vessels)
    }
}

/// A table from its rows.
pub fn table<const VESSELS: usize>(rows: &[[u32; VESSELS]]) -> Table {
    Table::new(rows.len(), VESSELS, |crew, vessel| rows[crew][vessel])
}

pub fn example_5() -> Table {
    table(&[[7, 3, 5, 7, 10], [6, 0, 0, 8, 7], [6, 5, 1, 5, 0], [11, 4, 0, 11, 15], [0, 4, 5, 2, 10]])
}

pub fn example_6() -> Table {
    table(&[[9, 22, 58, 11, 19, 27], [43, 78, 72, 50, 63, 48], [41, 28, 91, 37, 45, 33], [74, 42, 27, 49, 39, 35]])
}
