//! What a desk asks of a plan besides (02, P2, P8 and P9).

/// Columns that must be in the plan unless they are absent, columns that must not be, and pairs of columns of which the first may be in
/// the plan only if the second is; numbered from 1, as they are lent.
#[derive(Clone, Copy, Debug)]
pub struct Requests<'a> {
    pub agreed: &'a [u16],
    pub absent: &'a [u16],
    /// The first and the second column of each pair in turn.
    pub pairs: &'a [u16],
}

impl Requests<'_> {
    /// Nothing is asked.
    pub const NONE: Requests<'static> = Requests { agreed: &[], absent: &[], pairs: &[] };

    pub fn is_none(&self) -> bool {
        self.agreed.is_empty() && self.absent.is_empty() && self.pairs.is_empty()
    }

    /// Whether columns hold every agreed one that is not absent and no absent one, and obey the pairs.
    pub fn are_met_by(&self, columns: &[u16]) -> bool {
        self.agreed.iter().all(|column| columns.contains(column) || self.absent.contains(column))
            && !self.absent.iter().any(|column| columns.contains(column))
            && self.pairs.chunks_exact(2).all(|pair| !columns.contains(&pair[0]) || columns.contains(&pair[1]))
    }
}
