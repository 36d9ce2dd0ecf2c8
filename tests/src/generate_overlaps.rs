//! Lists of agreed and absent columns of which some stand in both (02, P9), with and without pairs of columns.

use crate::files::Columns;
use crate::generate_pairs as pairs;
use crate::random::Random;

/// The kinds of overlap.
#[derive(Clone, Copy, PartialEq)]
pub enum Kind {
    One,
    OneOfSeveral,
    Several,
    InAbsent,
    Same,
    All,
    StruckShares,
    LeftShare,
    PartOfBest,
    WholeBest,
    PlanLeft,
    First,
    Second,
    SecondLeft,
    FirstLeft,
    Chain,
    Ring,
    PlanLeftWithPairs,
}

impl Kind {
    pub const ALL: [Kind; 18] = [
        Kind::One,
        Kind::OneOfSeveral,
        Kind::Several,
        Kind::InAbsent,
        Kind::Same,
        Kind::All,
        Kind::StruckShares,
        Kind::LeftShare,
        Kind::PartOfBest,
        Kind::WholeBest,
        Kind::PlanLeft,
        Kind::First,
        Kind::Second,
        Kind::SecondLeft,
        Kind::FirstLeft,
        Kind::Chain,
        Kind::Ring,
        Kind::PlanLeftWithPairs,
    ];

    pub fn text(self) -> &'static str {
        match self {
            Kind::One => "one duty",
            Kind::OneOfSeveral => "one of several agreed",
            Kind::Several => "several, and others in each list",
            Kind::InAbsent => "each agreed one, and others absent",
            Kind::Same => "the same list twice",
            Kind::All => "all duties",
            Kind::StruckShares => "one shares a sailing with one left",
            Kind::LeftShare => "two are left that share a sailing",
            Kind::PartOfBest => "a part of the best plan",
            Kind::WholeBest => "the best plan",
            Kind::PlanLeft => "a plan is left",
            Kind::First => "the first of a pair",
            Kind::Second => "the second of a pair",
            Kind::SecondLeft => "the first of a pair, the second agreed",
            Kind::FirstLeft => "the second of a pair, the first agreed",
            Kind::Chain => "one inside a chain of pairs",
            Kind::Ring => "one of a ring of the best plan",
            Kind::PlanLeftWithPairs => "a plan is left that obeys pairs",
        }
    }

    /// Whether the root is dead whatever the file.
    pub fn is_dead(self) -> bool {
        [Kind::All, Kind::LeftShare, Kind::FirstLeft].contains(&self)
    }
}

/// What the lists leave to do.
pub enum Left {
    Search,
    /// Nothing: the root is dead.
    Dead,
    /// Nothing: the agreed columns that are not absent are this plan.
    Plan(Vec<u16>),
}

pub struct Overlap {
    pub kind: Kind,
    pub agreed: Vec<u16>,
    pub absent: Vec<u16>,
    /// The first and the second column of each pair in turn.
    pub pairs: Vec<u16>,
    pub left: Left,
}

/// Lists of columns in any sequence.
fn overlap(kind: Kind, agreed: &[u16], absent: &[u16], pairs: &[u16]) -> Overlap {
    let left = if kind.is_dead() { Left::Dead } else { Left::Search };
    Overlap { kind, agreed: rising(agreed), absent: rising(absent), pairs: pairs.to_vec(), left }
}

/// The columns, rising, each once.
fn rising(columns: &[u16]) -> Vec<u16> {
    let mut list = columns.to_vec();
    list.sort_unstable();
    list.dedup();
    list
}

/// Some of the columns, each with the given chance, and those given.
fn some_and(random: &mut Random, columns: &[u16], percent: usize, given: &[u16]) -> Vec<u16> {
    let some = columns.iter().copied().filter(|_| random.chance(percent));
    some.chain(given.iter().copied()).collect()
}

/// Lists of any columns.
pub fn any_lists(random: &mut Random, columns: &Columns) -> Vec<Overlap> {
    let count = columns.costs.len();
    let all: Vec<u16> = (1..=count as u16).collect();
    let (number, percent) = (random.within(2, 5), random.within(1, 30));
    let several = pairs::different(random, count, number);
    let one = &several[..1];
    let (agreed, absent) = (some_and(random, &all, 2, &several), some_and(random, &all, percent, &several));
    let more = some_and(random, &all, percent, &several);
    let same = some_and(random, &all, percent, one);
    let mut lists = vec![
        overlap(Kind::One, one, one, &[]),
        overlap(Kind::OneOfSeveral, &several, one, &[]),
        overlap(Kind::Several, &agreed, &absent, &[]),
        overlap(Kind::InAbsent, &several, &more, &[]),
        overlap(Kind::Same, &same, &same, &[]),
        overlap(Kind::All, &all, &all, &[]),
    ];
    if let Some(sharing) = sharing(random, columns) {
        lists.push(overlap(Kind::StruckShares, &sharing, &sharing[..1], &[]));
        let third = all.iter().find(|column| !sharing.contains(column));
        lists.extend(third.map(|&third| overlap(Kind::LeftShare, &[sharing[0], sharing[1], third], &[third], &[])));
    }
    lists
}

/// Two columns that share a row.
fn sharing(random: &mut Random, columns: &Columns) -> Option<Vec<u16>> {
    let list = if columns.costs.len() > 1 { pairs::by_sharing(random, columns, 1, true) } else { vec![] };
    (!list.is_empty()).then_some(list)
}

/// Lists beside pairs of which a column in both lists is the first or the second, or stands inside a chain.
pub fn lists_with_pairs(random: &mut Random, columns: &Columns) -> Vec<Overlap> {
    let count = columns.costs.len();
    if count < 2 {
        return vec![];
    }
    let apart = pairs::by_sharing(random, columns, 1, false);
    let pair = if apart.is_empty() { pairs::any(random, count, 1) } else { apart };
    let (first, second) = pair.split_at(1);
    let some = pairs::different(random, count, 5);
    let inside = &some[some.len() / 2..=some.len() / 2];
    vec![
        overlap(Kind::First, first, first, &pair),
        overlap(Kind::Second, second, second, &pair),
        overlap(Kind::SecondLeft, &pair, first, &pair),
        overlap(Kind::FirstLeft, &pair, second, &pair),
        overlap(Kind::Chain, inside, inside, &pairs::chain(&some)),
    ]
}

/// Lists drawn from a plan: parts of it and all of it in both lists, and the plan left where all columns in both lists are others.
pub fn lists_of_plan(random: &mut Random, columns: &Columns, plan: &[u16]) -> Vec<Overlap> {
    let count = columns.costs.len();
    let others: Vec<u16> = (1..=count as u16).filter(|column| !plan.contains(column)).collect();
    let one = [plan[random.within(0, plan.len() - 1)]];
    let (agreed, absent) = (some_and(random, plan, 30, &one), some_and(random, &others, 5, &one));
    let part = some_and(random, plan, 30, &one);
    let mut lists = vec![
        overlap(Kind::PartOfBest, &agreed, &absent, &[]),
        overlap(Kind::PartOfBest, plan, &part, &[]),
        overlap(Kind::PartOfBest, &part, &part, &[]),
        overlap(Kind::WholeBest, plan, plan, &[]),
    ];
    if plan.len() > 1 {
        lists.push(overlap(Kind::Ring, &one, &one, &pairs::ring(plan)));
    }
    if !others.is_empty() {
        let other = [others[random.within(0, others.len() - 1)]];
        let struck = some_and(random, &others, 10, &other);
        let absent = some_and(random, &others, 20, &struck);
        let agreed = [plan, &struck].concat();
        let obeyed = [pairs::obeyed(random, count, plan, 10), pairs::needing(other[0], plan)].concat();
        for (kind, pairs) in [(Kind::PlanLeft, &[][..]), (Kind::PlanLeftWithPairs, &obeyed)] {
            lists.push(Overlap { left: Left::Plan(plan.to_vec()), ..overlap(kind, &agreed, &absent, pairs) });
        }
    }
    lists
}
