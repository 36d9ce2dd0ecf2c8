//! The same call of the engine and of `plain`, on lists of equal contents. Each comparison is one case: the answer, every place of every
//! lent list, and the places before and behind it.

use std::hint::black_box;

use spp_tests::answers::{Answer, Assigned, Checked, Reduced, Reply, Shape, Step, Uncrewed, Written};
use spp_tests::desk::{Desk, Way, MOST_COLUMNS, MOST_ROWS};
use spp_tests::edition::Edition;
use spp_tests::goal::Goal;
use spp_tests::plain::Recount;
use spp_tests::requests::Requests;
use spp_tests::table::{Costs, Table};
use spp_tests::{engine, plain};

use crate::report::{hex, Report};

/// Places before and behind a lent list.
const MARGIN: usize = 5;

/// A lent list inside a longer one, all filled with a pattern.
#[derive(Clone, Debug, PartialEq)]
pub struct Lent<T> {
    places: Vec<T>,
    count: usize,
}

impl<T: Copy> Lent<T> {
    fn new(count: usize, pattern: impl Fn(usize) -> T) -> Lent<T> {
        Lent { places: (0..count + 2 * MARGIN).map(pattern).collect(), count }
    }

    /// The list with these contents, inside the pattern.
    fn holding(mut self, contents: &[T]) -> Lent<T> {
        self.list_mut().copy_from_slice(contents);
        self
    }

    pub fn list(&self) -> &[T] {
        &self.places[MARGIN..MARGIN + self.count]
    }

    fn list_mut(&mut self) -> &mut [T] {
        &mut self.places[MARGIN..MARGIN + self.count]
    }
}

fn bytes(count: usize) -> Lent<u8> {
    Lent::new(count, |place| (place * 7 + 201) as u8)
}

fn shorts(count: usize) -> Lent<u16> {
    Lent::new(count, |place| (place * 11 + 50_001) as u16)
}

fn words(count: usize) -> Lent<u32> {
    Lent::new(count, |place| (place * 13 + 4_000_000_001) as u32)
}

fn signed_words(count: usize) -> Lent<i32> {
    Lent::new(count, |place| -((place * 13 + 1_500_000_001) as i32))
}

type ReadCall = fn(&[u8], &mut [i32], &mut [u16], &mut [u8]) -> Shape;
type WriteCall = fn(Edition, u16, &[i32], &[u16], &[u8], &mut [u8]) -> Written;

/// The reader's answer, and its lists after the call.
type Read = (Shape, Lent<i32>, Lent<u16>, Lent<u8>);

pub fn read(report: &mut Report, file: &[u8], rooms: [usize; 3]) -> Read {
    let run = |call: ReadCall| -> Read {
        let (mut costs, mut lengths, mut numbers) = (signed_words(rooms[0]), shorts(rooms[1]), bytes(rooms[2]));
        let shape = call(file, costs.list_mut(), lengths.list_mut(), numbers.list_mut());
        (shape, costs, lengths, numbers)
    };
    let found = run(engine::read);
    report.same(&found, &run(plain::read), || format!("reader, rooms {rooms:?}, {}", hex(file)));
    found
}

/// The lists that the writers take, and the edition whose writer they are for.
pub struct Lists {
    pub edition: Edition,
    pub rows: u16,
    pub costs: Vec<i32>,
    pub lengths: Vec<u16>,
    pub numbers: Vec<u8>,
}

pub fn write(report: &mut Report, lists: &Lists, room: usize) -> (Written, Lent<u8>) {
    let run = |call: WriteCall| {
        let mut out = bytes(room);
        (call(lists.edition, lists.rows, &lists.costs, &lists.lengths, &lists.numbers, out.list_mut()), out)
    };
    let found = run(engine::write);
    report.same(&found, &run(plain::write), || {
        let Lists { edition, rows, costs, lengths, numbers } = lists;
        format!("writer of {edition}, rows {rows}, costs {costs:?}, lengths {lengths:?}, row numbers {numbers:?}, room {room}")
    });
    found
}

pub fn check(report: &mut Report, file: &[u8], offered: &[u16]) -> Checked {
    let found = engine::check(file, offered);
    report.same(&found, &plain::check(file, offered), || format!("plan check of {offered:?}, {}", hex(file)));
    found
}

pub fn reduce(report: &mut Report, file: &[u8], rooms: [usize; 2]) -> (Reduced, Lent<i32>, Lent<u8>) {
    let run = |call: fn(&[u8], &mut [i32], &mut [u8]) -> Reduced| {
        let (mut reduced, mut order) = (signed_words(rooms[0]), bytes(rooms[1]));
        (call(file, reduced.list_mut(), order.list_mut()), reduced, order)
    };
    let found = run(engine::reduce);
    report.same(&found, &run(plain::reduce), || format!("reducing, rooms {rooms:?}, {}", hex(file)));
    found
}

type SearchCall = fn(Goal, &[u8], u32, Requests, &mut [u16]) -> Answer;

/// A search's answer, and its lists after the call: the plan, the file, the agreed and the absent columns and the pairs.
type Searched = (Answer, Lent<u16>, Lent<u8>, [Lent<u16>; 3]);

/// The search with empty lists, against `plain` without lists.
pub fn search(report: &mut Report, goal: Goal, file: &[u8], limit: u32, room: usize) -> (Answer, Vec<u16>) {
    search_with(report, goal, file, limit, Requests::NONE, room)
}

/// The answer, and the plan shown.
pub fn search_with(
    report: &mut Report,
    goal: Goal,
    file: &[u8],
    limit: u32,
    requests: Requests,
    room: usize,
) -> (Answer, Vec<u16>) {
    let run = |call: SearchCall| -> Searched {
        let (mut plan, lent_file) = (shorts(room), bytes(file.len()).holding(file));
        let lists = [requests.agreed, requests.absent, requests.pairs].map(|list| shorts(list.len()).holding(list));
        let lent = Requests { agreed: lists[0].list(), absent: lists[1].list(), pairs: lists[2].list() };
        let answer = call(goal, lent_file.list(), limit, lent, plan.list_mut());
        (answer, plan, black_box(lent_file), black_box(lists))
    };
    let found = run(engine::search_with);
    report.same(&found, &run(plain::search_with), || {
        format!("search ({goal}), allowance {limit}, {requests:?}, room {room}, {}", hex(file))
    });
    let shown = (found.0.columns as usize).min(room);
    (found.0, found.1.list()[..shown].to_vec())
}

/// The engine's answer and plan list with each of two requests: both must be equal.
pub fn alike(report: &mut Report, goal: Goal, file: &[u8], limit: u32, requests: [Requests; 2], room: usize) {
    let [one, other] = requests.map(|asked| {
        let mut plan = shorts(room);
        (engine::search_with(goal, file, limit, asked, plan.list_mut()), plan)
    });
    report.same(&one, &other, || format!("search ({goal}), allowance {limit}, {requests:?}, room {room}, {}", hex(file)));
}

/// An answer list: no place holds the number of a vessel.
fn no_vessels(count: usize) -> Lent<u8> {
    Lent::new(count, |place| (place % 239) as u8 + 17)
}

type AssignCall = fn(usize, usize, &Costs, &mut [u8]) -> Assigned;

/// The answer, and its lists after the call: the vessels and the table.
type Assignment = (Assigned, Lent<u8>, Lent<u32>);

pub fn assign(report: &mut Report, table: &Table, room: usize) -> (Assigned, Lent<u8>) {
    let run = |call: AssignCall| -> Assignment {
        let (mut answer, costs) = (no_vessels(room), words(table.costs.len()).holding(&table.costs));
        let lent = costs.list().try_into().expect("the list has a place for each cost");
        (call(table.crews, table.vessels, lent, answer.list_mut()), answer, black_box(costs))
    };
    let found = run(engine::assign);
    report.same(&found, &run(plain::assign), || format!("crews onto vessels, room {room}, {}", table.text()));
    (found.0, found.1)
}

type UncrewedCall = fn(&[u8], u32, &mut [u16]) -> Uncrewed;

/// The answer, and its lists after the call: the columns shown and the file.
type Tried = (Uncrewed, Lent<u16>, Lent<u8>);

/// The answer, and the columns shown. The places behind these keep the pattern.
pub fn uncrewed(report: &mut Report, file: &[u8], limit: u32, room: usize) -> (Uncrewed, Vec<u16>) {
    let run = |call: UncrewedCall| -> Tried {
        let (mut shown, lent_file) = (shorts(room), bytes(file.len()).holding(file));
        (call(lent_file.list(), limit, shown.list_mut()), shown, black_box(lent_file))
    };
    let what = || format!("sailings that can't be crewed, allowance {limit}, room {room}, {}", hex(file));
    let found = run(engine::uncrewed);
    report.same(&found, &run(plain::uncrewed), what);
    let count = (found.0.columns as usize).min(room);
    let (list, pattern) = (found.1.list(), shorts(room));
    report.holds(list[count..] == pattern.list()[count..], || format!("places not filled in, {}", what()));
    (found.0, list[..count].to_vec())
}

/// Desks of which each place holds a pattern of its own.
fn desks() -> Lent<Desk> {
    Lent::new(1, |place| Desk {
        marks: std::array::from_fn(|column| (column * 7 + place) as u8),
        covered: std::array::from_fn(|row| (row * 13 + place) as u32),
        off: place as u32 + 300,
        total: -(place as i32) - 5,
    })
}

/// Where two desks differ, as text.
pub fn differences(found: &Desk, wanted: &Desk) -> Vec<String> {
    let mut all = Vec::new();
    if found == wanted {
        return all;
    }
    let mut compare = |what: String, found: i64, wanted: i64| {
        if found != wanted {
            all.push(format!("{what}: {found}, wanted {wanted}"));
        }
    };
    compare("sailings off".into(), found.off.into(), wanted.off.into());
    compare("total".into(), found.total.into(), wanted.total.into());
    for row in 0..MOST_ROWS {
        compare(format!("sailing {} covered", row + 1), found.covered[row].into(), wanted.covered[row].into());
    }
    for column in 0..MOST_COLUMNS {
        compare(format!("mark of duty {}", column + 1), found.marks[column].into(), wanted.marks[column].into());
    }
    all
}

/// A call of the engine on a desk that stands between others, with the file inside a longer list: the answer, and what else was touched.
fn on_desk<T>(file: &[u8], desk: &mut Desk, call: impl FnOnce(&[u8], &mut Desk) -> T) -> (T, &'static str) {
    let (mut lent, lent_file) = (desks().holding(&[*desk]), bytes(file.len()).holding(file));
    let answer = call(lent_file.list(), &mut lent.list_mut()[0]);
    *desk = lent.list()[0];
    let is_kept = lent == desks().holding(&[*desk]) && black_box(lent_file) == bytes(file.len()).holding(file);
    (answer, if is_kept { "" } else { "the file or a place beside the desk" })
}

/// The refusal of an empty desk, and the desk afterwards. `recount` is the same desk, kept by (a).
pub fn desk_empty(report: &mut Report, file: &[u8], desk: &mut Desk, recount: &mut Recount) -> u32 {
    let (found, touched) = on_desk(file, desk, engine::desk_empty);
    let wanted = recount.empty(file);
    let differing = differences(desk, &recount.desk());
    report.same(&(found, touched, differing), &(wanted, "", Vec::new()), || format!("empty desk, {}", hex(file)));
    found
}

/// The same for a step.
pub fn desk_step(report: &mut Report, way: Way, file: &[u8], column: u32, desk: &mut Desk, recount: &mut Recount) -> Step {
    let (found, touched) = on_desk(file, desk, |file, desk| engine::desk_step(way, file, column, desk));
    let wanted = recount.step(way, file, column);
    let differing = differences(desk, &recount.desk());
    report.same(&(found, touched, differing), &(wanted, "", Vec::new()), || format!("{way} duty {column}, {}", hex(file)));
    found
}

pub fn desk_reply(report: &mut Report, desk: &Desk, recount: &Recount) -> Reply {
    let found = engine::desk_reply(desk.off, desk.total);
    report.same(&found, &recount.reply(), || format!("reply with {} sailings off, total {}", desk.off, desk.total));
    found
}

/// A step that takes the first column out of a desk of a pattern, a step out of range, and an empty desk.
fn desk_calls(report: &mut Report, file: &[u8]) {
    let mut desk = desks().list()[0];
    let mut recount = Recount::new(desk);
    desk_step(report, Way::Remove, file, 1, &mut desk, &mut recount);
    desk_step(report, Way::Add, file, 257, &mut desk, &mut recount);
    desk_empty(report, file, &mut desk, &mut recount);
}

/// All calls that take a file, with room for any file.
pub fn all_calls(report: &mut Report, file: &[u8], limit: u32) {
    read(report, file, [256, 256, 4096]);
    check(report, file, &[1]);
    reduce(report, file, [256, 64]);
    for goal in Goal::BOTH {
        search(report, goal, file, limit, 64);
    }
    uncrewed(report, file, limit, 64);
    desk_calls(report, file);
}
