//! The tables of the rules, which are proved there by computing. A table is read as `NAME : QUESTIONS ≡ VALUES`, with the questions
//! `order INSTANCE`, `solved INSTANCE LIMIT` for the sum, or `found INSTANCE LIMIT` for the longest duty; with lists of agreed and absent
//! columns `solved_with INSTANCE LIMIT AGREED ABSENT` and `found_with INSTANCE LIMIT AGREED ABSENT`, and with pairs of columns besides
//! `solved_paired INSTANCE LIMIT AGREED ABSENT PAIRS` and `found_paired INSTANCE LIMIT AGREED ABSENT PAIRS`. Of the rest of these files only
//! instances and numbers are read.

use super::names::{numbers, Names};
use super::reader::{statements, texts, Reader, Token};
use super::terms::{Form, Term};
use super::text;
use crate::answers::{Answer, BEST, NONE};
use crate::files::Columns;
use crate::goal::Goal;
use crate::plain;
use crate::requests::Requests;

/// The files of the rules that hold tables, and the names of these.
const TABLES: [(&str, &[&str]); 5] = [
    ("crates/rules/specs/Files.antt", &["files"]),
    ("crates/rules/specs/Cases.antt", &["orders", "cases"]),
    ("crates/rules/specs/LongestCases.antt", &["longest_cases"]),
    ("crates/rules/specs/RequestCases.antt", &["request_cases"]),
    ("crates/rules/specs/PairCases.antt", &["pair_cases"]),
];

/// What a place of a table asks of an instance.
pub enum Question {
    /// The rows in the sequence that reducing uses them.
    Order,
    /// The answer of the search for a goal within a node limit, with lists of agreed and absent columns and of pairs.
    Search { goal: Goal, limit: u32, agreed: Vec<u16>, absent: Vec<u16>, pairs: Vec<u16> },
}

/// A place of a table: an instance, what is asked, and the value that is stored, with its line.
pub struct Place {
    pub name: String,
    pub columns: Columns,
    pub question: Question,
    pub stored: String,
    pub line: usize,
}

pub struct Table {
    pub file: &'static str,
    pub name: &'static str,
    pub places: Vec<Place>,
}

/// Numbers as a list of the specifications.
fn list<T: ToString>(numbers: &[T]) -> String {
    let items: String = numbers.iter().map(|number| number.to_string() + " ∷ ").collect();
    items + "[]"
}

/// An answer as the specifications write it.
fn value(answer: &Answer, plan: &[u16]) -> String {
    let Answer { price, bound, nodes, .. } = answer;
    let plan = list(plan);
    match answer.outcome {
        BEST => format!("best {price} {bound} {nodes} ({plan})"),
        NONE => format!("none {nodes}"),
        _ if answer.has_plan == 0 => format!("stopped nothing {bound} {nodes}"),
        _ => format!("stopped (plan {price} ({plan})) {bound} {nodes}"),
    }
}

impl Place {
    /// The value, worked out anew.
    pub fn remade(&self) -> String {
        let file = self.columns.file();
        match &self.question {
            Question::Order => {
                let mut order = [0; 64];
                let answer = plain::reduce(&file, &mut [0; 256], &mut order);
                list(&order[..answer.used as usize])
            }
            Question::Search { goal, limit, agreed, absent, pairs } => {
                let mut plan = [0; 64];
                let answer = plain::search_with(*goal, &file, *limit, Requests { agreed, absent, pairs }, &mut plan);
                value(&answer, &plan[..answer.columns as usize])
            }
        }
    }
}

impl Table {
    /// The table's values, worked out anew, a line for each.
    pub fn remade(&self) -> String {
        let enclosed = |place: &Place| match place.question {
            Question::Order => format!("({})", place.remade()),
            Question::Search { .. } => place.remade(),
        };
        let lines: Vec<String> = self.places.iter().map(enclosed).collect();
        format!("    ({}\n    ∷ [])\n", lines.join("\n    ∷ "))
    }
}

/// What a place asks: the instance's name, and the question.
fn question(term: &Term, names: &Names) -> Option<(String, Question)> {
    let Form::Apply(parts) = &term.form else { return None };
    let words: Vec<&str> = parts.iter().map_while(Term::word).collect();
    let lists: Vec<Vec<u16>> = parts[words.len()..].iter().map(numbers).collect::<Option<_>>()?;
    let search = |goal: Goal, limit: &str, lists: [&[u16]; 3]| {
        let limit = names.numbers.get(limit).copied().or_else(|| limit.parse().ok())?;
        let [agreed, absent, pairs] = lists.map(<[u16]>::to_vec);
        Some(Question::Search { goal, limit, agreed, absent, pairs })
    };
    let asked = match (&words[..], &lists[..]) {
        (["order", _], []) => Question::Order,
        (["solved", _, limit], []) => search(Goal::Sum, limit, [&[]; 3])?,
        (["found", _, limit], []) => search(Goal::Longest, limit, [&[]; 3])?,
        (["solved_with", _, limit], [agreed, absent]) => search(Goal::Sum, limit, [agreed, absent, &[]])?,
        (["found_with", _, limit], [agreed, absent]) => search(Goal::Longest, limit, [agreed, absent, &[]])?,
        (["solved_paired", _, limit], [agreed, absent, pairs]) => search(Goal::Sum, limit, [agreed, absent, pairs])?,
        (["found_paired", _, limit], [agreed, absent, pairs]) => search(Goal::Longest, limit, [agreed, absent, pairs])?,
        _ => return None,
    };
    Some((words[1].to_string(), asked))
}

fn place(file: &str, asked: &Term, stored: &Term, names: &Names) -> Result<Place, String> {
    let fault = || format!("{file}, line {}: {asked} is not a question about an instance", asked.line);
    let (name, question) = question(asked, names).ok_or_else(fault)?;
    let columns = names.instances.get(&name).ok_or_else(fault)?.clone();
    Ok(Place { name, columns, question, stored: stored.to_string(), line: stored.line })
}

/// The table of a name in a file's statements.
fn table(file: &'static str, name: &'static str, statements: &[Vec<Token>], names: &Names) -> Result<Table, String> {
    let found = statements.iter().find(|statement| texts(statement).starts_with(&[name, ":"]));
    let statement = found.ok_or_else(|| format!("{file}: has no table {name}"))?;
    let mut reader = Reader::new(file, &statement[2..]);
    let asked = reader.part()?;
    reader.expect("≡")?;
    let stored = reader.part()?;
    reader.end()?;
    match (&asked.form, &stored.form) {
        (Form::List(asked), Form::List(stored)) if !asked.is_empty() && asked.len() == stored.len() => {
            let places: Result<Vec<Place>, String> =
                asked.iter().zip(stored).map(|(asked, stored)| place(file, asked, stored, names)).collect();
            Ok(Table { file, name, places: places? })
        }
        _ => Err(format!("{file}, line {}: {name} is not two lists of one length above 0", asked.line)),
    }
}

/// All tables. Each instance must stand in one of them.
pub fn tables() -> Result<Vec<Table>, String> {
    let mut names = Names::default();
    let mut tables = Vec::new();
    for (file, in_file) in TABLES {
        let statements = statements(&text(file)?);
        names.read(file, &statements)?;
        for &name in in_file {
            tables.push(table(file, name, &statements, &names)?);
        }
    }
    let is_used = |name: &String| tables.iter().any(|table| table.places.iter().any(|place| place.name == *name));
    match names.instances.keys().find(|name| !is_used(name)) {
        Some(name) => Err(format!("crates/rules/specs: {name} stands in no table")),
        None => Ok(tables),
    }
}
