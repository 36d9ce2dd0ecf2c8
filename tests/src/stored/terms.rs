//! Terms as the tables of the specifications (.antt) have them: words, a word applied to others, and lists `a ∷ b ∷ []`.

use std::fmt;

/// A term and the number of the line on which it starts.
#[derive(Clone, Debug)]
pub struct Term {
    pub line: usize,
    pub form: Form,
}

#[derive(Clone, Debug)]
pub enum Form {
    Word(String),
    Apply(Vec<Term>),
    List(Vec<Term>),
}

impl Term {
    /// The items of a list.
    pub fn items(&self) -> Option<&[Term]> {
        match &self.form {
            Form::List(items) => Some(items),
            _ => None,
        }
    }

    /// The words that the term consists of, if it is a word or words applied to each other.
    pub fn words(&self) -> Option<Vec<&str>> {
        match &self.form {
            Form::Word(word) => Some(vec![word]),
            Form::Apply(parts) => parts.iter().map(Term::word).collect(),
            Form::List(_) => None,
        }
    }

    pub fn word(&self) -> Option<&str> {
        match &self.form {
            Form::Word(word) => Some(word),
            _ => None,
        }
    }
}

/// The term's text on one line, as the specifications write it.
impl fmt::Display for Term {
    fn fmt(&self, out: &mut fmt::Formatter) -> fmt::Result {
        match &self.form {
            Form::Word(word) => write!(out, "{word}"),
            Form::Apply(parts) => {
                let parts: Vec<String> = parts.iter().map(|part| enclosed(part, part.word().is_some())).collect();
                write!(out, "{}", parts.join(" "))
            }
            Form::List(items) => {
                items.iter().try_for_each(|item| write!(out, "{} ∷ ", enclosed(item, item.items().is_none())))?;
                write!(out, "[]")
            }
        }
    }
}

/// The term's text, in parentheses unless it stands alone.
fn enclosed(term: &Term, alone: bool) -> String {
    if alone {
        term.to_string()
    } else {
        format!("({term})")
    }
}
