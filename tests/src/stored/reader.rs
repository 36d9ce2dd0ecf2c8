//! Reads statements and terms of the specifications (.antt). A statement is a line that starts at the margin with the indented lines behind
//! it. `--` starts a comment.

use super::terms::{Form, Term};

/// A word or a parenthesis, and the number of its line.
#[derive(Clone, Debug)]
pub struct Token {
    pub line: usize,
    pub text: String,
}

/// The statements of a text, each as its tokens.
pub fn statements(text: &str) -> Vec<Vec<Token>> {
    let mut statements: Vec<Vec<Token>> = Vec::new();
    for (number, line) in text.lines().enumerate() {
        let code = line.split("--").next().unwrap_or_default().replace('(', " ( ").replace(')', " ) ");
        if !line.starts_with(' ') || statements.is_empty() {
            statements.push(Vec::new());
        }
        let tokens = code.split_whitespace().map(|word| Token { line: number + 1, text: word.to_string() });
        statements.last_mut().expect("a statement was started").extend(tokens);
    }
    statements.retain(|statement| !statement.is_empty());
    statements
}

/// The texts of a statement's tokens.
pub fn texts(statement: &[Token]) -> Vec<&str> {
    statement.iter().map(|token| token.text.as_str()).collect()
}

/// Reads terms from a statement's tokens.
pub struct Reader<'a> {
    file: &'a str,
    line: usize,
    rest: &'a [Token],
}

impl<'a> Reader<'a> {
    pub fn new(file: &'a str, tokens: &'a [Token]) -> Reader<'a> {
        Reader { file, line: tokens.first().map_or(0, |token| token.line), rest: tokens }
    }

    fn next_is(&self, word: &str) -> bool {
        self.rest.first().is_some_and(|token| token.text == word)
    }

    /// Passes over a word that must come next.
    pub fn expect(&mut self, word: &str) -> Result<(), String> {
        match self.rest {
            [token, rest @ ..] if token.text == word => {
                (self.line, self.rest) = (token.line, rest);
                Ok(())
            }
            [token, ..] => Err(format!("{}, line {}: {} stands where {word} is read", self.file, token.line, token.text)),
            [] => Err(format!("{}, line {}: ends where {word} is read", self.file, self.line)),
        }
    }

    /// The tokens must be used up.
    pub fn end(&self) -> Result<(), String> {
        match self.rest.first() {
            None => Ok(()),
            Some(token) => Err(format!("{}, line {}: {} stands behind the end", self.file, token.line, token.text)),
        }
    }

    /// A word, or a term in parentheses.
    pub fn part(&mut self) -> Result<Term, String> {
        let Some(Token { line, text }) = self.rest.first() else {
            return Err(format!("{}, line {}: ends where a term is read", self.file, self.line));
        };
        if text == "(" {
            self.expect("(")?;
            let inner = self.list()?;
            self.expect(")")?;
            return Ok(Term { line: *line, ..inner });
        }
        self.expect(text)?;
        let form = if text == "[]" { Form::List(Vec::new()) } else { Form::Word(text.clone()) };
        Ok(Term { line: *line, form })
    }

    /// A word with the parts that it is applied to.
    fn application(&mut self) -> Result<Term, String> {
        let mut parts = vec![self.part()?];
        while !self.rest.is_empty() && !self.next_is(")") && !self.next_is("∷") {
            parts.push(self.part()?);
        }
        if parts.len() == 1 {
            return Ok(parts.remove(0));
        }
        Ok(Term { line: parts[0].line, form: Form::Apply(parts) })
    }

    /// Applications that `∷` parts, the last of them `[]`; or a single one.
    fn list(&mut self) -> Result<Term, String> {
        let mut items = vec![self.application()?];
        while self.next_is("∷") {
            self.expect("∷")?;
            items.push(self.application()?);
        }
        if items.len() == 1 {
            return Ok(items.remove(0));
        }
        let line = items[0].line;
        match items.pop().map(|last| last.form) {
            Some(Form::List(last)) if last.is_empty() => Ok(Term { line, form: Form::List(items) }),
            _ => Err(format!("{}, line {}: a list that does not end in []", self.file, self.line)),
        }
    }
}
