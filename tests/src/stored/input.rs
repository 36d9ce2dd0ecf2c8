//! Duty files as the stored inputs hold them: a line for each, of words and at its end the file's bytes in hexadecimal.

use super::text;
use crate::edition::Edition;
use crate::files::Columns;
use crate::plain;

/// The programs keep so many bytes of a file; one more than the largest file has.
const SPACE: usize = 6153;

/// A line of an input: the words in front, and the file.
pub struct Line {
    pub words: Vec<String>,
    pub file: Vec<u8>,
}

/// The bytes that a text has in hexadecimal.
fn decoded(text: &str) -> Option<Vec<u8>> {
    let digits: Option<Vec<u32>> = text.chars().map(|letter| letter.to_digit(16)).collect();
    let digits = digits.filter(|digits| digits.len() % 2 == 0)?;
    Some(digits.chunks(2).map(|pair| (pair[0] * 16 + pair[1]) as u8).take(SPACE).collect())
}

/// The lines of an input, each with so many words in front of its file.
pub fn lines(name: &str, words: usize) -> Result<Vec<Line>, String> {
    let text = text(name)?;
    let lines: Result<Vec<Line>, String> = text
        .lines()
        .enumerate()
        .map(|(number, line)| {
            let mut parts: Vec<&str> = line.split(' ').collect();
            let file = parts.pop().and_then(decoded).filter(|_| parts.len() == words);
            let file = file.ok_or_else(|| format!("{name}, line {}: not {words} words and a file in hexadecimal", number + 1))?;
            Ok(Line { words: parts.into_iter().map(String::from).collect(), file })
        })
        .collect();
    lines.and_then(|lines| if lines.is_empty() { Err(format!("{name}: has no line")) } else { Ok(lines) })
}

/// The columns of an accepted file, as the second solver takes them.
pub fn columns(file: &[u8]) -> Option<Columns> {
    let (mut costs, mut lengths, mut numbers) = (vec![0; 256], vec![0; 256], vec![0; 4096]);
    let shape = plain::read(file, &mut costs, &mut lengths, &mut numbers);
    let edition = Edition::numbered(shape.edition)?;
    costs.truncate(shape.columns as usize);
    let mut rest = &numbers[..shape.entries as usize];
    let mut bodies = Vec::new();
    for &length in &lengths[..shape.columns as usize] {
        let (body, behind) = rest.split_at(length as usize);
        bodies.push(body.to_vec());
        rest = behind;
    }
    Some(Columns { edition, rows: shape.rows as u16, costs, bodies })
}
