//! Scripts of edits, and performing them on a sheet.

use std::fmt;

use crate::fault::Fault;
use crate::line::Line;
use crate::measure::Measure;
use crate::search::Family;
use crate::sheet::{Room, Sheet};

#[derive(Clone, Copy, Debug, PartialEq, Eq)]
pub enum Edit {
    Pin(u32),
    Release(u32),
    Retune { level: u32, tolerance: u32 },
    Draw,
}

/// The number, counted from 1, of the first line of a script that cannot be read.
#[derive(Clone, Copy, Debug, PartialEq, Eq)]
pub struct BadLine(pub usize);

impl fmt::Display for BadLine {
    fn fmt(&self, f: &mut fmt::Formatter<'_>) -> fmt::Result {
        write!(
            f,
            "line {}: expected pin V, release V, retune K T or draw",
            self.0
        )
    }
}

impl std::error::Error for BadLine {}

/// Reads the lines of a script. Blank lines and comments order nothing.
pub fn read_script<'a>(lines: impl IntoIterator<Item = &'a str>) -> Result<Vec<Edit>, BadLine> {
    let mut edits = Vec::new();
    for (number, line) in (1..).zip(lines) {
        let words: Vec<&str> = line
            .split([' ', '\t', '\r'])
            .filter(|word| !word.is_empty())
            .collect();
        match words.first() {
            None => {}
            Some(first) if first.starts_with('#') => {}
            Some(_) => edits.push(read_edit(&words).ok_or(BadLine(number))?),
        }
    }
    Ok(edits)
}

fn read_edit(words: &[&str]) -> Option<Edit> {
    match *words {
        ["pin", vertex] => Some(Edit::Pin(whole_number(vertex)?)),
        ["release", vertex] => Some(Edit::Release(whole_number(vertex)?)),
        ["retune", level, tolerance] => Some(Edit::Retune {
            level: whole_number(level)?,
            tolerance: whole_number(tolerance)?,
        }),
        ["draw"] => Some(Edit::Draw),
        _ => None,
    }
}

/// The number that decimal digits write, if it is at most 4,294,967,295. Zeros may lead.
fn whole_number(word: &str) -> Option<u32> {
    if word.bytes().all(|b| b.is_ascii_digit()) {
        word.parse().ok()
    } else {
        None
    }
}

/// What became of an edit that was not refused. Its text is what `edit` prints, without the last line feed.
#[derive(Clone, Debug, PartialEq, Eq)]
pub enum Outcome {
    Pinned(u32),
    Released(u32),
    Retuned { level: u32, tolerance: u32 },
    Drawn(Family),
}

impl fmt::Display for Outcome {
    fn fmt(&self, f: &mut fmt::Formatter<'_>) -> fmt::Result {
        match self {
            Outcome::Pinned(vertex) => write!(f, "pinned {vertex}"),
            Outcome::Released(vertex) => write!(f, "released {vertex}"),
            Outcome::Retuned { level, tolerance } => write!(f, "retuned {level} {tolerance}"),
            Outcome::Drawn(family) => family.fmt(f),
        }
    }
}

/// Tries one edit on a sheet. Draws are of the line given.
pub fn perform<M: Measure>(
    edit: Edit,
    sheet: &mut Sheet<M>,
    line: &Line,
    room: Room,
) -> Result<Outcome, Fault> {
    match edit {
        Edit::Pin(vertex) => {
            sheet.pin(vertex as usize)?;
            Ok(Outcome::Pinned(vertex))
        }
        Edit::Release(vertex) => {
            sheet.release(vertex as usize)?;
            Ok(Outcome::Released(vertex))
        }
        Edit::Retune { level, tolerance } => {
            sheet.retune(level as usize, tolerance)?;
            Ok(Outcome::Retuned { level, tolerance })
        }
        Edit::Draw => Ok(Outcome::Drawn(sheet.draw(line, room)?)),
    }
}

#[cfg(test)]
mod tests {
    use super::*;

    fn read(text: &str) -> Result<Vec<Edit>, BadLine> {
        read_script(text.split('\n'))
    }

    #[test]
    fn each_kind_of_edit() {
        let edits = read("pin 2\nrelease 3\nretune 1 0\ndraw\n").unwrap();
        let retune = Edit::Retune {
            level: 1,
            tolerance: 0,
        };
        assert_eq!(edits, [Edit::Pin(2), Edit::Release(3), retune, Edit::Draw]);
    }

    #[test]
    fn blanks_and_comments() {
        let edits = read("\n \t \r\n# pin 1\n  #pin 1\n\tpin\r 7 \r\ndraw").unwrap();
        assert_eq!(edits, [Edit::Pin(7), Edit::Draw]);
        assert_eq!(read(""), Ok(vec![]));
    }

    #[test]
    fn the_first_bad_line_is_named() {
        for bad in [
            "pin",
            "pin 1 2",
            "pin x",
            "pin -1",
            "pin +1",
            "pin 4294967296",
            "Pin 1",
            "draw 1",
            "draw #",
            "retune 1",
            "retune 1 2 3",
            "release",
            "undo",
            "pin 1;draw",
            "pin\u{a0}1",
            "pin 0x1",
        ] {
            assert_eq!(
                read(&format!("# one\n\n{bad}\nworse\n")),
                Err(BadLine(3)),
                "{bad}"
            );
        }
        let text = BadLine(3).to_string();
        assert_eq!(
            text,
            "line 3: expected pin V, release V, retune K T or draw"
        );
    }

    #[test]
    fn whole_numbers() {
        assert_eq!(whole_number("0"), Some(0));
        assert_eq!(whole_number("000"), Some(0));
        assert_eq!(whole_number("0000000000000000000012"), Some(12));
        assert_eq!(whole_number("4294967295"), Some(u32::MAX));
        assert_eq!(whole_number("4294967296"), None);
        assert_eq!(whole_number("99999999999999999999999"), None);
        assert_eq!(whole_number("1_0"), None);
        assert_eq!(whole_number("\u{0663}"), None);
        assert_eq!(whole_number(""), None);
    }
}
