//! What each program prints for its input.

use std::fmt::Write;

use crate::fault::Fault;
use crate::hex::unhex;
use crate::marker::mark_pack;
use crate::measure::Measure;
use crate::pack::read_job;
use crate::script::{perform, read_script, BadLine, Edit};
use crate::search::{first_least_family, Family};
use crate::sheet::{Room, Sheet};

/// Printed lines, each ended by a line feed, and whether they tell of success.
#[derive(Clone, Debug, PartialEq, Eq)]
pub struct Output {
    pub text: String,
    pub success: bool,
}

impl Output {
    fn success(lines: impl std::fmt::Display) -> Self {
        Output {
            text: format!("{lines}\n"),
            success: true,
        }
    }

    fn failure(line: impl std::fmt::Display) -> Self {
        Output {
            text: format!("{line}\n"),
            success: false,
        }
    }
}

pub fn mark(pack: &[u8]) -> Output {
    match mark_pack(pack) {
        Ok(total) => Output::success(format_args!("valid {} {}", total.count, total.area)),
        Err(fault) => Output::failure(fault),
    }
}

pub fn least(pack: &[u8]) -> Output {
    drawn(least_of(pack))
}

pub fn draw(pack: &[u8]) -> Output {
    drawn(draw_of(pack))
}

fn drawn(answer: Result<Family, Fault>) -> Output {
    match answer {
        Ok(family) => Output::success(family),
        Err(fault) => Output::failure(fault),
    }
}

fn least_of(pack: &[u8]) -> Result<Family, Fault> {
    let job = read_job(pack)?;
    Ok(first_least_family(
        &job.line,
        &job.levels,
        job.price,
        |i, j, t| job.measure.allows(&job.line, i, j, t),
    ))
}

fn draw_of(pack: &[u8]) -> Result<Family, Fault> {
    let job = read_job(pack)?;
    let sheet = Sheet::open(job.line.count(), job.levels, job.measure, job.price)?;
    sheet.draw(&job.line, Room::SMALL)
}

/// Performs edits on a sheet that is opened with the job of a pack.
pub fn edit(edits: &[Edit], pack: &[u8]) -> Output {
    match edited(edits, pack) {
        Ok(text) => Output {
            text,
            success: true,
        },
        Err(fault) => Output::failure(fault),
    }
}

/// What is printed for a script that cannot be read.
pub fn bad_script(line: BadLine) -> Output {
    Output::failure(line)
}

/// The lines that tell what each edit did, or the fault of the pack.
fn edited(edits: &[Edit], pack: &[u8]) -> Result<String, Fault> {
    let job = read_job(pack)?;
    let mut sheet = Sheet::open(job.line.count(), job.levels, job.measure, job.price)?;
    let mut text = String::new();
    for &edit in edits {
        let written = match perform(edit, &mut sheet, &job.line, Room::FULL) {
            Ok(outcome) => writeln!(text, "{outcome}"),
            Err(fault) => writeln!(text, "{fault}"),
        };
        written.expect("a string takes every text");
    }
    Ok(text)
}

/// The lines of a script that is a text of its own.
pub fn script_lines(text: &str) -> impl Iterator<Item = &str> {
    // Where the last line has its line feed, an empty piece comes after it, which is passed over like a blank line.
    text.split('\n')
}

const NOT_HEX: &str = "not hex\n";

/// What a program prints for a line that holds a pack in hexadecimal digits.
pub fn hex_line(line: &str, program: fn(&[u8]) -> Output) -> String {
    match unhex(line) {
        Some(pack) => program(&pack).text,
        None => NOT_HEX.to_string(),
    }
}

/// What `edit` prints for a line that holds a pack in hexadecimal digits, a space, and edits parted by semicolons. Without
/// a space there are no edits.
pub fn edit_hex_line(line: &str) -> String {
    let (digits, edits) = line.split_once(' ').unwrap_or((line, ""));
    let Some(pack) = unhex(digits) else {
        return NOT_HEX.to_string();
    };
    match read_script(edits.split(';')) {
        Ok(edits) => edit(&edits, &pack).text,
        Err(bad) => bad_script(bad).text,
    }
}

#[cfg(test)]
mod tests {
    use super::*;
    use crate::samples::{five_family, five_family_text, five_job, pack_of};

    const FIVE_DRAWN: &str = "level 1 links 3: 0 2 3 4\nlevel 2 links 1: 0 4\ntotal 4 0\n";

    const FIVE_EDITED: &str = "pinned 2\n\
        level 1 links 3: 0 2 3 4\n\
        level 2 links 2: 0 2 4\n\
        total 5 0\n\
        refused 14 layer 4 place 2 spot 0\n\
        retuned 1 0\n\
        level 1 links 4: 0 1 2 3 4\n\
        level 2 links 2: 0 2 4\n\
        total 6 0\n";

    fn edit_text(script: &str, pack: &[u8]) -> Output {
        match read_script(script_lines(script)) {
            Ok(edits) => edit(&edits, pack),
            Err(bad) => bad_script(bad),
        }
    }

    #[test]
    fn marking_the_sample() {
        assert_eq!(mark(&five_family()), Output::success("valid 4 0"));
        let mut changed = five_family();
        changed[97] += 1;
        assert_eq!(
            mark(&changed),
            Output::failure("refused 12 layer 3 place 0 spot 0")
        );
        assert_eq!(
            mark(&five_job()),
            Output::failure("refused 1 layer 1 place 0 spot 0")
        );
    }

    #[test]
    fn drawing_the_sample() {
        for program in [least, draw] {
            let output = program(&five_job());
            assert_eq!(
                output,
                Output {
                    text: FIVE_DRAWN.to_string(),
                    success: true
                }
            );
            let refused = program(&five_family());
            assert_eq!(
                refused,
                Output::failure("refused 4 layer 1 place 56 spot 0")
            );
        }
    }

    #[test]
    fn editing_the_sample() {
        let output = edit_text("pin 2\ndraw\npin 2\nretune 1 0\ndraw\n", &five_job());
        assert_eq!(
            output,
            Output {
                text: FIVE_EDITED.to_string(),
                success: true
            }
        );
        let indented = edit_text(
            "    pin 2\n    draw\n    pin 2\n    retune 1 0\n    draw",
            &five_job(),
        );
        assert_eq!(indented, output);
    }

    #[test]
    fn the_script_is_read_before_the_pack() {
        let bad = Output::failure("line 2: expected pin V, release V, retune K T or draw");
        assert_eq!(edit_text("draw\npin\n", &[]), bad);
        assert_eq!(
            edit_text("draw\n", &[]),
            Output::failure("refused 1 layer 1 place 0 spot 0")
        );
        assert_eq!(
            edit_text("", &[]),
            Output::failure("refused 1 layer 1 place 0 spot 0")
        );
        assert_eq!(
            edit_text("", &five_job()),
            Output {
                text: String::new(),
                success: true
            }
        );
    }

    #[test]
    fn the_memory_of_draw() {
        let drawn = |n: usize, m: u32| {
            let levels: Vec<(u32, u32)> = (0..m).map(|t| (t, 1)).collect();
            let pack = pack_of(1, 1, &vec![(0, 0); n], &levels);
            assert!(least(&pack).success);
            draw(&pack)
        };
        assert!(drawn(40, 2).success);
        assert_eq!(
            drawn(40, 3),
            Output::failure("refused 18 layer 4 place 1 spot 0")
        );
        assert_eq!(
            drawn(41, 1),
            Output::failure("refused 18 layer 4 place 0 spot 0")
        );
        assert_eq!(
            drawn(41, 8),
            Output::failure("refused 18 layer 4 place 0 spot 0")
        );
        assert!(drawn(22, 8).success);
        assert_eq!(
            drawn(23, 8),
            Output::failure("refused 18 layer 4 place 1 spot 0")
        );
    }

    #[test]
    fn packs_in_hexadecimal_digits() {
        let family = five_family_text();
        let job = &family[..112];
        assert_eq!(hex_line(family, mark), "valid 4 0\n");
        assert_eq!(hex_line(&family.to_uppercase(), mark), "valid 4 0\n");
        assert_eq!(hex_line("", mark), "refused 1 layer 1 place 0 spot 0\n");
        assert_eq!(hex_line("0", mark), "not hex\n");
        assert_eq!(hex_line(&format!("{family} "), mark), "not hex\n");
        assert_eq!(hex_line(job, least), FIVE_DRAWN);
        assert_eq!(hex_line(job, draw), FIVE_DRAWN);
        assert_eq!(
            edit_hex_line(&format!("{job} pin 2;draw;pin 2;retune 1 0;draw")),
            FIVE_EDITED
        );
        assert_eq!(edit_hex_line(&format!("{job} ; # no ;draw;")), FIVE_DRAWN);
        assert_eq!(edit_hex_line(&format!("{job} ")), "");
        assert_eq!(edit_hex_line("0 pin"), "not hex\n");
        assert_eq!(
            edit_hex_line("00 draw;;pin"),
            "line 3: expected pin V, release V, retune K T or draw\n"
        );
        assert_eq!(
            edit_hex_line("00 draw"),
            "refused 1 layer 1 place 0 spot 0\n"
        );
    }
}
