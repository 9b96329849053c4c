//! `second PROGRAM`: reads standard input and writes standard output as the program of that name does.

use std::env;
use std::error::Error;
use std::ffi::OsString;
use std::fs;
use std::io::{self, BufRead, BufWriter, Read, Write};
use std::process::ExitCode;

use second::programs::{
    bad_script, draw, edit, edit_hex_line, hex_line, least, mark, script_lines, Output,
};
use second::script::read_script;

const USAGE: &str = "usage: second mark|draw|least|edit JOB|mark_hex|draw_hex|least_hex|edit_hex";

/// The status, or an error that is told on standard error.
type Ended = Result<ExitCode, Box<dyn Error>>;

fn main() -> ExitCode {
    let mut arguments = env::args_os().skip(1);
    let program = arguments.next().unwrap_or_default();
    let ended = match program.to_str() {
        Some("mark") => return quiet(run(mark)),
        Some("least") => return quiet(run(least)),
        Some("draw") => return quiet(run(draw)),
        Some("edit") => run_edit(arguments.next()),
        Some("mark_hex") => run_hex(|line| hex_line(line, mark)),
        Some("least_hex") => run_hex(|line| hex_line(line, least)),
        Some("draw_hex") => run_hex(|line| hex_line(line, draw)),
        Some("edit_hex") => run_hex(edit_hex_line),
        _ => Err(USAGE.into()),
    };
    ended.unwrap_or_else(|error| {
        eprintln!("second: {error}");
        ExitCode::FAILURE
    })
}

/// These programs print nothing to standard error.
fn quiet(ended: Ended) -> ExitCode {
    ended.unwrap_or(ExitCode::FAILURE)
}

fn run(program: fn(&[u8]) -> Output) -> Ended {
    let mut pack = Vec::new();
    io::stdin().lock().read_to_end(&mut pack)?;
    print(program(&pack))
}

fn run_edit(job: Option<OsString>) -> Ended {
    let job = job.ok_or("edit: no job is named")?;
    let pack = fs::read(&job).map_err(|error| format!("{}: {error}", job.display()))?;
    let mut script = Vec::new();
    io::stdin().lock().read_to_end(&mut script)?;
    // What is no text becomes a character that is no blank and orders nothing; it may stand in a comment.
    match read_script(script_lines(&String::from_utf8_lossy(&script))) {
        Ok(edits) => print(edit(&edits, &pack)),
        Err(bad) => print(bad_script(bad)),
    }
}

fn print(output: Output) -> Ended {
    let mut stdout = io::stdout().lock();
    stdout.write_all(output.text.as_bytes())?;
    stdout.flush()?;
    Ok(if output.success {
        ExitCode::SUCCESS
    } else {
        ExitCode::FAILURE
    })
}

/// Answers line after line. Input that is not UTF-8 text ends it; the answers before are printed all the same.
fn run_hex(answer: impl Fn(&str) -> String) -> Ended {
    let mut stdout = BufWriter::new(io::stdout().lock());
    let mut failure = None;
    // A line ends in a line feed, or in a carriage return and a line feed, which are both left out here.
    for line in io::stdin().lock().lines() {
        match line {
            Ok(line) => stdout.write_all(answer(&line).as_bytes())?,
            Err(error) => {
                failure = Some(error);
                break;
            }
        }
    }
    stdout.flush()?;
    match failure {
        Some(error) => Err(error.into()),
        None => Ok(ExitCode::SUCCESS),
    }
}
