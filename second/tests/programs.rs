//! Runs the programs as they are built: what they print, and their status.

use std::fs;
use std::io::Write;
use std::path::PathBuf;
use std::process::{Command, Stdio};

const FAMILY: &str = "02000000010001011400000002000000000002000100040000000600030008000000\
    1000000003000100000001000000030000000100000008000000040000000200030004000400000004000000\
    04000c0000000500040000000000000000000000";

const DRAWN: &str = "level 1 links 3: 0 2 3 4\nlevel 2 links 1: 0 4\ntotal 4 0\n";

const EDITED: &str = "pinned 2\n\
    level 1 links 3: 0 2 3 4\n\
    level 2 links 2: 0 2 4\n\
    total 5 0\n\
    refused 14 layer 4 place 2 spot 0\n\
    retuned 1 0\n\
    level 1 links 4: 0 1 2 3 4\n\
    level 2 links 2: 0 2 4\n\
    total 6 0\n";

fn family() -> Vec<u8> {
    second::hex::unhex(FAMILY).unwrap()
}

fn job() -> Vec<u8> {
    family()[..56].to_vec()
}

struct Ran {
    status: i32,
    stdout: String,
    stderr: String,
}

fn run(arguments: &[&str], input: &[u8]) -> Ran {
    let mut child = Command::new(env!("CARGO_BIN_EXE_second"))
        .args(arguments)
        .stdin(Stdio::piped())
        .stdout(Stdio::piped())
        .stderr(Stdio::piped())
        .spawn()
        .unwrap();
    // A program that ends before it has read all is no failure of the test.
    let _ = child.stdin.take().unwrap().write_all(input);
    let output = child.wait_with_output().unwrap();
    Ran {
        status: output.status.code().unwrap(),
        stdout: String::from_utf8(output.stdout).unwrap(),
        stderr: String::from_utf8(output.stderr).unwrap(),
    }
}

/// Runs a program that must print exactly this, and nothing to standard error.
fn expect(arguments: &[&str], input: &[u8], status: i32, stdout: &str) {
    let ran = run(arguments, input);
    assert_eq!(
        (ran.status, ran.stdout.as_str(), ran.stderr.as_str()),
        (status, stdout, "")
    );
}

/// A file of the five-vertex job. Each test names its own.
fn job_file(name: &str) -> PathBuf {
    let path = PathBuf::from(env!("CARGO_TARGET_TMPDIR")).join(name);
    fs::write(&path, job()).unwrap();
    path
}

#[test]
fn mark() {
    expect(&["mark"], &family(), 0, "valid 4 0\n");
    let mut changed = family();
    *changed.last_mut().unwrap() += 1;
    expect(
        &["mark"],
        &changed,
        1,
        "refused 12 layer 3 place 0 spot 0\n",
    );
    expect(&["mark"], &[], 1, "refused 1 layer 1 place 0 spot 0\n");
}

#[test]
fn least_and_draw() {
    for program in ["least", "draw"] {
        expect(&[program], &job(), 0, DRAWN);
        expect(
            &[program],
            &family(),
            1,
            "refused 4 layer 1 place 56 spot 0\n",
        );
    }
}

#[test]
fn edit() {
    let file = job_file("edit.job");
    let file = file.to_str().unwrap();
    expect(
        &["edit", file],
        b"pin 2\ndraw\npin 2\nretune 1 0\ndraw\n",
        0,
        EDITED,
    );
    expect(
        &["edit", file],
        b"release 4294967295",
        0,
        "refused 13 layer 4 place 4294967295 spot 0\n",
    );
    let bad = "line 3: expected pin V, release V, retune K T or draw\n";
    expect(
        &["edit", file],
        b"# comment\ndraw\npin 4294967296\n",
        1,
        bad,
    );
    expect(&["edit", file], b"", 0, "");
    expect(&["edit", file], b"# \xff\n\n\xff\n", 1, bad);
    expect(&["edit", file], b"# \xff\ndraw\n", 0, DRAWN);
}

#[test]
fn edit_without_its_input() {
    for (arguments, script) in [
        (vec!["edit"], &b"draw\n"[..]),
        (vec!["edit", "no/such/file"], b"draw\n"),
        (vec!["edit", "no/such/file"], b"pins\n"),
    ] {
        let ran = run(&arguments, script);
        assert_eq!((ran.status, ran.stdout.as_str()), (1, ""));
        assert!(!ran.stderr.is_empty());
    }
}

#[test]
fn many_packs() {
    let family = FAMILY;
    let job = &FAMILY[..112];
    let input = format!("{family}\n\n{family}\r\nxyz\n{family}0\n{job}");
    let verdicts = "valid 4 0\nrefused 1 layer 1 place 0 spot 0\nvalid 4 0\nnot hex\nnot hex\n\
        refused 1 layer 1 place 0 spot 0\n";
    expect(&["mark_hex"], input.as_bytes(), 0, verdicts);
    let input = format!("{job}\n{family}\n0\n{job}\r\n");
    let drawn = format!("{DRAWN}refused 4 layer 1 place 56 spot 0\nnot hex\n{DRAWN}");
    expect(&["least_hex"], input.as_bytes(), 0, &drawn);
    expect(&["draw_hex"], input.as_bytes(), 0, &drawn);
    let input =
        format!("{job} pin 2;draw;pin 2;retune 1 0;draw\n\r\n{job} draw\r\n{job} pin\n- draw");
    let bad = "line 1: expected pin V, release V, retune K T or draw\n";
    let edited = format!("{EDITED}refused 1 layer 1 place 0 spot 0\n{DRAWN}{bad}not hex\n");
    expect(&["edit_hex"], input.as_bytes(), 0, &edited);
}

#[test]
fn no_lines() {
    for program in ["mark_hex", "least_hex", "draw_hex", "edit_hex"] {
        expect(&[program], b"", 0, "");
    }
}

#[test]
fn input_that_is_no_text() {
    let input = [FAMILY.as_bytes(), b"\n\xff\n", FAMILY.as_bytes(), b"\n"].concat();
    let ran = run(&["mark_hex"], &input);
    assert_eq!((ran.status, ran.stdout.as_str()), (1, "valid 4 0\n"));
}
