//! Lines and packs that several tests use.

use crate::line::{Line, Vertex};

const FIVE_FAMILY: &str = "02000000010001011400000002000000000002000100040000000600030008000000\
    1000000003000100000001000000030000000100000008000000040000000200030004000400000004000000\
    04000c0000000500040000000000000000000000";

/// The family pack of the five-vertex example, 98 bytes.
pub fn five_family() -> Vec<u8> {
    let digits = FIVE_FAMILY.as_bytes();
    let digit = |d: u8| char::from(d).to_digit(16).unwrap() as u8;
    digits
        .chunks(2)
        .map(|pair| digit(pair[0]) * 16 + digit(pair[1]))
        .collect()
}

pub fn five_family_text() -> &'static str {
    FIVE_FAMILY
}

/// The job pack of the five-vertex example, 56 bytes.
pub fn five_job() -> Vec<u8> {
    five_family()[..56].to_vec()
}

pub fn line(vertices: &[(i16, i16)]) -> Line {
    Line::new(vertices.iter().map(|&(x, y)| Vertex::new(x, y)).collect()).unwrap()
}

/// A job pack with these contents, lawful or not.
pub fn pack_of(measure: u8, price: u8, vertices: &[(i16, i16)], levels: &[(u32, u32)]) -> Vec<u8> {
    let points: Vec<u8> = vertices
        .iter()
        .flat_map(|&(x, y)| [x.to_le_bytes(), y.to_le_bytes()])
        .flatten()
        .collect();
    let levels: Vec<u8> = levels
        .iter()
        .flat_map(|&(tolerance, weight)| [tolerance.to_le_bytes(), weight.to_le_bytes()])
        .flatten()
        .collect();
    [
        record(1, &[measure, price]),
        record(2, &points),
        record(3, &levels),
    ]
    .concat()
}

pub fn record(kind: u16, body: &[u8]) -> Vec<u8> {
    let length = u32::try_from(body.len()).unwrap();
    [&length.to_le_bytes()[..], &kind.to_le_bytes(), body].concat()
}
