//! Measures: whether a link is allowed at a tolerance.

use crate::fault::{Cause, Fault, Layer};
use crate::line::{Line, Vertex};

pub trait Measure {
    /// The largest tolerance of the measure.
    fn largest(&self) -> u32;

    /// Whether the link i→j is allowed at the tolerance t. A pair that is no link and a tolerance above the largest get no.
    fn allows(&self, line: &Line, i: usize, j: usize, t: u32) -> bool;
}

/// The measures that packs name by a number.
#[derive(Clone, Copy, Debug, PartialEq, Eq)]
pub enum MeasureKind {
    Segment,
    Strip,
    Area,
}

impl MeasureKind {
    pub fn from_number(number: u8) -> Option<Self> {
        match number {
            1 => Some(MeasureKind::Segment),
            2 => Some(MeasureKind::Strip),
            3 => Some(MeasureKind::Area),
            _ => None,
        }
    }
}

impl Measure for MeasureKind {
    fn largest(&self) -> u32 {
        match self {
            MeasureKind::Segment | MeasureKind::Strip => 32_768,
            MeasureKind::Area => 2_147_483_647,
        }
    }

    fn allows(&self, line: &Line, i: usize, j: usize, t: u32) -> bool {
        if !line.is_link(i, j) || t > self.largest() {
            return false;
        }
        let vertices = line.vertices();
        let (from, to) = (vertices[i], vertices[j]);
        let mut skipped = vertices[i + 1..j].iter();
        match self {
            MeasureKind::Segment => skipped.all(|&k| near_segment(from, to, k, t)),
            MeasureKind::Strip => skipped.all(|&k| near_straight_line(from, to, k, t)),
            MeasureKind::Area => line.link_area(i, j) <= u64::from(t),
        }
    }
}

/// The way from one vertex to another. Its products stay below 2^62, as coordinates are in range.
#[derive(Clone, Copy)]
struct Way {
    x: i64,
    y: i64,
}

impl Way {
    fn between(from: Vertex, to: Vertex) -> Self {
        Way {
            x: i64::from(to.x) - i64::from(from.x),
            y: i64::from(to.y) - i64::from(from.y),
        }
    }

    fn dot(self, other: Way) -> i64 {
        self.x * other.x + self.y * other.y
    }

    fn cross(self, other: Way) -> i64 {
        self.x * other.y - self.y * other.x
    }

    fn squared_length(self) -> i64 {
        self.dot(self)
    }
}

/// Whether k lies within t of the straight piece between two vertices.
fn near_segment(from: Vertex, to: Vertex, k: Vertex, t: u32) -> bool {
    let link = Way::between(from, to);
    let way = Way::between(from, k);
    let squared = i64::from(t) * i64::from(t);
    let along = link.dot(way);
    if along <= 0 {
        way.squared_length() <= squared
    } else if along >= link.squared_length() {
        Way::between(to, k).squared_length() <= squared
    } else {
        let cross = link.cross(way);
        cross * cross <= squared * link.squared_length()
    }
}

/// Whether k lies within t of the endless straight line through two vertices, or of their point if they lie at one.
fn near_straight_line(from: Vertex, to: Vertex, k: Vertex, t: u32) -> bool {
    let link = Way::between(from, to);
    let way = Way::between(from, k);
    let squared = i64::from(t) * i64::from(t);
    if link.squared_length() == 0 {
        way.squared_length() <= squared
    } else {
        let cross = link.cross(way);
        cross * cross <= squared * link.squared_length()
    }
}

/// The most entries that a list of approvals holds.
pub const MOST_APPROVALS: usize = 64;

/// The measure that goes by a list of approved links. No pack names it.
#[derive(Clone, Debug, Default, PartialEq, Eq)]
pub struct Approvals {
    entries: Vec<(usize, usize, u32)>,
}

impl Approvals {
    pub fn new() -> Self {
        Approvals::default()
    }

    /// Approves the link i→j from the tolerance t on.
    pub fn approve(&mut self, i: usize, j: usize, t: u32) -> Result<(), Fault> {
        if self.entries.len() >= MOST_APPROVALS {
            return Err(Fault::new(Cause::Full, Layer::Content, 0));
        }
        self.entries.push((i, j, t));
        Ok(())
    }
}

impl Measure for Approvals {
    fn largest(&self) -> u32 {
        32_768
    }

    fn allows(&self, line: &Line, i: usize, j: usize, t: u32) -> bool {
        line.is_link(i, j)
            && t <= self.largest()
            && (j == i + 1
                || self
                    .entries
                    .iter()
                    .any(|&(p, q, from)| (p, q) == (i, j) && from <= t))
    }
}

#[cfg(test)]
mod tests {
    use super::MeasureKind::{Area, Segment, Strip};
    use super::*;
    use crate::samples::line;

    /// Whether the link over all three vertices is allowed.
    fn answer(measure: MeasureKind, vertices: &[(i16, i16)], t: u32) -> bool {
        measure.allows(&line(vertices), 0, 2, t)
    }

    #[test]
    fn a_vertex_past_the_end() {
        let three = [(0, 0), (5, 0), (3, 0)];
        assert!(answer(Segment, &three, 2));
        assert!(!answer(Segment, &three, 1));
        assert!(answer(Strip, &three, 0));
    }

    #[test]
    fn a_vertex_beside_the_link() {
        let three = [(0, 0), (1, 7), (8, 6)];
        assert!(answer(Segment, &three, 5));
        assert!(!answer(Segment, &three, 4));
    }

    #[test]
    fn both_ends_at_one_point() {
        let three = [(0, 0), (3, 4), (0, 0)];
        for measure in [Segment, Strip] {
            assert!(answer(measure, &three, 5));
            assert!(!answer(measure, &three, 4));
        }
        assert!(answer(Area, &three, 0));
    }

    #[test]
    fn the_largest_right_angle() {
        let three = [(-16_384, -16_384), (16_383, -16_384), (16_383, 16_383)];
        assert!(answer(Segment, &three, 23_170));
        assert!(!answer(Segment, &three, 23_169));
    }

    #[test]
    fn area_of_the_five_vertex_example() {
        let five = line(&[(0, 0), (2, 1), (4, 0), (6, 3), (8, 0)]);
        assert!(Area.allows(&five, 0, 2, 4));
        assert!(!Area.allows(&five, 0, 2, 3));
        assert!(Area.allows(&five, 0, 4, 16));
        assert!(!Area.allows(&five, 0, 4, 15));
    }

    #[test]
    fn only_links_and_only_up_to_the_largest_tolerance() {
        let three = line(&[(0, 0), (0, 0), (0, 0)]);
        for measure in [Segment, Strip, Area] {
            let largest = measure.largest();
            assert!(measure.allows(&three, 0, 1, 0));
            assert!(measure.allows(&three, 0, 1, largest));
            assert!(measure.allows(&three, 0, 2, largest));
            assert!(!measure.allows(&three, 0, 1, largest + 1));
            assert!(!measure.allows(&three, 1, 1, 0));
            assert!(!measure.allows(&three, 1, 0, 0));
            assert!(!measure.allows(&three, 2, 3, 0));
        }
    }

    #[test]
    fn the_largest_numbers_do_not_overflow() {
        let ends = [(-16_384, -16_384), (16_383, 16_383)];
        for k in [(-16_384, 16_383), (16_383, -16_384)] {
            let three = [ends[0], k, ends[1]];
            for measure in [Segment, Strip] {
                assert!(answer(measure, &three, 32_768));
                assert!(answer(measure, &three, 23_170));
                assert!(!answer(measure, &three, 23_169));
            }
            assert!(answer(Area, &three, 1_073_676_289));
            assert!(!answer(Area, &three, 1_073_676_288));
        }
    }

    #[test]
    fn numbers_of_measures() {
        assert_eq!(MeasureKind::from_number(0), None);
        assert_eq!(MeasureKind::from_number(1), Some(Segment));
        assert_eq!(MeasureKind::from_number(2), Some(Strip));
        assert_eq!(MeasureKind::from_number(3), Some(Area));
        assert_eq!(MeasureKind::from_number(4), None);
    }

    #[test]
    fn approvals_hold_64_entries() {
        let mut approvals = Approvals::new();
        for _ in 0..64 {
            approvals.approve(0, 900, 70_000).unwrap();
        }
        let before = approvals.clone();
        let fault = approvals.approve(0, 2, 0).unwrap_err();
        assert_eq!(fault.to_string(), "refused 16 layer 2 place 0 spot 0");
        assert_eq!(approvals, before);
    }

    #[test]
    fn approvals_answer_by_their_entries() {
        let three = line(&[(0, 0), (9, 9), (0, 1)]);
        let mut approvals = Approvals::new();
        assert!(approvals.allows(&three, 0, 1, 0));
        assert!(!approvals.allows(&three, 0, 2, 32_768));
        approvals.approve(0, 2, 7).unwrap();
        assert!(!approvals.allows(&three, 0, 2, 6));
        assert!(approvals.allows(&three, 0, 2, 7));
        assert!(approvals.allows(&three, 0, 2, 32_768));
        assert!(!approvals.allows(&three, 0, 2, 32_769));
        assert!(!approvals.allows(&three, 0, 1, 32_769));
    }
}
