//! Vertices and checked lines.

use crate::fault::{Cause, Fault, Layer};

pub const FEWEST_VERTICES: usize = 2;
pub const MOST_VERTICES: usize = 256;

const LOWEST: i16 = -16_384;
const HIGHEST: i16 = 16_383;

#[derive(Clone, Copy, Debug, PartialEq, Eq)]
pub struct Vertex {
    pub x: i16,
    pub y: i16,
}

impl Vertex {
    pub fn new(x: i16, y: i16) -> Self {
        Vertex { x, y }
    }

    pub fn in_range(self) -> bool {
        let range = LOWEST..=HIGHEST;
        range.contains(&self.x) && range.contains(&self.y)
    }
}

/// A line of 2 to 256 vertices, all of them in range.
#[derive(Clone, Debug, PartialEq, Eq)]
pub struct Line {
    vertices: Vec<Vertex>,
}

impl Line {
    pub fn new(vertices: Vec<Vertex>) -> Result<Self, Fault> {
        check_vertex_count(vertices.len(), Layer::Content)?;
        match vertices.iter().position(|v| !v.in_range()) {
            Some(bad) => Err(Fault::new(Cause::CoordinateOutOfRange, Layer::Content, bad)),
            None => Ok(Line { vertices }),
        }
    }

    /// How many vertices the line has.
    pub fn count(&self) -> usize {
        self.vertices.len()
    }

    /// The number of the last vertex.
    pub fn last(&self) -> usize {
        self.vertices.len() - 1
    }

    pub fn vertices(&self) -> &[Vertex] {
        &self.vertices
    }

    pub fn is_link(&self, i: usize, j: usize) -> bool {
        i < j && j < self.count()
    }

    /// The area between a link and the part of the line that it replaces: the absolute value of the sum over the walk along
    /// the line from i to j and straight back. It is 0 for a pair that is no link.
    pub fn link_area(&self, i: usize, j: usize) -> u64 {
        if !self.is_link(i, j) {
            return 0;
        }
        let along: i64 = self.vertices[i..=j]
            .windows(2)
            .map(|step| cross(step[0], step[1]))
            .sum();
        let back = cross(self.vertices[j], self.vertices[i]);
        (along + back).unsigned_abs()
    }
}

fn cross(p: Vertex, q: Vertex) -> i64 {
    i64::from(p.x) * i64::from(q.y) - i64::from(q.x) * i64::from(p.y)
}

pub fn check_vertex_count(count: usize, layer: Layer) -> Result<(), Fault> {
    if (FEWEST_VERTICES..=MOST_VERTICES).contains(&count) {
        Ok(())
    } else {
        Err(Fault::new(Cause::OutOfLimits, layer, 0))
    }
}

#[cfg(test)]
mod tests {
    use super::*;
    use crate::samples::line;

    #[test]
    fn the_number_of_vertices_is_judged_before_the_vertices() {
        let bad = Vertex::new(16_384, 0);
        let few = Line::new(vec![bad]).unwrap_err();
        assert_eq!(few.to_string(), "refused 20 layer 2 place 0 spot 0");
        let many = Line::new(vec![bad; 257]).unwrap_err();
        assert_eq!(many.to_string(), "refused 20 layer 2 place 0 spot 0");
        assert!(Line::new(vec![Vertex::new(0, 0); 256]).is_ok());
        assert!(Line::new(vec![Vertex::new(0, 0); 2]).is_ok());
    }

    #[test]
    fn the_lowest_bad_vertex_is_named() {
        let good = Vertex::new(-16_384, 16_383);
        for bad in [
            Vertex::new(16_384, 0),
            Vertex::new(0, 16_384),
            Vertex::new(-16_385, 0),
            Vertex::new(0, -16_385),
        ] {
            let fault = Line::new(vec![good, good, bad, bad]).unwrap_err();
            assert_eq!(fault.to_string(), "refused 5 layer 2 place 2 spot 0");
        }
    }

    #[test]
    fn areas_of_the_five_vertex_example() {
        let five = line(&[(0, 0), (2, 1), (4, 0), (6, 3), (8, 0)]);
        assert_eq!(five.link_area(0, 2), 4);
        assert_eq!(five.link_area(0, 4), 16);
        assert_eq!(five.link_area(2, 3), 0);
        assert_eq!(five.link_area(3, 3), 0);
        assert_eq!(five.link_area(4, 0), 0);
        assert_eq!(five.link_area(3, 5), 0);
    }

    #[test]
    fn a_way_out_and_back_has_no_area() {
        assert_eq!(line(&[(0, 0), (3, 4), (0, 0)]).link_area(0, 2), 0);
    }
}
