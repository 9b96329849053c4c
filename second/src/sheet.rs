//! The sheet: pins that come and go, tolerances that move, and draws.

use crate::fault::{Cause, Fault, Layer};
use crate::job::{check_level_count, check_levels, Level};
use crate::line::{check_vertex_count, Line};
use crate::measure::Measure;
use crate::price::PriceKind;
use crate::search::{first_least_family, Family};

pub const MOST_PINS: usize = 32;

/// How much a draw may write: so many grades, prices and stays.
#[derive(Clone, Copy, Debug, PartialEq, Eq)]
pub struct Room {
    pub grades: usize,
    pub prices: usize,
    pub stays: usize,
}

impl Room {
    /// Enough for 256 vertices under 8 levels.
    pub const FULL: Room = Room {
        grades: 65_536,
        prices: 524_288,
        stays: 256,
    };
    /// What the program `draw` lends.
    pub const SMALL: Room = Room {
        grades: 1_600,
        prices: 4_000,
        stays: 40,
    };
}

#[derive(Clone, Debug, PartialEq, Eq)]
pub struct Sheet<M> {
    vertices: usize,
    levels: Vec<Level>,
    measure: M,
    price: PriceKind,
    pins: Vec<usize>,
}

fn fault(cause: Cause, place: usize) -> Fault {
    Fault::new(cause, Layer::Sheet, place)
}

impl<M: Measure> Sheet<M> {
    /// A sheet for lines of so many vertices, without pins.
    pub fn open(
        vertices: usize,
        levels: Vec<Level>,
        measure: M,
        price: PriceKind,
    ) -> Result<Self, Fault> {
        check_vertex_count(vertices, Layer::Sheet)?;
        check_level_count(levels.len(), Layer::Sheet)?;
        check_levels(&levels, measure.largest(), Layer::Sheet)?;
        Ok(Sheet {
            vertices,
            levels,
            measure,
            price,
            pins: Vec::new(),
        })
    }

    pub fn pin(&mut self, vertex: usize) -> Result<(), Fault> {
        self.check_inner(vertex)?;
        if self.pins.contains(&vertex) {
            return Err(fault(Cause::AlreadyPinned, vertex));
        }
        if self.pins.len() >= MOST_PINS {
            return Err(fault(Cause::Full, 0));
        }
        self.pins.push(vertex);
        Ok(())
    }

    pub fn release(&mut self, vertex: usize) -> Result<(), Fault> {
        self.check_inner(vertex)?;
        match self.pins.iter().position(|&pin| pin == vertex) {
            Some(position) => {
                self.pins.remove(position);
                Ok(())
            }
            None => Err(fault(Cause::NotPinned, vertex)),
        }
    }

    /// Sets the tolerance of a level, counted from 1.
    pub fn retune(&mut self, level: usize, tolerance: u32) -> Result<(), Fault> {
        if !(1..=self.levels.len()).contains(&level) {
            return Err(fault(Cause::NoSuchLevel, level));
        }
        let index = level - 1;
        let above_finer = index == 0 || self.levels[index - 1].tolerance < tolerance;
        let below_coarser = self
            .levels
            .get(level)
            .is_none_or(|coarser| tolerance < coarser.tolerance);
        if !above_finer || !below_coarser || tolerance > self.measure.largest() {
            return Err(fault(Cause::BadTolerance, level));
        }
        self.levels[index].tolerance = tolerance;
        Ok(())
    }

    /// The first least family of those that have every pin.
    pub fn draw(&self, line: &Line, room: Room) -> Result<Family, Fault> {
        let n = line.count();
        if n != self.vertices {
            return Err(fault(Cause::OtherVertexCount, n));
        }
        let needs = [
            (n * n, room.grades),
            (self.levels.len() * n * n, room.prices),
            (n, room.stays),
        ];
        if let Some(short) = needs.iter().position(|&(needed, lent)| lent < needed) {
            return Err(fault(Cause::ShortMemory, short));
        }
        Ok(first_least_family(
            line,
            &self.levels,
            self.price,
            |i, j, t| !self.skips_pin(i, j) && self.measure.allows(line, i, j, t),
        ))
    }

    fn skips_pin(&self, i: usize, j: usize) -> bool {
        self.pins.iter().any(|&pin| i < pin && pin < j)
    }

    fn check_inner(&self, vertex: usize) -> Result<(), Fault> {
        if vertex >= 1 && vertex < self.vertices - 1 {
            Ok(())
        } else {
            Err(fault(Cause::NotInnerVertex, vertex))
        }
    }
}

#[cfg(test)]
mod tests {
    use super::*;
    use crate::measure::{Approvals, MeasureKind};
    use crate::price::Price;
    use crate::samples::line;

    fn levels(pairs: &[(u32, u32)]) -> Vec<Level> {
        pairs
            .iter()
            .map(|&(tolerance, weight)| Level { tolerance, weight })
            .collect()
    }

    fn sheet(vertices: usize, pairs: &[(u32, u32)]) -> Sheet<MeasureKind> {
        Sheet::open(
            vertices,
            levels(pairs),
            MeasureKind::Segment,
            PriceKind::Count,
        )
        .unwrap()
    }

    fn refusal<T: std::fmt::Debug>(answer: Result<T, Fault>) -> String {
        answer.unwrap_err().to_string()
    }

    #[test]
    fn the_seven_vertex_example() {
        let seven = line(&[(0, 0); 7]);
        let mut measure = Approvals::new();
        for (i, j, t) in [(1, 5, 1), (0, 3, 2), (3, 6, 2)] {
            measure.approve(i, j, t).unwrap();
        }
        let mut sheet =
            Sheet::open(7, levels(&[(1, 1), (2, 1)]), measure, PriceKind::Count).unwrap();
        assert_eq!(
            sheet.draw(&seven, Room::FULL).unwrap().total,
            Price::new(6, 0)
        );
        sheet.pin(3).unwrap();
        let pinned = sheet.draw(&seven, Room::FULL).unwrap();
        assert_eq!(pinned.total, Price::new(8, 0));
        assert_eq!(pinned.chains, [vec![0, 1, 2, 3, 4, 5, 6], vec![0, 3, 6]]);
        sheet.release(3).unwrap();
        assert_eq!(
            sheet.draw(&seven, Room::FULL).unwrap().total,
            Price::new(6, 0)
        );
    }

    #[test]
    fn opening_judges_in_order() {
        let open = |n, pairs: &[(u32, u32)]| {
            refusal(Sheet::open(
                n,
                levels(pairs),
                MeasureKind::Segment,
                PriceKind::Count,
            ))
        };
        assert_eq!(open(1, &[]), "refused 20 layer 4 place 0 spot 0");
        assert_eq!(open(257, &[]), "refused 20 layer 4 place 0 spot 0");
        assert_eq!(open(2, &[]), "refused 20 layer 4 place 1 spot 0");
        assert_eq!(open(2, &[(0, 0); 9]), "refused 20 layer 4 place 1 spot 0");
        assert_eq!(open(2, &[(32_769, 0)]), "refused 6 layer 4 place 1 spot 0");
        assert_eq!(open(2, &[(32_768, 0)]), "refused 7 layer 4 place 1 spot 0");
    }

    #[test]
    fn pins_are_inner_new_and_at_most_32() {
        let mut sheet = sheet(40, &[(0, 1)]);
        assert_eq!(refusal(sheet.pin(0)), "refused 13 layer 4 place 0 spot 0");
        assert_eq!(refusal(sheet.pin(39)), "refused 13 layer 4 place 39 spot 0");
        assert_eq!(
            refusal(sheet.release(39)),
            "refused 13 layer 4 place 39 spot 0"
        );
        assert_eq!(
            refusal(sheet.release(38)),
            "refused 15 layer 4 place 38 spot 0"
        );
        for vertex in 1..=32 {
            sheet.pin(vertex).unwrap();
        }
        let before = sheet.clone();
        assert_eq!(refusal(sheet.pin(39)), "refused 13 layer 4 place 39 spot 0");
        assert_eq!(refusal(sheet.pin(32)), "refused 14 layer 4 place 32 spot 0");
        assert_eq!(refusal(sheet.pin(33)), "refused 16 layer 4 place 0 spot 0");
        assert_eq!(sheet, before);
        sheet.release(7).unwrap();
        sheet.pin(33).unwrap();
    }

    #[test]
    fn two_vertices_have_no_inner_one() {
        let mut sheet = sheet(2, &[(0, 1)]);
        assert_eq!(refusal(sheet.pin(0)), "refused 13 layer 4 place 0 spot 0");
        assert_eq!(refusal(sheet.pin(1)), "refused 13 layer 4 place 1 spot 0");
    }

    #[test]
    fn tolerances_move_between_their_neighbours() {
        let mut sheet = sheet(3, &[(1, 1), (4, 1), (9, 1)]);
        let bad = |level| format!("refused 6 layer 4 place {level} spot 0");
        assert_eq!(
            refusal(sheet.retune(0, 5)),
            "refused 19 layer 4 place 0 spot 0"
        );
        assert_eq!(
            refusal(sheet.retune(4, 5)),
            "refused 19 layer 4 place 4 spot 0"
        );
        assert_eq!(refusal(sheet.retune(1, 4)), bad(1));
        assert_eq!(refusal(sheet.retune(2, 1)), bad(2));
        assert_eq!(refusal(sheet.retune(2, 9)), bad(2));
        assert_eq!(refusal(sheet.retune(3, 4)), bad(3));
        assert_eq!(refusal(sheet.retune(3, 32_769)), bad(3));
        let before = sheet.clone();
        sheet.retune(2, 4).unwrap();
        assert_eq!(sheet, before);
        sheet.retune(1, 0).unwrap();
        sheet.retune(2, 1).unwrap();
        sheet.retune(3, 32_768).unwrap();
        sheet.retune(2, 32_767).unwrap();
        assert_eq!(sheet.levels, levels(&[(0, 1), (32_767, 1), (32_768, 1)]));
    }

    #[test]
    fn draws_judge_count_then_memory() {
        let three = line(&[(0, 0); 3]);
        let sheet = sheet(3, &[(0, 1), (1, 1)]);
        let draw = |grades, prices, stays| {
            sheet.draw(
                &three,
                Room {
                    grades,
                    prices,
                    stays,
                },
            )
        };
        assert_eq!(refusal(draw(8, 17, 2)), "refused 18 layer 4 place 0 spot 0");
        assert_eq!(refusal(draw(9, 17, 2)), "refused 18 layer 4 place 1 spot 0");
        assert_eq!(refusal(draw(9, 18, 2)), "refused 18 layer 4 place 2 spot 0");
        assert!(draw(9, 18, 3).is_ok());
        let none = Room {
            grades: 0,
            prices: 0,
            stays: 0,
        };
        let four = sheet.draw(&line(&[(0, 0); 4]), none);
        assert_eq!(refusal(four), "refused 17 layer 4 place 4 spot 0");
    }
}
