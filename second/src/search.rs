//! The search for the first least family of a line.

use std::fmt;

use crate::job::Level;
use crate::line::Line;
use crate::price::{Price, PriceKind};

/// One chain for each level, the finest first, and what they cost together.
#[derive(Clone, Debug, PartialEq, Eq)]
pub struct Family {
    pub chains: Vec<Vec<usize>>,
    pub total: Price,
}

impl fmt::Display for Family {
    /// The lines that the programs print, without the last line feed.
    fn fmt(&self, f: &mut fmt::Formatter<'_>) -> fmt::Result {
        for (number, chain) in (1..).zip(&self.chains) {
            write!(f, "level {number} links {}:", chain.len() - 1)?;
            for vertex in chain {
                write!(f, " {vertex}")?;
            }
            writeln!(f)?;
        }
        write!(f, "total {} {}", self.total.count, self.total.area)
    }
}

/// The least total between two vertices up to some level, and the first vertex by which it is reached.
#[derive(Clone, Copy)]
struct Cell {
    total: Price,
    next: usize,
}

/// The cells of one level. Only those whose start is below their end mean anything; the others are neutral.
struct Table {
    vertices: usize,
    cells: Vec<Cell>,
}

impl Table {
    fn neutral(vertices: usize) -> Self {
        let cell = Cell {
            total: Price::NEUTRAL,
            next: 0,
        };
        Table {
            vertices,
            cells: vec![cell; vertices * vertices],
        }
    }

    fn get(&self, from: usize, to: usize) -> Cell {
        self.cells[from * self.vertices + to]
    }

    fn set(&mut self, from: usize, to: usize, cell: Cell) {
        self.cells[from * self.vertices + to] = cell;
    }
}

/// The first least family of a line. `allows(i, j, t)` tells whether the link i→j is allowed at the tolerance t; it must
/// say yes to each link to the next vertex.
pub fn first_least_family(
    line: &Line,
    levels: &[Level],
    kind: PriceKind,
    allows: impl Fn(usize, usize, u32) -> bool,
) -> Family {
    let mut finer = Table::neutral(line.count());
    let mut tables = Vec::new();
    for level in levels {
        let table = fill(line, level, kind, &finer, &allows);
        tables.push(std::mem::replace(&mut finer, table));
    }
    tables.push(finer);

    let total = tables[levels.len()].get(0, line.last()).total;
    let mut chains = Vec::new();
    let mut chain = vec![0, line.last()];
    for table in tables[1..].iter().rev() {
        chain = fill_in(&chain, table);
        chains.push(chain.clone());
    }
    chains.reverse();
    Family { chains, total }
}

/// The table of a level, from that of the level before.
fn fill(
    line: &Line,
    level: &Level,
    kind: PriceKind,
    finer: &Table,
    allows: impl Fn(usize, usize, u32) -> bool,
) -> Table {
    let n = line.count();
    let mut table = Table::neutral(n);
    for i in (0..n).rev() {
        // The vertices that a link goes to from i, with what the link and all under it costs.
        let links: Vec<(usize, Price)> = (i + 1..n)
            .filter(|&v| allows(i, v, level.tolerance))
            .map(|v| {
                let link = kind.of_link(line, i, v, level.weight);
                (v, kind.join(link, finer.get(i, v).total))
            })
            .collect();
        for j in i + 1..n {
            // Of equal totals the smallest pair has the smallest vertex.
            let (total, next) = links
                .iter()
                .take_while(|&&(v, _)| v <= j)
                .map(|&(v, price)| (kind.join(price, table.get(v, j).total), v))
                .min()
                .expect("the link to the next vertex is allowed");
            table.set(i, j, Cell { total, next });
        }
    }
    table
}

/// The chain of a level, from that of the next coarser one.
fn fill_in(coarser: &[usize], table: &Table) -> Vec<usize> {
    let mut chain = vec![coarser[0]];
    for link in coarser.windows(2) {
        let (mut at, end) = (link[0], link[1]);
        while at != end {
            at = table.get(at, end).next;
            chain.push(at);
        }
    }
    chain
}

#[cfg(test)]
mod tests {
    use super::*;
    use crate::measure::{Approvals, Measure, MeasureKind};
    use crate::samples::line;

    fn levels(pairs: &[(u32, u32)]) -> Vec<Level> {
        pairs
            .iter()
            .map(|&(tolerance, weight)| Level { tolerance, weight })
            .collect()
    }

    fn approvals(entries: &[(usize, usize, u32)]) -> Approvals {
        let mut approvals = Approvals::new();
        for &(i, j, t) in entries {
            approvals.approve(i, j, t).unwrap();
        }
        approvals
    }

    fn search(line: &Line, levels: &[Level], kind: PriceKind, measure: &impl Measure) -> Family {
        first_least_family(line, levels, kind, |i, j, t| measure.allows(line, i, j, t))
    }

    #[test]
    fn the_five_vertex_example() {
        let five = line(&[(0, 0), (2, 1), (4, 0), (6, 3), (8, 0)]);
        let two = levels(&[(1, 1), (3, 1)]);
        let family = search(&five, &two, PriceKind::Count, &MeasureKind::Segment);
        let lines = "level 1 links 3: 0 2 3 4\nlevel 2 links 1: 0 4\ntotal 4 0";
        assert_eq!(family.to_string(), lines);
    }

    #[test]
    fn the_seven_vertex_example() {
        let seven = line(&[(0, 0); 7]);
        let measure = approvals(&[(1, 5, 1), (0, 3, 2), (3, 6, 2)]);
        let family = search(
            &seven,
            &levels(&[(1, 1), (2, 1)]),
            PriceKind::Count,
            &measure,
        );
        assert_eq!(family.total, Price::new(6, 0));
        assert_eq!(family.chains, [[0, 1, 5, 6], [0, 1, 5, 6]]);
        let family = search(
            &seven,
            &levels(&[(1, 1), (2, 10)]),
            PriceKind::Count,
            &measure,
        );
        assert_eq!(family.total, Price::new(26, 0));
        assert_eq!(family.chains, [vec![0, 1, 2, 3, 4, 5, 6], vec![0, 3, 6]]);
    }

    #[test]
    fn the_four_vertex_example() {
        let four = line(&[(0, 0), (2, 1), (4, 3), (6, 0)]);
        let measure = approvals(&[(0, 2, 1), (1, 3, 1)]);
        let one = levels(&[(1, 1)]);
        let family = search(&four, &one, PriceKind::Count, &measure);
        assert_eq!(family.chains, [[0, 1, 3]]);
        assert_eq!(family.total, Price::new(2, 0));
        let family = search(&four, &one, PriceKind::CountThenArea, &measure);
        assert_eq!(family.chains, [[0, 2, 3]]);
        assert_eq!(family.total, Price::new(2, 2));
    }

    #[test]
    fn two_vertices_have_one_family() {
        let two = line(&[(5, 5), (5, 5)]);
        let family = search(
            &two,
            &levels(&[(0, 3), (9, 4)]),
            PriceKind::CountThenArea,
            &MeasureKind::Area,
        );
        assert_eq!(
            family.to_string(),
            "level 1 links 1: 0 1\nlevel 2 links 1: 0 1\ntotal 7 0"
        );
    }
}
