//! Holds what sheets draw against lists of all families of small lines.

use second::job::Level;
use second::line::{Line, Vertex};
use second::measure::{Measure, MeasureKind};
use second::price::{Price, PriceKind};
use second::sheet::{Room, Sheet};

/// Numbers that look drawn at random, from a fixed start.
struct Draws(u64);

impl Draws {
    fn below(&mut self, bound: u64) -> u64 {
        self.0 = self
            .0
            .wrapping_mul(6_364_136_223_846_793_005)
            .wrapping_add(1_442_695_040_888_963_407);
        (self.0 >> 33) % bound
    }
}

/// One chain for each level, the coarsest first.
type Chains = Vec<Vec<usize>>;

/// All chains that use only vertices of a given one.
fn chains_within(finer: &[usize]) -> Vec<Vec<usize>> {
    let inner = &finer[1..finer.len() - 1];
    (0u32..1 << inner.len())
        .map(|set| {
            let mut chain = vec![finer[0]];
            chain.extend(
                (0..inner.len())
                    .filter(|bit| set >> bit & 1 == 1)
                    .map(|bit| inner[bit]),
            );
            chain.push(finer[finer.len() - 1]);
            chain
        })
        .collect()
}

/// All families each of whose chains has every pin.
fn all_families(
    line: &Line,
    levels: &[Level],
    measure: MeasureKind,
    pins: &[usize],
) -> Vec<Chains> {
    let whole: Vec<usize> = (0..line.count()).collect();
    let mut families: Vec<Chains> = vec![Vec::new()];
    for level in levels {
        let allowed = |link: &[usize]| measure.allows(line, link[0], link[1], level.tolerance);
        let mut longer = Vec::new();
        for family in &families {
            for chain in chains_within(family.first().unwrap_or(&whole)) {
                let pinned = pins.iter().all(|pin| chain.contains(pin));
                if pinned && chain.windows(2).all(allowed) {
                    let mut next = vec![chain];
                    next.extend(family.iter().cloned());
                    longer.push(next);
                }
            }
        }
        families = longer;
    }
    families
}

fn total(line: &Line, levels: &[Level], kind: PriceKind, family: &Chains) -> Price {
    let mut total = Price::NEUTRAL;
    for (level, chain) in levels.iter().rev().zip(family) {
        for link in chain.windows(2) {
            total = kind.join(total, kind.of_link(line, link[0], link[1], level.weight));
        }
    }
    total
}

/// Of all families the cheapest, and of the cheapest the one whose chains come first, the coarsest compared first.
#[test]
fn nothing_is_cheaper_and_nothing_as_cheap_comes_before() {
    let mut draws = Draws(1);
    for turn in 0..600 {
        let n = 2 + draws.below(6) as usize;
        let side = [2, 4, 9, 40][turn % 4];
        let vertices = (0..n)
            .map(|_| Vertex::new(draws.below(side) as i16, draws.below(side) as i16))
            .collect();
        let line = Line::new(vertices).unwrap();
        let measure = [MeasureKind::Segment, MeasureKind::Strip, MeasureKind::Area][turn % 3];
        let kind = [PriceKind::Count, PriceKind::CountThenArea][turn / 3 % 2];
        let mut tolerance = draws.below(3) as u32;
        let mut levels = Vec::new();
        for _ in 0..1 + draws.below(3) {
            let weight = 1 + draws.below(3) as u32;
            levels.push(Level { tolerance, weight });
            tolerance += 1 + draws.below(side) as u32;
        }
        let pins: Vec<usize> = (1..n - 1).filter(|_| draws.below(5) == 0).collect();

        let mut sheet = Sheet::open(n, levels.clone(), measure, kind).unwrap();
        for &pin in &pins {
            sheet.pin(pin).unwrap();
        }
        let drawn = sheet.draw(&line, Room::FULL).unwrap();

        let cheapest = all_families(&line, &levels, measure, &pins)
            .into_iter()
            .map(|family| (total(&line, &levels, kind, &family), family))
            .min()
            .unwrap();
        let coarsest_first: Chains = drawn.chains.into_iter().rev().collect();
        assert_eq!((drawn.total, coarsest_first), cheapest);
    }
}
