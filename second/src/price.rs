//! Prices: what links cost.

use crate::line::Line;

/// A price by its form. Prices are compared by their counts, and by their areas where the counts are equal.
#[derive(Clone, Copy, Debug, Default, PartialEq, Eq, PartialOrd, Ord)]
pub struct Price {
    pub count: u32,
    pub area: u64,
}

impl Price {
    /// The price that changes nothing when it is joined.
    pub const NEUTRAL: Price = Price { count: 0, area: 0 };

    /// A price of this form. Where the count is at its ceiling there is only one area.
    pub fn new(count: u32, area: u64) -> Self {
        let area = if count == u32::MAX { u64::MAX } else { area };
        Price { count, area }
    }
}

/// The kinds of price that packs name by a number.
#[derive(Clone, Copy, Debug, PartialEq, Eq)]
pub enum PriceKind {
    /// Links cost their weight. The area of such a price is 0.
    Count,
    /// Links cost their weight as count and their area as area.
    CountThenArea,
}

impl PriceKind {
    pub fn from_number(number: u8) -> Option<Self> {
        match number {
            1 => Some(PriceKind::Count),
            2 => Some(PriceKind::CountThenArea),
            _ => None,
        }
    }

    /// What a link costs at a weight. A pair that is no link costs the neutral price.
    pub fn of_link(self, line: &Line, i: usize, j: usize, weight: u32) -> Price {
        if !line.is_link(i, j) {
            return Price::NEUTRAL;
        }
        match self {
            PriceKind::Count => Price {
                count: weight,
                area: 0,
            },
            PriceKind::CountThenArea => Price::new(weight, line.link_area(i, j)),
        }
    }

    /// Both prices in one. Neither number grows past its ceiling.
    pub fn join(self, one: Price, other: Price) -> Price {
        let count = one.count.saturating_add(other.count);
        match self {
            PriceKind::Count => Price { count, area: 0 },
            PriceKind::CountThenArea => Price::new(count, one.area.saturating_add(other.area)),
        }
    }
}

#[cfg(test)]
mod tests {
    use super::PriceKind::{Count, CountThenArea};
    use super::*;
    use crate::samples::line;

    #[test]
    fn links_cost_weight_and_area() {
        let five = line(&[(0, 0), (2, 1), (4, 0), (6, 3), (8, 0)]);
        assert_eq!(Count.of_link(&five, 0, 2, 7), Price::new(7, 0));
        assert_eq!(CountThenArea.of_link(&five, 0, 2, 7), Price::new(7, 4));
        for kind in [Count, CountThenArea] {
            assert_eq!(kind.of_link(&five, 2, 2, 7), Price::NEUTRAL);
            assert_eq!(kind.of_link(&five, 3, 2, 7), Price::NEUTRAL);
            assert_eq!(kind.of_link(&five, 3, 5, 7), Price::NEUTRAL);
        }
    }

    #[test]
    fn joining_stops_at_the_ceilings() {
        let near = Price::new(u32::MAX - 1, u64::MAX - 1);
        let one = Price::new(1, 0);
        assert_eq!(
            CountThenArea.join(near, one),
            Price::new(u32::MAX, u64::MAX)
        );
        assert_eq!(
            CountThenArea.join(Price::new(0, 5), near),
            Price::new(u32::MAX - 1, u64::MAX)
        );
        let count = Price {
            count: u32::MAX - 1,
            area: 0,
        };
        let ceiling = Price {
            count: u32::MAX,
            area: 0,
        };
        assert_eq!(Count.join(count, one), ceiling);
        assert_eq!(Count.join(ceiling, one), ceiling);
    }

    #[test]
    fn counts_are_compared_first() {
        assert!(Price::new(1, 900) < Price::new(2, 0));
        assert!(Price::new(2, 0) < Price::new(2, 1));
    }
}
