//! Levels, and the job that a pack holds.

use crate::fault::{Cause, Fault, Layer};
use crate::line::Line;
use crate::measure::MeasureKind;
use crate::price::PriceKind;

pub const MOST_LEVELS: usize = 8;
pub const LARGEST_WEIGHT: u32 = 1_000;

#[derive(Clone, Copy, Debug, PartialEq, Eq)]
pub struct Level {
    pub tolerance: u32,
    pub weight: u32,
}

#[derive(Clone, Debug, PartialEq, Eq)]
pub struct Job {
    pub measure: MeasureKind,
    pub price: PriceKind,
    pub line: Line,
    pub levels: Vec<Level>,
}

pub fn check_level_count(count: usize, layer: Layer) -> Result<(), Fault> {
    if (1..=MOST_LEVELS).contains(&count) {
        Ok(())
    } else {
        Err(Fault::new(Cause::OutOfLimits, layer, 1))
    }
}

/// Judges level after level, the tolerance of each before its weight.
pub fn check_levels(levels: &[Level], largest: u32, layer: Layer) -> Result<(), Fault> {
    let mut before: Option<u32> = None;
    for (number, level) in (1..).zip(levels) {
        let rises = before.is_none_or(|finer| level.tolerance > finer);
        if !rises || level.tolerance > largest {
            return Err(Fault::new(Cause::BadTolerance, layer, number));
        }
        if !(1..=LARGEST_WEIGHT).contains(&level.weight) {
            return Err(Fault::new(Cause::BadWeight, layer, number));
        }
        before = Some(level.tolerance);
    }
    Ok(())
}

#[cfg(test)]
mod tests {
    use super::*;

    fn judged(levels: &[(u32, u32)], largest: u32) -> Option<String> {
        let levels: Vec<Level> = levels
            .iter()
            .map(|&(tolerance, weight)| Level { tolerance, weight })
            .collect();
        let answer = check_levels(&levels, largest, Layer::Content);
        answer.err().map(|fault| fault.to_string())
    }

    #[test]
    fn lawful_levels() {
        assert_eq!(judged(&[(0, 1), (1, 1_000), (32_768, 1)], 32_768), None);
    }

    #[test]
    fn tolerances_rise_up_to_the_largest() {
        let fault = |level| Some(format!("refused 6 layer 2 place {level} spot 0"));
        assert_eq!(judged(&[(5, 1), (5, 1)], 9), fault(2));
        assert_eq!(judged(&[(5, 1), (4, 1)], 9), fault(2));
        assert_eq!(judged(&[(0, 1), (0, 1)], 9), fault(2));
        assert_eq!(judged(&[(5, 1), (10, 1), (11, 1)], 9), fault(2));
        assert_eq!(judged(&[(10, 0)], 9), fault(1));
    }

    #[test]
    fn a_bad_weight_comes_before_the_next_tolerance() {
        let fault = |level| Some(format!("refused 7 layer 2 place {level} spot 0"));
        assert_eq!(judged(&[(5, 0), (5, 1)], 9), fault(1));
        assert_eq!(judged(&[(5, 1_001), (6, 0)], 9), fault(1));
        assert_eq!(judged(&[(5, 1), (6, 0)], 9), fault(2));
    }

    #[test]
    fn there_are_1_to_8_levels() {
        assert!(check_level_count(1, Layer::Sheet).is_ok());
        assert!(check_level_count(8, Layer::Sheet).is_ok());
        for count in [0, 9] {
            let fault = check_level_count(count, Layer::Sheet).unwrap_err();
            assert_eq!(fault.to_string(), "refused 20 layer 4 place 1 spot 0");
        }
    }
}
