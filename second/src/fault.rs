//! What is wrong, who found it, and where.

use std::fmt;

/// What is wrong. The discriminants are the printed numbers.
#[derive(Clone, Copy, Debug, PartialEq, Eq)]
#[repr(u8)]
pub enum Cause {
    RunsOut = 1,
    WrongKind = 2,
    WrongLength = 3,
    LeftOver = 4,
    CoordinateOutOfRange = 5,
    BadTolerance = 6,
    BadWeight = 7,
    UnknownNumber = 8,
    ChainOutOfOrder = 9,
    NotNested = 10,
    LinkNotAllowed = 11,
    WrongTotal = 12,
    NotInnerVertex = 13,
    AlreadyPinned = 14,
    NotPinned = 15,
    Full = 16,
    OtherVertexCount = 17,
    ShortMemory = 18,
    NoSuchLevel = 19,
    OutOfLimits = 20,
}

/// The part of the library that found a fault. The discriminants are the printed numbers.
#[derive(Clone, Copy, Debug, PartialEq, Eq)]
#[repr(u8)]
pub enum Layer {
    Structure = 1,
    Content = 2,
    Marker = 3,
    Sheet = 4,
}

/// A refusal. Its text is the line that the programs print.
#[derive(Clone, Copy, Debug, PartialEq, Eq)]
pub struct Fault {
    pub cause: Cause,
    pub layer: Layer,
    pub place: usize,
    pub spot: usize,
}

impl Fault {
    /// A fault with spot 0.
    pub fn new(cause: Cause, layer: Layer, place: usize) -> Self {
        Fault {
            cause,
            layer,
            place,
            spot: 0,
        }
    }

    pub fn at_spot(self, spot: usize) -> Self {
        Fault { spot, ..self }
    }
}

impl fmt::Display for Fault {
    fn fmt(&self, f: &mut fmt::Formatter<'_>) -> fmt::Result {
        write!(
            f,
            "refused {} layer {} place {} spot {}",
            self.cause as u8, self.layer as u8, self.place, self.spot
        )
    }
}

impl std::error::Error for Fault {}

#[cfg(test)]
mod tests {
    use super::*;

    #[test]
    fn a_fault_prints_its_four_numbers() {
        let fault = Fault::new(Cause::ChainOutOfOrder, Layer::Marker, 1).at_spot(2);
        assert_eq!(fault.to_string(), "refused 9 layer 3 place 1 spot 2");
        let fault = Fault::new(Cause::OutOfLimits, Layer::Sheet, 0);
        assert_eq!(fault.to_string(), "refused 20 layer 4 place 0 spot 0");
    }
}
