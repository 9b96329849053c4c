//! Reading packs: records one after another, and the job that the first three of them hold.

use crate::fault::{Cause, Fault, Layer};
use crate::job::{check_levels, Job, Level, MOST_LEVELS};
use crate::line::{Line, Vertex, FEWEST_VERTICES, MOST_VERTICES};
use crate::measure::{Measure, MeasureKind};
use crate::price::PriceKind;

const HEADER: usize = 6;

/// The record that must come next.
#[derive(Clone, Copy, Debug, PartialEq, Eq)]
pub enum Due {
    Numbers,
    Vertices,
    Levels,
    /// A chain of a line with so many vertices.
    Chain {
        vertices: usize,
    },
    Total,
}

impl Due {
    fn kind(self) -> u16 {
        match self {
            Due::Numbers => 1,
            Due::Vertices => 2,
            Due::Levels => 3,
            Due::Chain { .. } => 4,
            Due::Total => 5,
        }
    }

    /// Whether a body of such a record can have this length.
    fn fits(self, length: usize) -> bool {
        let whole = |size: usize, fewest: usize, most: usize| {
            length.is_multiple_of(size) && (fewest..=most).contains(&(length / size))
        };
        match self {
            Due::Numbers => length == 2,
            Due::Vertices => whole(4, FEWEST_VERTICES, MOST_VERTICES),
            Due::Levels => whole(8, 1, MOST_LEVELS),
            Due::Chain { vertices } => whole(2, 2, vertices),
            Due::Total => length == 12,
        }
    }
}

/// Takes records off the front of some bytes.
pub struct Records<'a> {
    bytes: &'a [u8],
    place: usize,
}

impl<'a> Records<'a> {
    pub fn new(bytes: &'a [u8]) -> Self {
        Records { bytes, place: 0 }
    }

    /// The body of the next record, which must be the one that is due.
    pub fn take(&mut self, due: Due) -> Result<&'a [u8], Fault> {
        let fault = |cause| Fault::new(cause, Layer::Structure, self.place);
        let left = self.rest();
        let Some((header, after)) = left.split_at_checked(HEADER) else {
            return Err(fault(Cause::RunsOut));
        };
        if u16_of(&header[4..]) != due.kind() {
            return Err(fault(Cause::WrongKind));
        }
        let length = u32_of(header) as usize;
        if !due.fits(length) {
            return Err(fault(Cause::WrongLength));
        }
        let Some(body) = after.get(..length) else {
            return Err(fault(Cause::RunsOut));
        };
        self.place += HEADER + length;
        Ok(body)
    }

    /// The bytes that were not taken yet.
    pub fn rest(&self) -> &'a [u8] {
        &self.bytes[self.place..]
    }

    /// Refuses bytes that are left over.
    pub fn end(self) -> Result<(), Fault> {
        if self.place < self.bytes.len() {
            return Err(Fault::new(Cause::LeftOver, Layer::Structure, self.place));
        }
        Ok(())
    }
}

/// The bodies of the three records of a job, all of lawful length.
struct JobBodies<'a> {
    numbers: &'a [u8],
    vertices: &'a [u8],
    levels: &'a [u8],
}

impl<'a> JobBodies<'a> {
    fn take(records: &mut Records<'a>) -> Result<Self, Fault> {
        Ok(JobBodies {
            numbers: records.take(Due::Numbers)?,
            vertices: records.take(Due::Vertices)?,
            levels: records.take(Due::Levels)?,
        })
    }

    /// Judges the content.
    fn job(&self) -> Result<Job, Fault> {
        let unknown = |place| Fault::new(Cause::UnknownNumber, Layer::Content, place);
        let measure = MeasureKind::from_number(self.numbers[0]).ok_or_else(|| unknown(0))?;
        let price = PriceKind::from_number(self.numbers[1]).ok_or_else(|| unknown(1))?;

        let vertices = self.vertices.chunks_exact(4);
        let line = Line::new(
            vertices
                .map(|v| Vertex::new(i16_of(v), i16_of(&v[2..])))
                .collect(),
        )?;

        let levels: Vec<Level> = self
            .levels
            .chunks_exact(8)
            .map(|level| Level {
                tolerance: u32_of(level),
                weight: u32_of(&level[4..]),
            })
            .collect();
        check_levels(&levels, measure.largest(), Layer::Content)?;

        Ok(Job {
            measure,
            price,
            line,
            levels,
        })
    }
}

/// Reads a job pack: exactly the three records of a lawful job.
pub fn read_job(bytes: &[u8]) -> Result<Job, Fault> {
    let mut records = Records::new(bytes);
    let bodies = JobBodies::take(&mut records)?;
    records.end()?;
    bodies.job()
}

/// Reads the job at the beginning of a family pack. Answers it and the bytes after it.
pub fn read_family_head(bytes: &[u8]) -> Result<(Job, &[u8]), Fault> {
    let mut records = Records::new(bytes);
    let bodies = JobBodies::take(&mut records)?;
    Ok((bodies.job()?, records.rest()))
}

fn front<const N: usize>(bytes: &[u8]) -> [u8; N] {
    *bytes
        .first_chunk()
        .expect("a record that fits has all its numbers")
}

/// The number at the front of some bytes.
pub fn u16_of(bytes: &[u8]) -> u16 {
    u16::from_le_bytes(front(bytes))
}

pub fn u32_of(bytes: &[u8]) -> u32 {
    u32::from_le_bytes(front(bytes))
}

pub fn u64_of(bytes: &[u8]) -> u64 {
    u64::from_le_bytes(front(bytes))
}

fn i16_of(bytes: &[u8]) -> i16 {
    i16::from_le_bytes(front(bytes))
}

#[cfg(test)]
mod tests {
    use super::*;
    use crate::samples::{five_family, five_job, line, pack_of};

    fn refusal(bytes: &[u8]) -> String {
        read_job(bytes).unwrap_err().to_string()
    }

    /// The five-vertex job with some bytes replaced.
    fn changed(place: usize, with: &[u8]) -> Vec<u8> {
        let mut bytes = five_job();
        bytes[place..place + with.len()].copy_from_slice(with);
        bytes
    }

    #[test]
    fn numbers_are_little_endian() {
        assert_eq!(u16_of(&[0x02, 0x01]), 258);
        assert_eq!(i16_of(&[0xff, 0xff]), -1);
        assert_eq!(i16_of(&[0x00, 0xc0]), -16_384);
        assert_eq!(u32_of(&[1, 0, 0, 2]), 33_554_433);
        assert_eq!(u64_of(&[1, 0, 0, 0, 0, 0, 0, 2]), 144_115_188_075_855_873);
    }

    #[test]
    fn the_job_of_the_example() {
        let job = read_job(&five_job()).unwrap();
        assert_eq!(job.measure, MeasureKind::Segment);
        assert_eq!(job.price, PriceKind::Count);
        assert_eq!(job.line, line(&[(0, 0), (2, 1), (4, 0), (6, 3), (8, 0)]));
        let levels = [
            Level {
                tolerance: 1,
                weight: 1,
            },
            Level {
                tolerance: 3,
                weight: 1,
            },
        ];
        assert_eq!(job.levels, levels);
    }

    #[test]
    fn the_head_of_the_family_is_the_job() {
        let family = five_family();
        let (job, rest) = read_family_head(&family).unwrap();
        assert_eq!(job, read_job(&five_job()).unwrap());
        assert_eq!(rest, &family[56..]);
        assert_eq!(refusal(&family), "refused 4 layer 1 place 56 spot 0");
    }

    #[test]
    fn every_cut_runs_out_at_the_record_that_it_cuts() {
        let job = five_job();
        for length in 0..job.len() {
            let start = match length {
                0..8 => 0,
                8..34 => 8,
                _ => 34,
            };
            let expected = format!("refused 1 layer 1 place {start} spot 0");
            assert_eq!(refusal(&job[..length]), expected);
        }
    }

    #[test]
    fn kind_before_length_before_body() {
        assert_eq!(
            refusal(&[0, 0, 0, 0, 2, 0]),
            "refused 2 layer 1 place 0 spot 0"
        );
        assert_eq!(
            refusal(&[3, 0, 0, 0, 1, 0]),
            "refused 3 layer 1 place 0 spot 0"
        );
        assert_eq!(
            refusal(&[2, 0, 0, 0, 1, 0]),
            "refused 1 layer 1 place 0 spot 0"
        );
        assert_eq!(
            refusal(&[0, 0, 0, 0, 2]),
            "refused 1 layer 1 place 0 spot 0"
        );
        assert_eq!(
            refusal(&changed(34, &[72])),
            "refused 3 layer 1 place 34 spot 0"
        );
        assert_eq!(
            refusal(&changed(8, &[21])),
            "refused 3 layer 1 place 8 spot 0"
        );
        assert_eq!(
            refusal(&changed(8, &[4])),
            "refused 3 layer 1 place 8 spot 0"
        );
        assert_eq!(
            refusal(&changed(8, &[4, 4])),
            "refused 3 layer 1 place 8 spot 0"
        );
        assert_eq!(
            refusal(&changed(8, &[0, 4])),
            "refused 1 layer 1 place 8 spot 0"
        );
    }

    #[test]
    fn structure_before_content_and_content_in_order() {
        assert_eq!(
            refusal(&changed(6, &[0, 0])),
            "refused 8 layer 2 place 0 spot 0"
        );
        assert_eq!(
            refusal(&changed(6, &[4])),
            "refused 8 layer 2 place 0 spot 0"
        );
        assert_eq!(
            refusal(&changed(7, &[3])),
            "refused 8 layer 2 place 1 spot 0"
        );
        assert_eq!(
            refusal(&changed(20, &[0, 0x40])),
            "refused 5 layer 2 place 1 spot 0"
        );
        assert_eq!(
            refusal(&changed(40, &[3])),
            "refused 6 layer 2 place 2 spot 0"
        );
        assert_eq!(
            refusal(&changed(44, &[0])),
            "refused 7 layer 2 place 1 spot 0"
        );
        let mut bytes = changed(6, &[9]);
        bytes.push(0);
        assert_eq!(refusal(&bytes), "refused 4 layer 1 place 56 spot 0");
        bytes.truncate(55);
        assert_eq!(refusal(&bytes), "refused 1 layer 1 place 34 spot 0");
    }

    #[test]
    fn job_packs_have_36_to_1108_bytes() {
        let smallest = pack_of(1, 1, &[(0, 0); 2], &[(0, 1)]);
        assert_eq!(smallest.len(), 36);
        assert!(read_job(&smallest).is_ok());
        let levels: Vec<(u32, u32)> = (0..8).map(|t| (t, 1_000)).collect();
        let largest = pack_of(3, 2, &[(16_383, -16_384); 256], &levels);
        assert_eq!(largest.len(), 1_108);
        assert!(read_job(&largest).is_ok());
    }
}
