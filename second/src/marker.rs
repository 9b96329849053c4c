//! The marker: whether a family pack holds a family with its true total.

use crate::fault::{Cause, Fault, Layer};
use crate::job::{Job, Level};
use crate::measure::Measure;
use crate::pack::{read_family_head, u16_of, u32_of, u64_of, Due, Records};
use crate::price::Price;

/// What the chain and total records of a pack claim.
struct Claim {
    /// Finest level first.
    chains: Vec<Vec<usize>>,
    total: Price,
}

/// Judges a whole family pack. Answers its total, or the first fault.
pub fn mark_pack(bytes: &[u8]) -> Result<Price, Fault> {
    let (job, rest) = read_family_head(bytes)?;
    let claim = read_claim(rest, &job)?;
    judge(&job, &claim)
}

/// Reads the chain and total records. Places count from the first byte of the first chain record.
fn read_claim(bytes: &[u8], job: &Job) -> Result<Claim, Fault> {
    let mut records = Records::new(bytes);
    let due = Due::Chain {
        vertices: job.line.count(),
    };
    let mut chains = Vec::new();
    for _ in &job.levels {
        let body = records.take(due)?;
        chains.push(
            body.chunks_exact(2)
                .map(|v| usize::from(u16_of(v)))
                .collect(),
        );
    }
    let total = records.take(Due::Total)?;
    records.end()?;
    // The numbers are compared as they stand, so this is not brought into form by `Price::new`.
    let total = Price {
        count: u32_of(total),
        area: u64_of(&total[4..]),
    };
    Ok(Claim { chains, total })
}

fn judge(job: &Job, claim: &Claim) -> Result<Price, Fault> {
    let mut total = Price::NEUTRAL;
    let mut finer: Option<&[usize]> = None;
    for (number, (level, chain)) in (1..).zip(job.levels.iter().zip(&claim.chains)) {
        let fault = |cause, spot| Fault::new(cause, Layer::Marker, number).at_spot(spot);
        if let Some(spot) = out_of_order(chain, job.line.last()) {
            return Err(fault(Cause::ChainOutOfOrder, spot));
        }
        if let Some(spot) = finer.and_then(|finer| not_nested(chain, finer)) {
            return Err(fault(Cause::NotNested, spot));
        }
        if let Some(spot) = not_allowed(job, level, chain) {
            return Err(fault(Cause::LinkNotAllowed, spot));
        }
        for link in chain.windows(2) {
            let price = job.price.of_link(&job.line, link[0], link[1], level.weight);
            total = job.price.join(total, price);
        }
        finer = Some(chain);
    }
    if total == claim.total {
        Ok(total)
    } else {
        Err(Fault::new(Cause::WrongTotal, Layer::Marker, 0))
    }
}

/// The lowest position at which a chain does not start at 0, end at the last vertex, or rise.
fn out_of_order(chain: &[usize], last: usize) -> Option<usize> {
    (0..chain.len()).find(|&p| {
        let bad_start = p == 0 && chain[p] != 0;
        let bad_end = p + 1 == chain.len() && chain[p] != last;
        let not_above = p > 0 && chain[p] <= chain[p - 1];
        bad_start || bad_end || not_above
    })
}

/// The lowest position whose vertex the finer chain does not have. The finer chain rises.
fn not_nested(chain: &[usize], finer: &[usize]) -> Option<usize> {
    chain.iter().position(|v| finer.binary_search(v).is_err())
}

/// The position of the first link that is not allowed at the level.
fn not_allowed(job: &Job, level: &Level, chain: &[usize]) -> Option<usize> {
    let allowed = |i, j| job.measure.allows(&job.line, i, j, level.tolerance);
    chain.windows(2).position(|link| !allowed(link[0], link[1]))
}

#[cfg(test)]
mod tests {
    use super::*;
    use crate::samples::{five_family, five_job, record};

    fn verdict(bytes: &[u8]) -> String {
        match mark_pack(bytes) {
            Ok(total) => format!("valid {} {}", total.count, total.area),
            Err(fault) => fault.to_string(),
        }
    }

    /// The five-vertex job with these chains and this total.
    fn family(chains: &[&[u16]], count: u32, area: u64) -> Vec<u8> {
        let mut bytes = five_job();
        for chain in chains {
            let body: Vec<u8> = chain.iter().flat_map(|v| v.to_le_bytes()).collect();
            bytes.extend(record(4, &body));
        }
        bytes.extend(record(
            5,
            &[&count.to_le_bytes()[..], &area.to_le_bytes()].concat(),
        ));
        bytes
    }

    #[test]
    fn the_example_is_valid() {
        assert_eq!(five_family().len(), 98);
        assert_eq!(verdict(&five_family()), "valid 4 0");
        assert_eq!(family(&[&[0, 2, 3, 4], &[0, 4]], 4, 0), five_family());
    }

    #[test]
    fn the_example_under_count_then_area() {
        let mut bytes = family(&[&[0, 2, 3, 4], &[0, 4]], 4, 20);
        bytes[7] = 2;
        assert_eq!(verdict(&bytes), "valid 4 20");
        assert_eq!(
            verdict(&family(&[&[0, 2, 3, 4], &[0, 4]], 4, 20)),
            "refused 12 layer 3 place 0 spot 0"
        );
    }

    #[test]
    fn cut_or_lengthened() {
        let whole = five_family();
        assert_eq!(verdict(&[]), "refused 1 layer 1 place 0 spot 0");
        assert_eq!(verdict(&whole[..8]), "refused 1 layer 1 place 8 spot 0");
        assert_eq!(verdict(&whole[..37]), "refused 1 layer 1 place 34 spot 0");
        let long_levels = [&whole[..34], &[72, 0, 0, 0, 3, 0]].concat();
        assert_eq!(verdict(&long_levels), "refused 3 layer 1 place 34 spot 0");
        assert_eq!(verdict(&whole[..56]), "refused 1 layer 1 place 0 spot 0");
        assert_eq!(verdict(&whole[..70]), "refused 1 layer 1 place 14 spot 0");
        assert_eq!(verdict(&whole[..97]), "refused 1 layer 1 place 24 spot 0");
        let longer = [&whole[..], &[0]].concat();
        assert_eq!(verdict(&longer), "refused 4 layer 1 place 42 spot 0");
    }

    #[test]
    fn chains_out_of_order() {
        let expected = "refused 9 layer 3 place 1 spot 2";
        assert_eq!(verdict(&family(&[&[0, 2, 3], &[0, 4]], 4, 0)), expected);
        assert_eq!(
            verdict(&family(&[&[0, 300, 3, 4], &[0, 4]], 4, 0)),
            expected
        );
    }

    #[test]
    fn chains_not_nested() {
        let bytes = family(&[&[0, 2, 3, 4], &[0, 1, 4]], 4, 0);
        assert_eq!(verdict(&bytes), "refused 10 layer 3 place 2 spot 1");
    }

    #[test]
    fn links_not_allowed() {
        let expected = "refused 11 layer 3 place 1 spot 1";
        assert_eq!(verdict(&family(&[&[0, 2, 4], &[0, 4]], 4, 0)), expected);
        assert_eq!(verdict(&family(&[&[0, 2, 4], &[1, 4]], 4, 0)), expected);
    }

    #[test]
    fn another_total() {
        let bytes = family(&[&[0, 2, 3, 4], &[0, 4]], 4, 1);
        assert_eq!(verdict(&bytes), "refused 12 layer 3 place 0 spot 0");
        let mut bytes = five_family();
        bytes[97] = 1;
        assert_eq!(verdict(&bytes), "refused 12 layer 3 place 0 spot 0");
    }

    #[test]
    fn structure_of_the_claim_comes_before_the_chains() {
        let mut bytes = family(&[&[1, 2, 3, 4], &[0, 4]], 4, 0);
        assert_eq!(verdict(&bytes), "refused 9 layer 3 place 1 spot 0");
        bytes.push(7);
        assert_eq!(verdict(&bytes), "refused 4 layer 1 place 42 spot 0");
    }

    #[test]
    fn a_chain_has_2_to_n_vertices() {
        let long = family(&[&[0, 1, 2, 3, 4, 4], &[0, 4]], 4, 0);
        assert_eq!(verdict(&long), "refused 3 layer 1 place 0 spot 0");
        let short = family(&[&[0, 2, 3, 4], &[0]], 4, 0);
        assert_eq!(verdict(&short), "refused 3 layer 1 place 14 spot 0");
    }
}
