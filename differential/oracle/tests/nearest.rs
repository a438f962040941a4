//! The order in which the Rust is fed a sample's sites: the first over a position is the one with the greatest start, of equal starts the
//! first in the file. And which cohorts are fed so.

use oracle::cohort::{Cohort, Site};
use oracle::rng::Rng;

fn block(sample: usize, contig: &str, start: u64, end: u64, number: u32) -> Site {
    Site {
        sample,
        contig: contig.to_string(),
        start,
        end,
        ref_allele: "A".to_string(),
        alts: vec!["<NON_REF>".to_string()],
        gq: Some(number),
        dp: None,
        min_dp: None,
        ad: None,
        pl: None,
    }
}

fn cohort(rng: &mut Rng) -> Cohort {
    let one = |rng: &mut Rng, number: u64| {
        let start = rng.range(1, 30);
        block(rng.below(2) as usize, *rng.pick(&["c", "d"]), start, start + rng.below(9), number as u32)
    };
    let sites = (0..rng.range(0, 8)).map(|i| one(rng, i)).collect();
    Cohort { samples: vec!["S".to_string(), "T".to_string()], sites }
}

/// The sites of a sample over a position of a contig, in the order in which they stand.
fn over<'a>(cohort: &'a Cohort, sample: usize, contig: &str, position: u64) -> Vec<&'a Site> {
    cohort.sites.iter().filter(|s| s.sample == sample && s.contig == contig && s.covers(position)).collect()
}

#[test]
fn the_first_site_is_the_nearest() {
    let mut rng = Rng::new(12);
    let mut overlapping = 0;
    for _ in 0..3000 {
        let cohort = cohort(&mut rng);
        let fed = cohort.latest_first();
        let mut overlap = false;
        for (sample, contig, position) in (0..2).flat_map(|s| ["c", "d"].map(|c| (s, c))).flat_map(|(s, c)| (1..40).map(move |p| (s, c, p))) {
            let sites = over(&cohort, sample, contig, position);
            let greatest = sites.iter().map(|s| s.start).max();
            let nearest = sites.iter().find(|s| Some(s.start) == greatest);
            assert_eq!(over(&fed, sample, contig, position).first(), nearest, "{cohort:?} at {contig}:{position}");
            overlap |= sites.len() > 1;
        }
        assert_eq!(cohort.overlaps_itself(), overlap, "{cohort:?}");
        overlapping += usize::from(overlap);
    }
    assert!((500..2500).contains(&overlapping));
}
