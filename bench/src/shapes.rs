//! The cohorts that are timed: a shape, so many samples and so many sites in all, from a seed.

use oracle::cohort::{Cohort, Site};
use oracle::rng::Rng;

#[allow(dead_code)]
pub const SHAPES: [&str; 5] = ["mixed", "dense", "blocks", "contigs", "overlaps"];

/// Samples, and sites of all of them.
#[allow(dead_code)]
pub const SIZES: [(usize, usize); 10] = [
    (2, 10),
    (2, 64),
    (4, 128),
    (8, 256),
    (8, 512),
    (16, 1024),
    (32, 1024),
    (32, 2048),
    (64, 2048),
    (64, 4096),
];

pub fn cohort(shape: &str, samples: usize, sites: usize, seed: u64) -> Cohort {
    let mut rng = Rng::new(seed);
    let mut all = Vec::new();
    for sample in 0..samples {
        let share = sites / samples + usize::from(sample < sites % samples);
        let mut position = 1000 + rng.below(5);
        for i in 0..share {
            let contig = match shape {
                "contigs" => format!("chr{:02}", i * 24 / share.max(1)),
                _ => "chr01".to_string(),
            };
            let site = next_site(shape, &mut rng, sample, contig, position);
            position = match shape {
                "overlaps" => site.start + rng.range(1, 6),
                "dense" => site.end + 1,
                _ => site.end + 1 + if rng.chance(10) { rng.below(20) } else { 0 },
            };
            all.push(site);
        }
    }
    Cohort {
        samples: (0..samples).map(|i| format!("seedling{i:02}")).collect(),
        sites: all,
    }
}

/// One sample whose sites come in descending order: blocks of 10 positions, SNPs, or deletions of 128 letters.
#[allow(dead_code)]
pub fn descending(kind: &str, sites: usize, seed: u64) -> Cohort {
    let mut rng = Rng::new(seed);
    let length = match kind {
        "blocks" => 10,
        "snps" => 1,
        _ => 128,
    };
    let next = |i: usize| {
        let start = 1000 + (sites - i) as u64 * length;
        let reference: String = (start..start + if kind == "blocks" { 1 } else { length }).map(letter).collect();
        let alts = match kind {
            "blocks" => vec![],
            "snps" => vec![if letter(start) == 'T' { "A" } else { "T" }.to_string()],
            _ => vec![reference[..1].to_string()],
        };
        site(&mut rng, 0, "chr01".to_string(), start, start + length - 1, reference, alts)
    };
    Cohort {
        samples: vec!["seedling00".to_string()],
        sites: (0..sites).map(next).collect(),
    }
}

/// One sample with blocks of 10 positions and 5 positions without a site behind each.
#[allow(dead_code)]
pub fn with_gaps(sites: usize, seed: u64) -> Cohort {
    let mut rng = Rng::new(seed);
    let next = |i: usize| {
        let start = 1000 + i as u64 * 15;
        site(&mut rng, 0, "chr01".to_string(), start, start + 9, letter(start).to_string(), vec![])
    };
    Cohort {
        samples: vec!["seedling00".to_string()],
        sites: (0..sites).map(next).collect(),
    }
}

/// As many places as the sites can have breakpoints: two for a block, and for any other site one for each position and one behind it.
#[allow(dead_code)]
pub fn places(cohort: &Cohort) -> usize {
    cohort.sites.iter().map(|s| if s.is_block() { 2 } else { s.ref_allele.len() + 1 }).sum()
}

/// The letter of the reference at a position.
#[allow(dead_code)]
pub fn letter(position: u64) -> char {
    b"ACGT"[((position.wrapping_mul(0x9E37_79B9_7F4A_7C15)) >> 40) as usize % 4] as char
}

fn next_site(shape: &str, rng: &mut Rng, sample: usize, contig: String, start: u64) -> Site {
    let variant = match shape {
        "dense" => rng.chance(80),
        "blocks" => rng.chance(3),
        "overlaps" => true,
        _ => rng.chance(40),
    };
    if !variant {
        let length = match shape {
            "blocks" => rng.range(200, 900),
            "dense" => rng.range(1, 5),
            _ => rng.range(5, 60),
        };
        return site(rng, sample, contig, start, start + length - 1, letter(start).to_string(), vec![]);
    }
    let length = match shape {
        // by the position, so that deletions that start together are one allele: 64 samples would have over 16
        "overlaps" => 8 + start * 7 % 17,
        _ if rng.chance(20) => rng.range(2, 6),
        _ => 1,
    };
    let reference: String = (start..start + length).map(letter).collect();
    let other = b"ACGT"[rng.below(4) as usize] as char;
    let alt = if length > 1 {
        reference[..1].to_string()
    } else if other == letter(start) {
        format!("{other}T")
    } else {
        other.to_string()
    };
    site(rng, sample, contig, start, start + length - 1, reference, vec![alt])
}

fn site(rng: &mut Rng, sample: usize, contig: String, start: u64, end: u64, ref_allele: String, mut alts: Vec<String>) -> Site {
    alts.push("<NON_REF>".to_string());
    let alleles = alts.len() + 1;
    let pairs = alleles * (alleles + 1) / 2;
    let mut pl: Vec<u32> = (0..pairs).map(|_| rng.below(1800) as u32).collect();
    pl[rng.below(pairs as u64) as usize] = 0;
    let block = alts.len() == 1;
    let (gq, dp) = (rng.below(100) as u32, rng.below(60) as u32);
    Site {
        sample,
        contig,
        start,
        end,
        ref_allele,
        alts,
        gq: Some(gq),
        dp: Some(dp),
        // as GATK writes it: the least depth, in a block alone
        min_dp: block.then_some(dp - dp / 4),
        ad: Some((0..alleles).map(|_| rng.below(40) as u32).collect()),
        pl: Some(pl),
    }
}
