//! So many calls of one side on one cohort, for counting instructions: one SIDE SHAPE SAMPLES SITES CALLS, where SIDE is rust or ours.

#[path = "../shapes.rs"]
mod shapes;

use gatk_haplotypecaller::combine_gvcfs::combine_loaded_gvcfs;
use oracle::cohort::write_cohort;
use oracle::combine::loaded_gvcfs;
use std::hint::black_box;

fn main() {
    let words: Vec<String> = std::env::args().collect();
    let number = |i: usize| words[i].parse::<usize>().expect("a number");
    let cohort = shapes::cohort(&words[2], number(3), number(4), 20261115);
    let (text, loaded) = (write_cohort(&cohort), loaded_gvcfs(&cohort.for_the_rust()));
    let mut scratch = vec![0u64; shapes::places(&cohort)];
    let mut out = vec![0u8; 1 << 24];
    for _ in 0..number(5) {
        if words[1] == "rust" {
            let _ = black_box(combine_loaded_gvcfs(black_box(&loaded), None, None));
        } else {
            black_box(wintabol::combine(black_box(text.as_bytes()), None, None, &mut scratch, &mut out)).expect("a list");
        }
    }
}
