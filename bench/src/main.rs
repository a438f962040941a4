//! The Rust's `combine_loaded_gvcfs`, its inputs loaded, and Wintabol's `combine`, bytes in and bytes out, on the same cohorts, by turns:
//! bench TURNS [SHAPE SAMPLES SITES]. Small cohorts take more turns. Scratch has as many places as the sites
//! can need; each 1,000 places more cost the zeroing of 8,000 bytes.

mod shapes;

use gatk_haplotypecaller::combine_gvcfs::combine_loaded_gvcfs;
use oracle::cohort::write_cohort;
use oracle::combine::loaded_gvcfs;
use std::hint::black_box;
use std::time::{Duration, Instant};

fn time(mut f: impl FnMut()) -> Duration {
    let start = Instant::now();
    f();
    start.elapsed()
}

fn measure(turns: usize, shape: &str, samples: usize, sites: usize, out: &mut [u8]) {
    let cohort = shapes::cohort(shape, samples, sites, 20261115);
    let (text, loaded) = (write_cohort(&cohort), loaded_gvcfs(&cohort.for_the_rust()));
    let mut scratch = vec![0u64; shapes::places(&cohort)];
    let list = wintabol::combine(text.as_bytes(), None, None, &mut scratch, out).expect("a list");
    let (mut rust, mut ours) = (Vec::new(), Vec::new());
    let turns = turns * (4096 / sites).clamp(1, 50);
    for _ in 0..turns {
        rust.push(time(|| {
            let _ = black_box(combine_loaded_gvcfs(black_box(&loaded), None, None));
        }));
        ours.push(time(|| {
            let _ = black_box(wintabol::combine(black_box(text.as_bytes()), None, None, &mut scratch, out));
        }));
    }
    rust.sort();
    ours.sort();
    let (rust, ours) = (rust[turns / 2], ours[turns / 2]);
    println!(
        "{shape} {samples} {sites} {} {} {} {} {:.2}",
        text.len(),
        list,
        rust.as_micros(),
        ours.as_micros(),
        rust.as_secs_f64() / ours.as_secs_f64()
    );
}

fn main() {
    let words: Vec<String> = std::env::args().collect();
    let number = |i: usize| words[i].parse::<usize>().expect("a number");
    let turns = if words.len() > 1 { number(1) } else { 5 };
    let mut out = vec![0u8; 1 << 24];
    println!("shape samples sites text_bytes list_bytes rust_us ours_us ratio");
    if words.len() == 5 {
        return measure(turns, &words[2], number(3), number(4), &mut out);
    }
    for shape in shapes::SHAPES {
        for (samples, sites) in shapes::SIZES {
            measure(turns, shape, samples, sites, &mut out);
        }
    }
}
