//! Inputs along which the cost may grow faster than their size: long clips, sites in descending order, sites with gaps, few scratch places.
//! growth [CASE [NUMBER]]: the Rust's `combine_loaded_gvcfs` and Wintabol's `combine`, the middle of some turns each. With a third
//! word, `ours` or `rust`, that side alone is called so many times (the fourth word) and nothing is printed, for counting instructions.

#[path = "../shapes.rs"]
mod shapes;

use gatk_haplotypecaller::combine_gvcfs::{combine_loaded_gvcfs, LoadedGvcf, Span};
use oracle::cohort::{write_clip, write_cohort, ClipSpan, Cohort};
use oracle::combine::loaded_gvcfs;
use std::collections::HashMap;
use std::hint::black_box;
use std::time::{Duration, Instant};

/// A case and how many clip spans, sites or places it has.
const CASES: [(&str, usize); 18] = [
    ("clip-outside", 1_000),
    ("clip-outside", 10_000),
    ("clip-outside", 100_000),
    ("clip-inside", 1_000),
    ("clip-inside", 10_000),
    ("clip-inside", 100_000),
    ("clip-elsewhere", 1_000),
    ("clip-elsewhere", 10_000),
    ("clip-elsewhere", 100_000),
    ("clip-descending", 10_000),
    ("descending-blocks", 4_096),
    ("descending-snps", 4_096),
    ("descending-deletions", 256),
    ("descending-deletions", 512),
    ("gaps", 4_096),
    ("places", 1),
    ("places", 64),
    ("places", 8_192),
];

/// What both sides are given.
struct Input {
    text: String,
    clip: Option<String>,
    loaded: Vec<LoadedGvcf>,
    spans: Option<HashMap<String, Vec<Span>>>,
    places: usize,
}

fn input(case: &str, number: usize) -> Input {
    let (cohort, spans) = match case {
        "clip-outside" => (
            shapes::cohort("mixed", 2, 64, 1),
            Some(spans("chr01", number, |i| 1_000_000 + 20 * i)),
        ),
        "clip-descending" => (
            shapes::cohort("mixed", 2, 64, 1),
            Some(spans("chr01", number, |i| 9_000_000 - 20 * i)),
        ),
        "clip-inside" => (
            shapes::cohort("blocks", 8, 512, 1),
            Some(spans("chr01", number, |i| 1_000 + i * 7 % 30_000)),
        ),
        "clip-elsewhere" => (
            shapes::cohort("mixed", 2, 64, 1),
            Some(spans("chr02", number, |i| 1_000_000 + 20 * i)),
        ),
        "gaps" => (shapes::with_gaps(number, 1), None),
        "descending-blocks" => (shapes::descending("blocks", number, 1), None),
        "descending-snps" => (shapes::descending("snps", number, 1), None),
        "descending-deletions" => (shapes::descending("deletions", number, 1), None),
        _ => (shapes::cohort("mixed", 64, 4096, 20261115), None),
    };
    let places = if case == "places" {
        number
    } else {
        shapes::places(&cohort) + spans.as_ref().map_or(0, |s| 2 * s.len())
    };
    of(cohort, spans, places)
}

fn spans(contig: &str, number: usize, start: impl Fn(u64) -> u64) -> Vec<ClipSpan> {
    let span = |i| ClipSpan {
        contig: contig.to_string(),
        start: start(i),
        end: start(i) + 9,
    };
    (0..number as u64).map(span).collect()
}

fn of(cohort: Cohort, spans: Option<Vec<ClipSpan>>, places: usize) -> Input {
    let map = spans.as_ref().map(|spans| {
        let mut map: HashMap<String, Vec<Span>> = HashMap::new();
        for s in spans {
            map.entry(s.contig.clone()).or_default().push(Span {
                start: s.start,
                end: s.end,
            });
        }
        map
    });
    Input {
        text: write_cohort(&cohort),
        clip: spans.map(|s| write_clip(&s)),
        loaded: loaded_gvcfs(&cohort.for_the_rust()),
        spans: map,
        places,
    }
}

fn rust(x: &Input) -> Duration {
    let start = Instant::now();
    let _ = black_box(combine_loaded_gvcfs(
        black_box(&x.loaded),
        None,
        x.spans.as_ref(),
    ));
    start.elapsed()
}

fn ours(x: &Input, scratch: &mut [u64], out: &mut [u8]) -> Duration {
    let start = Instant::now();
    let clip = x.clip.as_ref().map(|c| c.as_bytes());
    let _ = black_box(wintabol::combine(
        black_box(x.text.as_bytes()),
        clip,
        None,
        scratch,
        out,
    ));
    start.elapsed()
}

fn middle(mut times: Vec<Duration>) -> Duration {
    times.sort();
    times[times.len() / 2]
}

fn measure(case: &str, number: usize, out: &mut [u8]) {
    let x = input(case, number);
    let mut scratch = vec![0u64; x.places];
    let answer = wintabol::combine(
        x.text.as_bytes(),
        x.clip.as_ref().map(|c| c.as_bytes()),
        None,
        &mut scratch,
        out,
    );
    let answer = answer.map_or_else(|r| format!("refused={}", r.0), |n| n.to_string());
    let first = ours(&x, &mut scratch, out).max(rust(&x));
    let turns = if first > Duration::from_secs(1) { 1 } else { 9 };
    let (theirs, ours): (Vec<_>, Vec<_>) = (0..turns)
        .map(|_| (rust(&x), ours(&x, &mut scratch, out)))
        .unzip();
    let (theirs, ours) = (middle(theirs), middle(ours));
    println!(
        "{case} {number} {} {answer} {} {} {:.2}",
        x.places,
        theirs.as_micros(),
        ours.as_micros(),
        theirs.as_secs_f64() / ours.as_secs_f64()
    );
}

fn main() {
    let words: Vec<String> = std::env::args().collect();
    let mut out = vec![0u8; 1 << 25];
    if words.len() == 5 {
        let x = input(&words[1], words[2].parse().expect("a number"));
        let mut scratch = vec![0u64; x.places];
        for _ in 0..words[4].parse().expect("a number") {
            if words[3] == "rust" {
                rust(&x)
            } else {
                ours(&x, &mut scratch, &mut out)
            };
        }
        return;
    }
    println!("case number places list_bytes rust_us ours_us ratio");
    let wanted = |case: &str, number: usize| {
        words.get(1).map_or(true, |w| w == case)
            && words.get(2).map_or(true, |n| n.parse() == Ok(number))
    };
    for (case, number) in CASES {
        if wanted(case, number) {
            measure(case, number, &mut out);
        }
    }
}
