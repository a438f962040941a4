//! The ends of the domain, on purpose: the largest counts and lengths against the Rust, and one more, which must be refused.

use crate::bad;
use crate::combine::{self, Texts};
use crate::looks::{self, Tally};
use crate::ours::Library;
use crate::rows::MOST_BYTES;
use oracle::alleles::{answer_group, kind};
use oracle::cohort::{write_clip, write_reference, ClipSpan, Cohort, Lent, Site, Stretch};
use oracle::text::{pairs, Rules};
use wintabol::Refused;

const LAST: u64 = 2_147_483_647;

fn samples(count: usize) -> Vec<String> {
    (0..count).map(|i| format!("seedling_of_the_orchard_row_{i:04}")).collect()
}

/// A site whose numbers are large and all different.
fn site(sample: usize, start: u64, end: u64, reference: &str, alts: &[String]) -> Site {
    let alts: Vec<String> = alts.iter().cloned().chain(["<NON_REF>".to_string()]).collect();
    let n = alts.len() + 1;
    let number = |i: usize| (LAST - (sample * 64 + i) as u64) as u32;
    Site {
        sample,
        contig: "chromosome_of_thirty_two_bytes_5".to_string(),
        start,
        end,
        ref_allele: reference.to_string(),
        alts,
        gq: Some(number(0)),
        dp: Some(number(1)),
        min_dp: Some(number(2)),
        ad: Some((0..n).map(number).collect()),
        pl: Some((0..pairs(n)).map(number).collect()),
    }
}

fn block(sample: usize, start: u64, end: u64) -> Site {
    site(sample, start, end, "A", &[])
}

fn lent(count: usize, sites: Vec<Site>) -> Lent {
    Lent { cohort: Cohort { samples: samples(count), sites }, clip: None, reference: None }
}

/// A word that no other number has, of at least so many letters.
fn word(number: usize, length: usize) -> String {
    let letters: String = (0..4).map(|k| b"ACGT"[number >> (2 * k) & 3] as char).collect();
    format!("G{letters}{}", "C".repeat(length)).chars().take(length.max(5)).collect()
}

/// So many letter ALTs at one position, six in each sample.
fn crowded(alts: usize) -> Lent {
    let own = |s: usize| -> Vec<String> { (6 * s..alts.min(6 * s + 6)).map(|k| word(k, 5)).collect() };
    let count = alts.div_ceil(6);
    lent(count, (0..count).map(|s| site(s, 7, 7, "A", &own(s))).collect())
}

/// REF of so many letters in one sample, and in the other an ALT of as many that grows by all but one of them.
fn long_alleles(letters: usize) -> Lent {
    let reference = format!("A{}", "GT".repeat(letters)).chars().take(letters).collect::<String>();
    let deletion = site(0, 50, 49 + letters as u64, &reference, &["A".to_string()]);
    lent(2, vec![deletion, site(1, 50, 50, "A", &[word(0, letters)])])
}

/// Blocks far apart, so many reference groups of one letter and clip spans; those that are needed come last.
fn many_groups(count: u64) -> Lent {
    let contig = "chromosome_of_thirty_two_bytes_5".to_string();
    let mut call = lent(2, vec![block(0, 100_000, 100_019), block(1, 100_005, 100_011), block(1, 100_012, 100_030)]);
    let needed = [100_003, 100_005, 100_012, 100_020];
    let groups = |at: u64| Stretch { contig: contig.clone(), first: at, bases: "ACGT"[at as usize % 4..][..1].into() };
    call.reference = Some((1..=count - 4).chain(needed).map(groups).collect());
    let mut spans: Vec<ClipSpan> =
        (1..count).map(|at| ClipSpan { contig: contig.clone(), start: 2 * at, end: 2 * at }).collect();
    spans.push(ClipSpan { contig, start: 100_003, end: 100_025 });
    call.clip = Some(spans);
    call
}

/// A block under so many clip spans that overlap: their bounds are all different, and the records join into one.
fn stairs(count: u64) -> Lent {
    let contig = "chromosome_of_thirty_two_bytes_5".to_string();
    let mut call = lent(2, vec![block(0, 2, 100_000), block(1, 1, 99_999)]);
    call.clip = Some((0..count).map(|i| ClipSpan { contig: contig.clone(), start: 4 * i + 5, end: 4 * i + 10 }).collect());
    call
}

/// So many reference groups that hold no needed position, and behind them two that hold all of them and disagree everywhere.
fn two_that_disagree(others: u64) -> Lent {
    let mut call = many_groups(others + 4);
    let group = |at: u64, bases: &str| Stretch { contig: "chromosome_of_thirty_two_bytes_5".to_string(), first: at, bases: bases.repeat(16) };
    let reference = call.reference.get_or_insert_default();
    reference.truncate(others as usize);
    reference.extend([group(100_002, "AC"), group(100_000, "GT")]);
    call
}

/// Calls that the scope accepts.
fn accepted() -> Vec<(String, Lent)> {
    let positions = |n: u64| (0..n).map(|i| block((i % 64) as usize, 1 + i / 64 * 2, 1 + i / 64 * 2)).collect();
    let mut all = vec![
        ("no site".to_string(), lent(1, vec![])),
        ("64 samples, no site".to_string(), lent(64, vec![])),
        ("64 samples, a site each".to_string(), lent(64, (0..64).map(|s| block(s, 5, 9)).collect())),
        ("64 samples, 4,096 sites".to_string(), lent(64, positions(4096))),
        ("one sample, 4,096 sites".to_string(), lent(1, (1..=4096).map(|i| block(0, i, i)).collect())),
        ("256 sites".to_string(), lent(2, (1..=256).map(|i| block(0, 2 * i, 2 * i)).collect())),
        ("257 sites".to_string(), lent(2, (1..=257).map(|i| block(0, 2 * i, 2 * i)).collect())),
        ("a block to the last position".to_string(), lent(1, vec![block(0, 1, LAST)])),
        ("a SNP at the last position".to_string(), lent(2, vec![site(0, LAST, LAST, "A", &["G".to_string()]), block(1, 1, LAST)])),
        ("sixteen merged alleles".to_string(), crowded(14)),
        ("alleles of 255 letters".to_string(), long_alleles(128)),
    ];
    let word_at = |start: u64, length: u64| (start..start + length).map(|p| b"ACGT"[(p * p / 3 % 4) as usize] as char).collect::<String>();
    let deletion = |start: u64, length: u64| site(0, start, start + length - 1, &word_at(start, length), &[word_at(start, 1)]);
    for length in [7, 8, 9, 128] {
        // 128 deletions one behind the other, each of so many letters: about 1,024 breakpoints, and many more
        all.push((format!("128 deletions of {length} letters"), lent(1, (0..128).map(|i| deletion(1 + i * length, length)).collect())));
    }
    all.push(("256 deletions of 128 letters, backwards".to_string(), lent(1, (0..256).rev().map(|i| deletion(9 + i * 128, 128)).collect())));
    for count in [255, 256, 511, 512, 513, 3000] {
        all.push((format!("{count} clip spans over a block, each over the end of the one before it"), stairs(count)));
    }
    for count in [1023, 1024, 1025, 1026, 5000] {
        all.push((format!("{count} reference groups and clip spans"), many_groups(count)));
    }
    for others in [0, 1022, 1023, 1024] {
        all.push((format!("two groups that disagree behind {others} others"), two_that_disagree(others)));
    }
    all
}

/// A cohort with a reference, or a clip, of exactly so many bytes.
fn long_texts(bytes: usize) -> [Lent; 2] {
    let mut referenced = lent(1, vec![block(0, 3, 9), block(0, 4, 4)]);
    let stretch = |bases: usize| Stretch { contig: "chromosome_of_thirty_two_bytes_5".into(), first: 1, bases: "A".repeat(bases).into() };
    let rest = write_reference(&[stretch(1)]).len() - 1;
    referenced.reference = Some(vec![stretch(bytes - rest)]);
    let mut clipped = lent(1, vec![block(0, 3, 9)]);
    let span = |name: usize| ClipSpan { contig: "c".repeat(name), start: 1, end: 1 };
    let (short, longer) = (write_clip(&[span(1)]).len(), write_clip(&[span(2)]).len());
    let count = bytes / short;
    let more = (bytes - count * short) / (longer - short);
    let mut spans = vec![span(2); more];
    spans.resize(count, span(1));
    clipped.clip = Some(spans);
    [referenced, clipped]
}

fn refused(library: &mut Library, lent: &Lent, row: usize, what: &str) -> Result<(), String> {
    match library.combine_roomy(&Texts::of(lent).call(10_000, 0)) {
        Err(other) if other == row => Ok(()),
        other => Err(format!("{what}: {row} expected, {:?} answered", other.map(|l| l.len()))),
    }
}

/// Sixteen alleles of 255 letters, and one more of either.
fn trimmed() -> Result<usize, String> {
    let list = |alleles: usize, letters: usize| (0..alleles).map(|k| word(k, letters)).collect::<Vec<_>>().join(",");
    let mut out = [0u8; 8192];
    let right = answer_group(kind("trim").ok_or("no kind trim")?, &[list(16, 255)], Rules::On)?;
    let n = wintabol::reverse_trim_alleles(list(16, 255).as_bytes(), &mut out).map_err(|Refused(row)| format!("trim: {row}"))?;
    if !right.contains(&format!("trimmed={}\n", String::from_utf8_lossy(&out[..n]))) {
        return Err("trim: another answer".to_string());
    }
    for more in [list(17, 255), list(16, 256)] {
        if wintabol::reverse_trim_alleles(more.as_bytes(), &mut out) != Err(Refused(5)) {
            return Err("trim: not 5".to_string());
        }
    }
    Ok(3)
}

pub fn check() -> Result<String, String> {
    let mut library = Library::new();
    let mut count = trimmed()?;
    for (what, lent) in accepted() {
        combine::hold(&mut library, &lent, count as u64).map_err(|e| format!("{what}: {e}"))?;
        looks::hold(&mut library, &lent, count as u64, &mut Tally::default()).map_err(|e| format!("{what}, looks: {e}"))?;
        count += 1;
    }
    for lent in long_texts(MOST_BYTES) {
        let longest = Texts::of(&lent);
        let length = longest.clip.iter().chain(&longest.reference).map(String::len).max();
        if length != Some(MOST_BYTES) {
            return Err(format!("a text of {length:?} bytes"));
        }
        combine::hold(&mut library, &lent, count as u64).map_err(|e| format!("a text of {MOST_BYTES} bytes: {e}"))?;
        count += 1;
    }
    for lent in long_texts(MOST_BYTES + 1) {
        refused(&mut library, &lent, 2, "a text that is too long")?;
        count += 1;
    }
    let full = (0..4097).map(|i| block(0, 1 + i, 1 + i)).collect();
    refused(&mut library, &lent(1, full), 2, "4,097 sites")?;
    refused(&mut library, &lent(65, vec![]), 2, "65 samples")?;
    refused(&mut library, &crowded(15), 13, "seventeen merged alleles")?;
    refused(&mut library, &long_alleles(129), 5, "an allele of 129 letters")?;
    for text in [&b""[..], &vec![b'\n'; MOST_BYTES + 1]] {
        bad::hold(&mut library, text, None, None)?;
        bad::hold_list(&mut library, text)?;
        count += 2;
    }
    Ok(format!("{} calls at the ends of the domain: no difference\n", count + 4))
}
