//! The looks of a contig against a count straight from document 02, on generated cohorts of every sort, and on texts that a row refuses.

use crate::combine::{breakpoints, lent_of, places_for, sort_of, Texts};
use crate::ours::{Call, Library};
use oracle::cohort::{ClipSpan, Lent, Site, Stretch};
use oracle::domain;
use oracle::rng::{mix, Rng};
use oracle::text::Refusal;

const LAST: u64 = 2_147_483_647;

/// Note 5 with Note 12's rule: for each kept interval and each sample, all its sites on the contig. Counted one by one.
pub fn counted(lent: &Lent, contig: &str) -> usize {
    let points: Vec<u64> = domain::breakpoints(lent, contig).into_iter().collect();
    let kept = |start: u64, end: u64| match &lent.clip {
        None => true,
        Some(spans) => spans.iter().any(|c| c.contig == contig && c.start <= start && end <= c.end),
    };
    let mut sites = vec![0; lent.cohort.samples.len()];
    for s in lent.cohort.sites.iter().filter(|s| s.contig == contig) {
        sites[s.sample] += 1;
    }
    let mut looks = 0;
    for pair in points.windows(2).filter(|pair| kept(pair[0], pair[1] - 1)) {
        assert!(pair[0] < pair[1]);
        for count in &sites {
            looks += count;
        }
    }
    looks
}

/// What document 01's rows 11 to 13 say of the whole call, whichever contig is asked for.
fn refused(lent: &Lent) -> Option<usize> {
    domain::check(lent).err().map(|Refusal { number, .. }| number as usize)
}

/// A change that may bring in one of rows 11 to 13, on any contig: a reference that lacks letters, a REF that is no prefix, many ALTs; or a
/// clip that lets nothing, or only some of it, through.
fn changed(lent: &Lent, rng: &mut Rng) -> Lent {
    let mut call = lent.clone();
    let count = call.cohort.sites.len() as u64;
    if count == 0 {
        return call;
    }
    let any = call.cohort.sites[rng.below(count) as usize].clone();
    let contig = any.contig.clone();
    match rng.below(6) {
        0 => call.reference = Some(vec![]),
        1 => call.reference = Some(vec![Stretch { contig, first: any.start, bases: "a".into() }]),
        2 => {
            let sample = rng.below(call.cohort.samples.len() as u64) as usize;
            let reference = *rng.pick(&["A", "c", "G", "t"]);
            call.cohort.sites.insert(0, beside(&any, sample, reference, "N"));
        }
        3 => {
            for (sample, letter) in ["A", "c", "G"].iter().enumerate().take(call.cohort.samples.len()) {
                call.cohort.sites.insert(0, beside(&any, sample, &any.ref_allele[..1], letter));
            }
        }
        4 => call.clip = Some(vec![]),
        _ => call.clip = Some(vec![ClipSpan { contig, start: any.start, end: (any.start + rng.below(40)).min(LAST) }]),
    }
    call.cohort.sites.truncate(4096);
    call
}

/// A site of a sample without values that starts where another does, with a REF of one letter and six ALTs that begin with a letter.
fn beside(site: &Site, sample: usize, reference: &str, letter: &str) -> Site {
    let alts = (1..7).map(|k| format!("{letter}{}", "T".repeat(k))).chain(["<NON_REF>".to_string()]).collect();
    let (end, ref_allele) = (site.start, reference.to_string());
    Site { sample, end, ref_allele, alts, gq: None, dp: None, min_dp: None, ad: None, pl: None, ..site.clone() }
}

/// How many calls gave a figure, and how many a row from 10 to 13.
#[derive(Default)]
pub struct Tally {
    figures: u64,
    not_zero: u64,
    rows: [u64; 14],
    looks: u64,
}

/// The library's figure of every contig and of two that no site names, with one place, with some and with many: the count, or the row that
/// refuses the list whatever room it has; without places 10 if there is a site.
pub fn hold(library: &mut Library, lent: &Lent, seed: u64, tally: &mut Tally) -> Result<(), String> {
    let mut rng = Rng::new(seed);
    let texts = Texts::of(lent);
    let row = refused(lent);
    let several = places_for(breakpoints(lent), &mut rng);
    let named = domain::contigs(lent);
    for contig in named.iter().copied().chain(["no_site_names_it", ""]) {
        let expected = match row {
            Some(row) => Err(row),
            None => Ok(counted(lent, contig)),
        };
        let none = if lent.cohort.sites.is_empty() { expected } else { Err(10) };
        for (places, expected) in [(1, expected), (*rng.pick(&several), expected), (0, none)] {
            let answer = library.looks(&texts.call(places, 0), contig.as_bytes());
            if answer != expected {
                return Err(format!("contig `{contig}` with {places} places: {expected:?} expected, {answer:?} answered"));
            }
            match answer {
                Ok(figure) => {
                    tally.figures += 1;
                    tally.not_zero += u64::from(figure > 0);
                    tally.looks += figure as u64;
                }
                Err(row) => tally.rows[row] += 1,
            }
        }
    }
    same_refusal(library, &texts, named.iter().next().copied().unwrap_or("c"), row)
}

/// The list of the same call is refused with the same row, and else accepted.
fn same_refusal(library: &mut Library, texts: &Texts, contig: &str, row: Option<usize>) -> Result<(), String> {
    let list = library.combine_roomy(&texts.call(1, 0)).err().filter(|&row| row != 14);
    let looks = library.looks(&texts.call(1, 0), contig.as_bytes()).err();
    if list == looks && list == row {
        return Ok(());
    }
    Err(format!("the list says {list:?}, the looks say {looks:?}, the rules {row:?}"))
}

/// Texts with a fault: the row of 1 to 9 that refuses the list refuses the looks.
fn hold_fault(library: &mut Library, lent: &Lent, rng: &mut Rng) -> Result<(), String> {
    let texts = Texts::of(lent);
    let mut cohort = texts.cohort.clone().into_bytes();
    let at = rng.below(cohort.len() as u64) as usize;
    cohort[at] = *rng.pick(b"\n=,.0Aag ");
    let call = Call { cohort: &cohort, ..texts.call(2, 0) };
    let row = crate::rows::refusing(&cohort, call.clip, call.reference);
    let contig = lent.cohort.sites.first().map_or("c", |s| &s.contig);
    let answer = library.looks(&call, contig.as_bytes());
    let right = match (row, answer) {
        (0, Ok(_)) => true,
        (0, Err(other)) => (11..=13).contains(&other),
        (row, Err(other)) => row == other,
        _ => false,
    };
    if right {
        return Ok(());
    }
    Err(format!("row {row} expected, {answer:?} answered for\n{}", String::from_utf8_lossy(&cohort)))
}

pub fn compare(seed: u64, count: u64) -> Result<String, String> {
    let mut library = Library::new();
    let mut tally = Tally::default();
    for i in 0..count {
        let lent = lent_of(i, mix(seed ^ mix(i)));
        let mut rng = Rng::new(mix(seed.wrapping_add(i)));
        let told = |what: String| format!("seed {seed}, cohort {i}, sort {}: {what}", sort_of(i).name);
        hold(&mut library, &lent, rng.any(), &mut tally).map_err(told)?;
        let other = changed(&lent, &mut rng);
        hold(&mut library, &other, rng.any(), &mut tally).map_err(|what| told(format!("changed: {what}")))?;
        hold_fault(&mut library, &lent, &mut rng).map_err(told)?;
    }
    let rows: Vec<String> = (10..14).map(|row| format!("{row}: {}", tally.rows[row])).collect();
    Ok(format!(
        "{count} cohorts, as many changed ones and as many with a fault: {} figures, {} of them not 0, {} looks in all; refused {}: no difference\n",
        tally.figures,
        tally.not_zero,
        tally.looks,
        rows.join(", ")
    ))
}
