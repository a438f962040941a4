//! Demand 3 on the bytes that the compiled library writes: samples put into a cohort change nothing that its list said. It says nothing of the
//! letters of REF: without a reference a sample put in may bring another one, and then blocks join otherwise. Such records are counted.

use crate::combine::{breakpoints, lent_of, places_for, Texts};
use crate::ours::Library;
use oracle::cohort::{Cohort, Lent};
use oracle::list::{read_combined, List, ListRecord, ListSample};
use oracle::rng::{mix, Rng};
use oracle::text::Rules;

/// The cohort without the samples that are struck.
fn without(cohort: &Cohort, struck: &[bool]) -> Cohort {
    let number = |sample: usize| struck[..sample].iter().filter(|&&s| !s).count();
    let left = |s: &usize| !struck[*s];
    Cohort {
        samples: (0..struck.len()).filter(left).map(|s| cohort.samples[s].clone()).collect(),
        sites: cohort
            .sites
            .iter()
            .filter(|site| left(&site.sample))
            .map(|site| {
                let mut site = site.clone();
                site.sample = number(site.sample);
                site
            })
            .collect(),
    }
}

fn place(a: usize, b: usize) -> usize {
    let (low, high) = (a.min(b), a.max(b));
    high * (high + 1) / 2 + low
}

/// The number in the new record of each old allele.
fn followed(old: &ListRecord, new: &ListRecord) -> Option<Vec<usize>> {
    let tail = new.ref_allele.get(old.ref_allele.len()..).unwrap_or("");
    let find = |alt: &String| {
        let own = if alt == "*" || alt == "<NON_REF>" { alt.clone() } else { format!("{alt}{tail}") };
        new.alts.iter().position(|a| *a == own).map(|i| i + 1)
    };
    let mut all = vec![0];
    for alt in &old.alts {
        all.push(find(alt)?);
    }
    Some(all)
}

fn same_call(map: &[usize], v: &ListSample, w: &ListSample) -> bool {
    let ad = match (&v.ad, &w.ad) {
        (None, None) => true,
        (Some(a), Some(b)) => (0..map.len()).all(|x| a[x] == b[map[x]]),
        _ => false,
    };
    let pl = match (&v.pl, &w.pl) {
        (None, None) => true,
        (Some(p), Some(q)) => {
            p.iter().min() == q.iter().min()
                && (0..map.len()).all(|x| (x..map.len()).all(|y| p[place(x, y)] == q[place(map[x], map[y])]))
        }
        _ => false,
    };
    v.gq == w.gq && v.dp == w.dp && v.min_dp == w.min_dp && ad && pl
}

/// How many records of the first list begin where the second's record has another first letter.
fn other_letters(first: &List, second: &List) -> usize {
    let over = |old: &ListRecord| second.records.iter().find(|r| r.contig == old.contig && r.pos <= old.pos && old.pos <= r.last()).cloned();
    let same = |old: &ListRecord| over(old).is_some_and(|new| new.ref_allele.as_bytes()[0] == old.ref_allele.as_bytes()[0]);
    first.records.iter().filter(|old| !same(old)).count()
}

/// What the first list says that the second does not say again, if anything.
fn lost(first: &List, second: &List) -> Option<String> {
    for old in &first.records {
        let mut covered = old.pos;
        while covered <= old.last() {
            let over: Vec<&ListRecord> =
                second.records.iter().filter(|r| r.contig == old.contig && r.pos <= covered && covered <= r.last()).collect();
            let [new] = over[..] else { return Some(format!("{} records at {covered}", over.len())) };
            let Some(map) = followed(old, new) else { return Some(format!("an allele is lost at {covered}")) };
            for (i, name) in first.samples.iter().enumerate() {
                let Some(j) = second.samples.iter().position(|n| n == name) else { return Some("a name is lost".to_string()) };
                if !same_call(&map, &old.samples[i], &new.samples[j]) {
                    return Some(format!("another call of {name} at {covered}"));
                }
            }
            // up to the end of the new record the answer is the same
            covered = new.last() + 1;
        }
    }
    None
}

/// The list that the library writes with so many places, read back; none if it refuses the cohort.
fn written(library: &mut Library, lent: &Lent, places: usize) -> Result<Option<List>, String> {
    let texts = Texts::of(lent);
    let Ok(bytes) = library.combine_roomy(&texts.call(places, 0)) else { return Ok(None) };
    let text = String::from_utf8(bytes).map_err(|e| e.to_string())?;
    read_combined(&text, Rules::On).map(Some).map_err(|r| r.to_string())
}

pub fn check(seed: u64, count: u64) -> Result<String, String> {
    let mut library = Library::new();
    let (mut pairs, mut records, mut overlaps, mut unreferenced, mut letters, mut small, mut min_dps, mut i) = (0, 0, 0, 0, 0, 0, 0, 0);
    while pairs < count {
        let mut rng = Rng::new(mix(seed ^ mix(i)));
        let second = lent_of(i, rng.any());
        i += 1;
        let samples = second.cohort.samples.len();
        let struck: Vec<bool> = (0..samples).map(|_| rng.chance(40)).collect();
        if struck.iter().all(|&s| s) {
            continue;
        }
        let first = Lent { cohort: without(&second.cohort, &struck), ..second.clone() };
        let told = |what: String| format!("seed {seed}, pair {i}: {what}");
        // a cohort without some sites may need a reference letter that the other does not need
        let mut places = |lent: &Lent| {
            let several = places_for(breakpoints(lent), &mut rng);
            *rng.pick(&several)
        };
        let (of_first, of_second) = (places(&first), places(&second));
        let Some(one) = written(&mut library, &first, of_first).map_err(told)? else { continue };
        let Some(two) = written(&mut library, &second, of_second).map_err(told)? else { continue };
        if let Some(what) = lost(&one, &two) {
            return Err(told(what));
        }
        pairs += 1;
        records += one.records.len();
        overlaps += u64::from(first.cohort.overlaps_itself());
        small += u64::from(first.has_small_letters());
        min_dps += u64::from(first.cohort.has_min_dp());
        if first.reference.is_none() {
            unreferenced += 1;
            letters += other_letters(&one, &two);
        }
    }
    Ok(format!(
        "{pairs} pairs of cohorts, {overlaps} with overlapping sites of an old sample, {unreferenced} without a reference, {small} with small \
         letters, {min_dps} with MIN_DP, {records} records of the first lists: all said again; without a reference {letters} of them begin with another letter in the second\n"
    ))
}
