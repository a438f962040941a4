//! Two orders of one cohort, on the bytes that the compiled library writes (document 02, Note 7): with the same clip and one same reference the
//! lists say the same, but for the order of ALTs and a GT among equal PLs. The lists are read and held against each other here, from the note
//! alone. Without a reference two orders need not agree; how many do not is counted.

use crate::combine::{breakpoints, lent_of, places_for, Texts};
use crate::ours::Library;
use oracle::cohort::{Cohort, Lent};
use oracle::rng::{mix, Rng};
use std::collections::BTreeMap;

/// The same samples in an order drawn, and the sites in an order drawn, but those of each sample in their order.
fn reordered(cohort: &Cohort, rng: &mut Rng) -> Cohort {
    let samples = cohort.samples.len();
    let mut order: Vec<usize> = (0..samples).collect();
    rng.shuffle(&mut order);
    let mut turns: Vec<usize> = cohort.sites.iter().map(|s| s.sample).collect();
    rng.shuffle(&mut turns);
    let mut next: Vec<_> = (0..samples).map(|n| cohort.sites.iter().filter(move |s| s.sample == n)).collect();
    let number = |sample: usize| order.iter().position(|&o| o == sample).unwrap_or(samples);
    let sites = turns.iter().filter_map(|&sample| {
        let mut site = next[sample].next()?.clone();
        site.sample = number(sample);
        Some(site)
    });
    Cohort { samples: order.iter().map(|&o| cohort.samples[o].clone()).collect(), sites: sites.collect() }
}

/// A sample's lines in a record: gt, gq, dp, mindp, ad, pl.
type Lines<'a> = [&'a str; 6];

#[derive(PartialEq)]
struct Record<'a> {
    /// contig, pos, end, ref
    place: [&'a str; 4],
    alts: Vec<&'a str>,
    samples: BTreeMap<&'a str, Lines<'a>>,
}

/// The values of the next lines, which must have these keys.
fn values<'a, const N: usize>(lines: &mut std::str::Lines<'a>, keys: [&str; N]) -> Result<[&'a str; N], String> {
    let mut found = [""; N];
    for (value, key) in found.iter_mut().zip(keys) {
        let line = lines.next().ok_or("the list ends early")?;
        *value = line.strip_prefix(key).and_then(|l| l.strip_prefix('=')).ok_or(format!("`{line}` where {key} should stand"))?;
    }
    Ok(found)
}

/// The records of a list; its names must be these.
fn read<'a>(text: &'a str, names: &[String]) -> Result<Vec<Record<'a>>, String> {
    let mut lines = text.lines();
    let number = |s: &str| s.parse::<usize>().map_err(|e| e.to_string());
    let [samples] = values(&mut lines, ["samples"])?;
    let mut own = Vec::new();
    for _ in 0..number(samples)? {
        own.extend(values(&mut lines, ["sample"])?);
    }
    if own != names {
        return Err("other names".to_string());
    }
    let [count] = values(&mut lines, ["records"])?;
    let mut records = Vec::new();
    for _ in 0..number(count)? {
        let place = values(&mut lines, ["contig", "pos", "end", "ref"])?;
        let [alts] = values(&mut lines, ["alt"])?;
        let mut samples = BTreeMap::new();
        for name in &own {
            samples.insert(*name, values(&mut lines, ["gt", "gq", "dp", "mindp", "ad", "pl"])?);
        }
        records.push(Record { place, alts: alts.split(',').collect(), samples });
    }
    match lines.next() {
        None => Ok(records),
        Some(line) => Err(format!("`{line}` behind the records")),
    }
}

/// A value for each allele by its spelling, or at each pair of alleles by the two spellings, the lesser first; none if it is missing.
fn by_allele<'a>(alleles: &[&'a str], line: &'a str) -> Option<BTreeMap<&'a str, &'a str>> {
    (line != ".").then(|| alleles.iter().copied().zip(line.split(',')).collect())
}

fn pair<'a>(a: &'a str, b: &'a str) -> (&'a str, &'a str) {
    (a.min(b), a.max(b))
}

fn by_pair<'a>(alleles: &[&'a str], line: &'a str) -> Option<BTreeMap<(&'a str, &'a str), &'a str>> {
    let pairs = (0..alleles.len()).flat_map(|k| (0..=k).map(move |j| pair(alleles[j], alleles[k])));
    (line != ".").then(|| pairs.zip(line.split(',')).collect())
}

/// A GT as the spellings of its two alleles.
fn spelled<'a>(alleles: &[&'a str], gt: &str) -> Option<(&'a str, &'a str)> {
    let (j, k) = gt.split_once('/')?;
    Some(pair(alleles[j.parse::<usize>().ok()?], alleles[k.parse::<usize>().ok()?]))
}

impl<'a> Record<'a> {
    fn alleles(&self) -> Vec<&'a str> {
        [&self.place[3..], &self.alts[..]].concat()
    }

    /// The PLs and GT of a sample.
    fn genotype(&self, name: &str) -> (Option<BTreeMap<(&'a str, &'a str), &'a str>>, Option<(&'a str, &'a str)>) {
        let lines = self.samples[name];
        (by_pair(&self.alleles(), lines[5]), spelled(&self.alleles(), lines[0]))
    }
}

/// What a pair of lists shows beside that it agrees.
#[derive(Default)]
struct Seen {
    records: usize,
    other_alts: usize,
    other_gts: usize,
    min_dps: usize,
}

/// What two records say differently of a sample, if anything.
fn other_call(one: &Record, two: &Record, name: &str) -> Option<&'static str> {
    let (v, w) = (one.samples[name], two.samples[name]);
    if v[1..4] != w[1..4] {
        return Some("GQ, DP or MIN_DP");
    }
    if by_allele(&one.alleles(), v[4]) != by_allele(&two.alleles(), w[4]) {
        return Some("AD");
    }
    let ((pl1, gt1), (pl2, gt2)) = (one.genotype(name), two.genotype(name));
    if pl1 != pl2 {
        return Some("PL");
    }
    // GT is missing in both, or both have the least PL, so that they are equal or a pair among equal PLs
    let least = |pl: &BTreeMap<(&str, &str), &str>| pl.values().filter_map(|p| p.parse::<u32>().ok()).min().map(|p| p.to_string());
    match (&pl1, gt1, gt2) {
        (None, None, None) => None,
        (Some(pl), Some(g), Some(h)) if pl[&g] == pl[&h] && least(pl).as_deref() == Some(pl[&g]) => None,
        _ => Some("GT"),
    }
}

/// Where two lists do not say the same, if anywhere.
fn apart(first: &[Record], second: &[Record], seen: &mut Seen) -> Option<String> {
    if first.len() != second.len() {
        return Some(format!("{} and {} records", first.len(), second.len()));
    }
    for (one, two) in first.iter().zip(second) {
        let at = |what: &str| Some(format!("another {what} at {}:{}", one.place[0], one.place[1]));
        if one.place != two.place {
            return at("stretch or REF");
        }
        let (mut alts, mut others) = (one.alts.clone(), two.alts.clone());
        alts.sort();
        others.sort();
        if alts != others {
            return at("set of alleles");
        }
        for name in one.samples.keys() {
            if let Some(what) = other_call(one, two, name) {
                return at(&format!("{what} of {name}"));
            }
            seen.other_gts += usize::from(one.genotype(name).1 != two.genotype(name).1);
            seen.min_dps += usize::from(one.samples[name][3] != ".");
        }
        seen.records += 1;
        seen.other_alts += usize::from(one.alts != two.alts);
    }
    None
}

/// The list that the library writes with some number of places.
fn written(library: &mut Library, lent: &Lent, rng: &mut Rng) -> Result<String, String> {
    let several = places_for(breakpoints(lent), rng);
    let bytes = library.combine_roomy(&Texts::of(lent).call(*rng.pick(&several), 0)).map_err(|row| format!("refused with {row}"))?;
    String::from_utf8(bytes).map_err(|e| e.to_string())
}

pub fn check(seed: u64, count: u64) -> Result<String, String> {
    let mut library = Library::new();
    let (mut pairs, mut overlaps, mut small, mut without, mut disagree) = (0, 0, 0, 0, 0);
    let (mut seen, mut unseen) = (Seen::default(), Seen::default());
    for i in 0.. {
        let mut rng = Rng::new(mix(seed ^ mix(i)));
        let first = lent_of(i, rng.any());
        let second = Lent { cohort: reordered(&first.cohort, &mut rng), ..first.clone() };
        let told = |what: String| format!("seed {seed}, pair {i}: {what}");
        let one = written(&mut library, &first, &mut rng).map_err(told)?;
        let two = written(&mut library, &second, &mut rng).map_err(told)?;
        let (one, two) = (read(&one, &first.cohort.samples).map_err(told)?, read(&two, &second.cohort.samples).map_err(told)?);
        if first.reference.is_none() {
            without += 1;
            disagree += u64::from(apart(&one, &two, &mut unseen).is_some());
            continue;
        }
        if let Some(what) = apart(&one, &two, &mut seen) {
            return Err(told(what));
        }
        pairs += 1;
        overlaps += u64::from(first.cohort.overlaps_itself());
        small += u64::from(first.has_small_letters());
        if pairs == count {
            break;
        }
    }
    let Seen { records, other_alts, other_gts, min_dps } = seen;
    Ok(format!(
        "{pairs} pairs of orders with a reference, {overlaps} with overlapping sites of a sample, {small} with small letters, {records} records, {other_alts} \
         with ALTs in another order, {other_gts} GTs of another pair with the same PL, {min_dps} MIN_DPs: all agree; without a reference {without} pairs, of which \
         {disagree} do not\n"
    ))
}
