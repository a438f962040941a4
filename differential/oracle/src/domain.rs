//! What the scope refuses and the Rust does not: a plain walk over intervals, written from the
//! scope's rules, that says whether a call is one on which both are compared.

use crate::cohort::{Lent, Site, Stretch};
use crate::text::*;
use std::collections::BTreeSet;

/// A kept interval, as its call spells alleles, with the site taken from each sample that has one, lowest sample first.
pub struct Interval<'a> {
    pub contig: &'a str,
    pub start: u64,
    pub end: u64,
    pub taken: Vec<&'a Site>,
}

impl Interval<'_> {
    /// No taken site starts here, so REF is a single letter: the reference's, or that of a sample.
    pub fn needs_letter(&self) -> bool {
        self.taken.iter().all(|s| s.start != self.start)
    }

    /// The letter where no reference is lent (Note 2): that at the interval's start of the first taken site whose REF reaches it, else `N`.
    fn reached_letter(&self) -> char {
        let letter = |s: &&Site| s.ref_allele.chars().nth((self.start - s.start) as usize);
        self.taken.iter().find_map(letter).unwrap_or('N')
    }
}

/// A reference for a call in capitals that is lent none, with the letters of Note 2 where one is needed and nothing else; neighbours stand in one group.
pub fn reached_letters(lent: &Lent) -> Vec<Stretch> {
    let mut found: Vec<Stretch> = Vec::new();
    for contig in contigs(lent) {
        for interval in intervals(lent, contig).iter().filter(|i| i.needs_letter()) {
            let (first, letter) = (interval.start, interval.reached_letter());
            match found.last_mut() {
                Some(s) if s.contig == contig && s.first + s.bases.len() as u64 == first => s.bases.push(letter),
                _ => found.push(Stretch { contig: contig.to_string(), first, bases: letter.to_string() }),
            }
        }
    }
    found
}

/// The call as the Rust is fed it: alleles and bases in capitals. Where a sample's sites overlap, those that start later come first; where no
/// reference is lent and a letter is needed, the reference has the letters of Note 2.
pub fn fed(lent: &Lent) -> Lent {
    let read = lent.capitals();
    let mut call = Lent { cohort: read.cohort.for_the_rust(), ..read.clone() };
    if read.reference.is_none() {
        call.reference = Some(reached_letters(&read)).filter(|letters| !letters.is_empty());
    }
    call
}

/// No reference is lent, and a letter is needed.
pub fn lacks_letters(lent: &Lent) -> bool {
    lent.reference.is_none() && contigs(lent).into_iter().any(|c| intervals(lent, c).iter().any(Interval::needs_letter))
}

pub fn contigs(lent: &Lent) -> BTreeSet<&str> {
    lent.cohort
        .sites
        .iter()
        .map(|s| s.contig.as_str())
        .collect()
}

pub fn breakpoints(lent: &Lent, contig: &str) -> BTreeSet<u64> {
    let mut places = BTreeSet::new();
    for s in lent.cohort.sites.iter().filter(|s| s.contig == contig) {
        places.insert(s.start);
        places.insert(s.end + 1);
        if !s.is_block() {
            places.extend(s.start + 1..=s.end);
        }
    }
    for s in lent.clip.iter().flatten().filter(|s| s.contig == contig) {
        places.insert(s.start);
        places.insert(s.end + 1);
    }
    places
}

/// The kept intervals of a contig that some sample has a site over.
pub fn intervals<'a>(lent: &'a Lent, contig: &'a str) -> Vec<Interval<'a>> {
    let sites: Vec<&Site> = lent
        .cohort
        .sites
        .iter()
        .filter(|s| s.contig == contig)
        .collect();
    let places: Vec<u64> = breakpoints(lent, contig).into_iter().collect();
    let mut found = Vec::new();
    for pair in places.windows(2) {
        let (start, end) = (pair[0], pair[1] - 1);
        if !kept(lent, contig, start, end) {
            continue;
        }
        // of equal starts `max_by_key` takes the last, which is the first in the file
        let taken: Vec<&Site> = (0..lent.cohort.samples.len())
            .filter_map(|sample| {
                sites
                    .iter()
                    .rev()
                    .copied()
                    .filter(|s| s.sample == sample && s.covers(start))
                    .max_by_key(|s| s.start)
            })
            .collect();
        if !taken.is_empty() {
            found.push(Interval {
                contig,
                start,
                end,
                taken,
            });
        }
    }
    found
}

fn kept(lent: &Lent, contig: &str, start: u64, end: u64) -> bool {
    match &lent.clip {
        None => true,
        Some(spans) => spans
            .iter()
            .any(|s| s.contig == contig && s.start <= start && end <= s.end),
    }
}

/// Refusals 11 to 13, of the call as it is read.
pub fn check(lent: &Lent) -> Result<(), Refusal> {
    let lent = &lent.capitals();
    for contig in contigs(lent) {
        for interval in intervals(lent, contig) {
            check_letter(lent, &interval)?;
            check_refs(&interval)?;
            let alleles = merged_alleles(&interval);
            if alleles > MAX_MERGED_ALLELES {
                let at = interval.start;
                return refuse(13, format!("{alleles} merged alleles at {contig}:{at}"));
            }
        }
    }
    Ok(())
}

fn check_letter(lent: &Lent, interval: &Interval) -> Result<(), Refusal> {
    let Some(stretches) = &lent.reference else {
        return Ok(());
    };
    if !interval.needs_letter() {
        return Ok(());
    }
    let holds = |s: &Stretch| {
        s.contig == interval.contig
            && s.first <= interval.start
            && interval.start < s.first + s.bases.len() as u64
    };
    if stretches.iter().any(holds) {
        return Ok(());
    }
    let place = format!("{}:{}", interval.contig, interval.start);
    refuse(11, format!("no reference letter at {place}"))
}

fn check_refs(interval: &Interval) -> Result<(), Refusal> {
    let longest = longest_ref(interval);
    for s in interval.taken.iter().filter(|s| s.start == interval.start) {
        if !longest.starts_with(&s.ref_allele) {
            return refuse(
                12,
                format!(
                    "REF {} is no prefix of {longest} at {}:{}",
                    s.ref_allele, interval.contig, interval.start
                ),
            );
        }
    }
    Ok(())
}

fn longest_ref<'a>(interval: &Interval<'a>) -> &'a str {
    interval
        .taken
        .iter()
        .filter(|s| s.start == interval.start)
        .map(|s| s.ref_allele.as_str())
        .max_by_key(|r| r.len())
        .unwrap_or("")
}

fn merged_alleles(interval: &Interval) -> usize {
    let longest = longest_ref(interval);
    let mut letter_alts = BTreeSet::new();
    let mut span_del = false;
    for s in &interval.taken {
        if s.start != interval.start {
            span_del |= !s.is_block();
            continue;
        }
        for alt in &s.alts {
            if alt == SPAN_DEL {
                span_del = true;
            } else if alt != NON_REF {
                letter_alts.insert(format!("{alt}{}", &longest[s.ref_allele.len()..]));
            }
        }
    }
    2 + letter_alts.len() + usize::from(span_del)
}
