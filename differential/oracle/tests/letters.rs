//! The reference that the Rust is fed where none is lent: at the first position of each kept interval where no taken site starts the letter of
//! the lowest-numbered sample whose taken site's REF reaches it, as a capital, or `N`; and at no other position a letter. The Rust gives that
//! letter as REF.

use oracle::cohort::{Cohort, Lent, Site, Stretch};
use oracle::rng::Rng;
use oracle::{combine, domain, generate};

fn letter_in(reference: &[Stretch], contig: &str, position: u64) -> Option<char> {
    let mut letters = reference
        .iter()
        .filter(|g| g.contig == contig && g.first <= position)
        .filter_map(|g| g.bases.chars().nth((position - g.first) as usize));
    let letter = letters.next();
    assert_eq!(letters.next(), None, "two letters at {contig}:{position}");
    letter
}

/// The site of a sample that counts at a position, by a look at every site in the file's order.
fn counts<'a>(cohort: &'a Cohort, sample: usize, contig: &str, position: u64) -> Option<&'a Site> {
    let mut found: Option<&Site> = None;
    for s in &cohort.sites {
        let over = s.sample == sample && s.contig == contig && s.start <= position && position <= s.end;
        if over && found.is_none_or(|before| before.start < s.start) {
            found = Some(s);
        }
    }
    found
}

/// REF's letter at a position by the rule, or none where a site that counts starts or no sample has one.
fn expected(cohort: &Cohort, contig: &str, position: u64) -> Option<char> {
    let (mut any, mut letter) = (false, None);
    for sample in (0..cohort.samples.len()).rev() {
        let Some(site) = counts(cohort, sample, contig, position) else { continue };
        any = true;
        if site.start == position {
            return None;
        }
        let last = site.start + site.ref_allele.len() as u64 - 1;
        if position <= last {
            letter = site.ref_allele.chars().rev().nth((last - position) as usize);
        }
    }
    any.then_some(letter.unwrap_or('N').to_ascii_uppercase())
}

fn calls() -> Vec<Lent> {
    let mut rng = Rng::new(2);
    let sorts = ["tiny", "plain", "contigs", "joining", "deletions", "together", "clipped", "overlapping", "nested", "extreme"];
    let mut found = Vec::new();
    for _ in 0..300 {
        for sort in sorts {
            let profile = generate::profile(sort).expect("a sort");
            found.push(Lent { reference: None, ..generate::lent(profile, rng.any()) });
        }
    }
    found
}

#[test]
fn the_letter_is_that_of_the_first_ref_which_reaches() {
    let (mut letters, mut unknown, mut later) = (0, 0, 0);
    for lent in calls() {
        let fed = domain::fed(&lent);
        let reference = fed.reference.unwrap_or_default();
        let mut count = 0;
        for contig in domain::contigs(&lent) {
            for interval in domain::intervals(&lent, contig) {
                let (at, letter) = (interval.start, expected(&lent.cohort, contig, interval.start));
                assert_eq!(letter_in(&reference, contig, at), letter, "{lent:?} at {contig}:{at}");
                count += usize::from(letter.is_some());
                unknown += usize::from(letter == Some('N'));
                later += usize::from(letter.is_some_and(|l| !interval.taken[0].ref_allele.starts_with([l, l.to_ascii_lowercase()])));
            }
        }
        assert_eq!(reference.iter().map(|g| g.bases.len()).sum::<usize>(), count, "{lent:?}");
        letters += count;
    }
    assert!(letters > 3000 && unknown > 300 && unknown < letters && later > 300, "{letters} {unknown} {later}");
}

#[test]
fn the_rust_gives_the_letter_that_it_is_fed() {
    for lent in calls() {
        let records = combine::combine(&domain::fed(&lent)).expect("a list").records;
        for r in records {
            if let Some(letter) = expected(&lent.cohort, &r.contig, r.pos) {
                assert_eq!(r.ref_allele, letter.to_string(), "{lent:?} at {}:{}", r.contig, r.pos);
            }
        }
    }
}

#[test]
fn a_lent_reference_is_fed_in_capitals() {
    let profile = generate::profile("referenced").expect("a sort");
    for seed in 0..100 {
        let lent = generate::lent(profile, seed);
        let mut groups = lent.reference.clone().expect("a reference");
        groups.iter_mut().for_each(|g| g.bases.make_ascii_uppercase());
        assert_eq!(domain::fed(&lent).reference, Some(groups));
    }
}
