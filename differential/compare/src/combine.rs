//! The Rust's `combine_loaded_gvcfs` against the library's `combine`, on generated cohorts of every sort.

use crate::ours::{Call, Library};
use oracle::cohort::Lent;
use oracle::list::List;
use oracle::rng::{mix, Rng};
use oracle::text::Rules;
use oracle::{domain, generate, record};
use std::path::Path;

pub struct Texts {
    pub cohort: String,
    pub clip: Option<String>,
    pub reference: Option<String>,
}

impl Texts {
    pub fn of(lent: &Lent) -> Texts {
        let file = |name: &str| lent.files().into_iter().find(|f| f.0 == name).map(|f| f.1);
        Texts { cohort: file("cohort.kv").unwrap_or_default(), clip: file("clip.kv"), reference: file("reference.kv") }
    }

    pub fn call(&self, places: usize, room: usize) -> Call<'_> {
        Call {
            cohort: self.cohort.as_bytes(),
            clip: self.clip.as_ref().map(String::as_bytes),
            reference: self.reference.as_ref().map(String::as_bytes),
            places,
            room,
        }
    }
}

/// The most breakpoints that a contig has.
pub fn breakpoints(lent: &Lent) -> usize {
    domain::contigs(lent).iter().map(|c| domain::breakpoints(lent, c).len()).max().unwrap_or(0)
}

/// The sort of the i-th cohort: all sorts by turns, the large ones seldom.
pub fn sort_of(i: u64) -> &'static generate::Profile {
    let large = ["broad", "wide", "deep", "largest"];
    let all = &generate::PROFILES;
    let profile = &all[(i % all.len() as u64) as usize];
    let every = match profile.name {
        "windows" => 4,
        name if large.contains(&name) => 40,
        _ => 1,
    };
    if (i / all.len() as u64) % every != 0 {
        return &all[(i / 7 % 5) as usize];
    }
    profile
}

/// The i-th call: of the sort whose turn it is, and in every second round with reference groups that overlap and disagree. A third has small
/// letters, in those groups too.
pub fn lent_of(i: u64, seed: u64) -> Lent {
    let lent = generate::lent(sort_of(i), seed);
    if i / generate::PROFILES.len() as u64 % 2 == 0 {
        return lent;
    }
    generate::lowered(generate::patched(&lent, seed), seed)
}

/// Numbers of scratch places for a contig with so many breakpoints: one, two, some between, as many as those, one less and one more, many.
pub fn places_for(most: usize, rng: &mut Rng) -> [usize; 8] {
    let between = |rng: &mut Rng| 1 + rng.below(most as u64 + 1) as usize;
    [1, 2, between(rng), between(rng), most.max(2) - 1, most.max(1), most + 1, most + 1000]
}

/// The library's lists of a call against the Rust's: the same with any places; 14 with an output that is too short; with no place 10 if
/// there is a site, and else the list. Gives back the Rust's list and its bytes.
pub fn hold(library: &mut Library, lent: &Lent, seed: u64) -> Result<(List, usize), String> {
    let mut rng = Rng::new(seed);
    let texts = Texts::of(lent);
    let (list, expected) = record::combined(lent)?;
    let (n, most, expected) = (expected.len(), breakpoints(lent), Ok(expected.into_bytes()));
    let several = places_for(most, &mut rng);
    for places in several {
        let room = n + *rng.pick(&[0, 0, 1, 7]);
        if library.combine(&texts.call(places, room)) != expected {
            return Err(format!("another list with {places} places for {most}"));
        }
    }
    for room in [0, n - 1] {
        if library.combine(&texts.call(*rng.pick(&several), room)) != Err(14) {
            return Err(format!("not 14 with {room} bytes for {n}"));
        }
    }
    for room in [0, n] {
        let none = match lent.cohort.sites.is_empty() {
            false => Err(10),
            true if room < n => Err(14),
            true => expected.clone(),
        };
        if library.combine(&texts.call(0, room)) != none {
            return Err(format!("another answer without places, with {room} bytes for {n}"));
        }
    }
    Ok((list, n))
}

/// The scope and the Rust part: sites of a sample overlap, a letter is needed and no reference is lent, or letters are small.
fn by_model(lent: &Lent) -> bool {
    lent.cohort.overlaps_itself() || domain::lacks_letters(lent) || lent.has_small_letters()
}

/// Writes so many cohorts on which the Rust is met only as it is fed, MIN_DPs among that, into a folder, each with the list that the library gives, for model.py.
/// No list comes from the Rust.
pub fn lists(seed: u64, count: u64, folder: &Path) -> Result<String, String> {
    let mut library = Library::new();
    let (mut written, mut small, mut min_dps, mut i) = (0, 0, 0, 0);
    while written < count {
        let lent = lent_of(i, mix(seed ^ mix(i)));
        i += 1;
        if lent.cohort.sites.len() > 200 || !(by_model(&lent) || lent.cohort.has_min_dp()) {
            continue;
        }
        let mut rng = Rng::new(mix(seed.wrapping_add(i)));
        let places = *rng.pick(&places_for(breakpoints(&lent), &mut Rng::new(i)));
        let list = library.combine_roomy(&Texts::of(&lent).call(places, 0)).map_err(|row| format!("cohort {i}: {row}"))?;
        let list = String::from_utf8(list).map_err(|e| e.to_string())?;
        for (name, text) in lent.files().into_iter().chain([("combined.kv", list)]) {
            record::write_file(&folder.join(format!("combine/{written:06}/{name}")), &text)?;
        }
        written += 1;
        small += u64::from(lent.has_small_letters());
        min_dps += u64::from(lent.cohort.has_min_dp());
    }
    Ok(format!("{count} cohorts, {small} with small letters, {min_dps} with MIN_DP, with their lists in {}\n", folder.display()))
}

/// Each recorded case with 0, 1, 2, B - 1, B and B + 1 places, B the breakpoints of its busiest contig: the recorded list; without
/// places 10 if there is a site.
pub fn recorded(folder: &Path) -> Result<String, String> {
    let mut library = Library::new();
    let cases = record::sorted_folders(&folder.join("combine"))?;
    for case in &cases {
        let lent = Lent::read(case, Rules::On)?;
        let (texts, most) = (Texts::of(&lent), breakpoints(&lent));
        let list = record::read_file(&case.join("combined.kv"))?.into_bytes();
        for places in [0, 1, 2, most.max(1) - 1, most, most + 1] {
            let expected = match places {
                0 if !lent.cohort.sites.is_empty() => Err(10),
                _ => Ok(list.clone()),
            };
            if library.combine(&texts.call(places, list.len())) != expected {
                return Err(format!("{}: another answer with {places} places for {most}", case.display()));
            }
        }
    }
    Ok(format!("{} recorded cases, each with six numbers of places: no difference\n", cases.len()))
}

pub fn compare(seed: u64, count: u64) -> Result<String, String> {
    let mut library = Library::new();
    let (mut records, mut bytes, mut windows, mut overlaps, mut referenced, mut letters, mut small) = (0, 0, 0, 0, 0, 0, 0);
    let (mut min_dps, mut parted) = (0, 0);
    for i in 0..count {
        let lent = lent_of(i, mix(seed ^ mix(i)));
        windows += u64::from(breakpoints(&lent) > 1024);
        overlaps += u64::from(lent.cohort.overlaps_itself());
        referenced += u64::from(lent.reference.is_some());
        letters += u64::from(domain::lacks_letters(&lent));
        small += u64::from(lent.has_small_letters());
        min_dps += u64::from(lent.cohort.has_min_dp());
        let (list, n) = hold(&mut library, &lent, mix(seed.wrapping_add(i)))
            .map_err(|what| format!("seed {seed}, cohort {i}, sort {}: {what}", sort_of(i).name))?;
        records += list.records.len();
        parted += list.parted_by_min_dp();
        bytes += n;
    }
    Ok(format!(
        "{count} cohorts, {windows} with over 1,024 breakpoints on a contig, {overlaps} with overlapping sites of a sample, \
         {referenced} with a reference, {letters} without one where a letter is needed, {small} with small letters, \
         {min_dps} with MIN_DP, {records} records, {parted} of them parted from the block before by MIN_DP alone, {bytes} bytes of lists: no difference\n"
    ))
}
