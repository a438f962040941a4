//! The recorded answers: made from a seed, and held against the Rust again.

use crate::alleles::{answer_group, answer_text, KINDS};
use crate::by_hand::{HandCohort, COHORTS, COMBINED_LISTS, GROUPS, LETTERS, MIN_DPS, MIN_DP_LISTS, NESTED, SPELLED_LISTS, SPELLINGS};
use crate::call::{call, call_by_the_whole, sums_fit, without_depths};
use crate::cohort::{read_cohort, Lent};
use crate::combine::combine;
use crate::generate;
use crate::list::{read_combined, write_called, write_combined, List, ListRecord};
use crate::rng::mix;
use crate::text::{comma, line, or_dot, Rules};
use crate::{cohort, domain};
use std::fs;
use std::path::{Path, PathBuf};

/// How many calls of each sort are recorded. "largest" and "windows" are too large for the recorded files.
const COHORT_COUNTS: [(&str, usize); 18] = [
    ("tiny", 30),
    ("plain", 50),
    ("contigs", 25),
    ("joining", 35),
    ("deletions", 30),
    ("together", 30),
    ("crowded", 25),
    ("missing", 20),
    ("extreme", 25),
    ("clipped", 30),
    ("referenced", 30),
    ("overlapping", 30),
    ("long", 10),
    ("broad", 8),
    ("wide", 5),
    ("deep", 5),
    ("patched", 4),
    ("nested", 12),
];
const GENERATED_LISTS: usize = 130;
const GROUPS_OF_EACH: usize = 150;

/// The program that will replay these lends this many bytes to each text and to the list, and
/// this many breakpoint places.
const LARGEST_FILE: usize = 65_535;
const MOST_BREAKPOINTS: usize = 8192;

/// The recorded files stay readable: most lists are below this size.
const READABLE: usize = 25_000;

type Files = Vec<(String, String)>;

/// The list of a call that the scope accepts, checked for what a list must be, by the Rust fed as `domain::fed` says.
pub fn combined(lent: &Lent) -> Result<(List, String), String> {
    domain::check(lent).map_err(|r| r.to_string())?;
    let list = combine(&domain::fed(lent))?;
    let text = write_combined(&list);
    let back =
        read_combined(&text, Rules::On).map_err(|r| format!("the Rust's list read back: {r}"))?;
    if back != list {
        return Err("the Rust's list read back is another".to_string());
    }
    Ok((list, text))
}

/// The called list, the same from the single functions and from the Rust's whole, fed the alleles in capitals.
pub fn called(list: &List) -> Result<String, String> {
    let list = &list.capitals();
    let called = call(list);
    let same = if sums_fit(list) {
        call_by_the_whole(list)? == called
    } else {
        call_by_the_whole(&without_depths(list))? == without_depths(&called)
    };
    if !same {
        return Err("the Rust's whole gives another called list".to_string());
    }
    Ok(write_called(&called))
}

pub fn record(folder: &Path, seed: u64) -> Result<(), String> {
    if folder.exists() {
        return Err(format!("{} is there already", folder.display()));
    }
    let lists = record_combine(folder, seed)?;
    record_call(folder, seed, &lists)?;
    record_groups(folder, seed)
}

fn record_combine(folder: &Path, seed: u64) -> Result<Vec<(usize, String)>, String> {
    let mut index = String::new();
    let mut lists = Vec::new();
    let mut number = 0;
    let mut keep = |lent: &Lent, text: String, from: String| -> Result<(), String> {
        let mut files: Files = Vec::new();
        for (name, text) in lent.files() {
            files.push((name.to_string(), text));
        }
        files.push(("combined.kv".to_string(), text.clone()));
        write_folder(&folder.join(format!("combine/{number:03}")), &files)?;
        index.push_str(&format!("{number:03} {from}{}\n", by_model(lent)));
        // combined lists for `call` come from the other sorts
        let others = ["nested", "letters", "spelling", "MIN_DP"];
        if !others.iter().any(|sort| from.starts_with(sort)) && !NESTED.iter().any(|hand| from.ends_with(hand.shows)) {
            lists.push((number, text));
        }
        number += 1;
        Ok(())
    };
    for hand in COHORTS {
        let (lent, text) = hand_list(hand)?;
        keep(&lent, text, format!("by hand: {}", hand.shows))?;
    }
    for (name, count) in COHORT_COUNTS {
        let profile = generate::profile(name).ok_or("no such profile")?;
        let mut made = 0;
        let mut case = 0;
        while made < count {
            let case_seed = case_seed(seed, name, case);
            case += 1;
            let lent = generate::lent(profile, case_seed);
            let (list, text) = combined(&lent).map_err(|e| format!("{name} {case_seed}: {e}"))?;
            // A call that gives nothing is worth recording now and then only, and a crowded one
            // where the merged alleles come near their limit.
            let empty = list.records.is_empty() && case % 4 != 0;
            let dull = name == "crowded" && most_alleles(&list) < 14;
            if !empty && !dull && fits(&lent, &text, name == "wide" || name == "deep") {
                keep(&lent, text, format!("{name} {case_seed}"))?;
                made += 1;
            }
        }
    }
    for hand in NESTED {
        let (lent, text) = hand_list(hand)?;
        keep(&lent, text, format!("by hand: {}", hand.shows))?;
    }
    for hand in LETTERS {
        let (lent, text) = hand_list(hand)?;
        keep(&lent, text, format!("letters by hand: {}", hand.shows))?;
    }
    for hand in SPELLINGS {
        let (lent, text) = hand_list(hand)?;
        keep(&lent, text, format!("spelling by hand: {}", hand.shows))?;
    }
    for hand in MIN_DPS {
        let (lent, text) = hand_list(hand)?;
        keep(&lent, text, format!("MIN_DP by hand: {}", hand.shows))?;
    }
    write_file(&folder.join("combine/INDEX.txt"), &index)?;
    Ok(lists)
}

/// Why a list is the model's, and the Rust's only as it is fed, if it is.
fn by_model(lent: &Lent) -> String {
    let mut why = Vec::new();
    if lent.cohort.overlaps_itself() {
        why.push("sites of a sample overlap");
    }
    if domain::lacks_letters(lent) {
        why.push("letters without a reference");
    }
    if lent.has_small_letters() {
        why.push("small letters");
    }
    match why.is_empty() {
        true => String::new(),
        false => format!(" ({}: model.py)", why.join(", ")),
    }
}

fn most_alleles(list: &List) -> usize {
    list.records
        .iter()
        .map(|r| 1 + r.alts.len())
        .max()
        .unwrap_or(0)
}

fn fits(lent: &Lent, list: &str, large: bool) -> bool {
    let most = if large { LARGEST_FILE } else { READABLE };
    let files_fit = lent.files().iter().all(|(_, text)| text.len() <= most);
    let contigs = domain::contigs(lent);
    let mut counts = contigs.iter().map(|c| domain::breakpoints(lent, c).len());
    files_fit && list.len() <= most && counts.all(|n| n <= MOST_BREAKPOINTS)
}

fn case_seed(seed: u64, sort: &str, case: u64) -> u64 {
    let named = sort.bytes().fold(mix(seed), |h, b| mix(h ^ u64::from(b)));
    mix(named.wrapping_add(case)) >> 24
}

/// A call by hand and its list, whose records begin and have the MIN_DPs as the answer by hand says.
fn hand_list(hand: &HandCohort) -> Result<(Lent, String), String> {
    let lent = hand_cohort(hand)?;
    let (list, text) = combined(&lent).map_err(|e| format!("{}: {e}", hand.shows))?;
    let head = |r: &ListRecord| format!("{} {} {} {}", r.pos, or_dot(r.end), r.ref_allele, comma(&r.alts));
    let heads: Vec<String> = list.records.iter().map(head).collect();
    if !hand.heads.is_empty() && heads != hand.heads {
        return Err(format!("{}: {heads:?} is not what was expected", hand.shows));
    }
    let min_dps: Vec<String> = list.records.iter().flat_map(|r| &r.samples).map(|s| or_dot(s.min_dp)).collect();
    if !hand.min_dps.is_empty() && min_dps != hand.min_dps {
        return Err(format!("{}: MIN_DP {min_dps:?} is not what was expected", hand.shows));
    }
    Ok((lent, text))
}

fn hand_cohort(hand: &HandCohort) -> Result<Lent, String> {
    let names: Vec<String> = (0..hand.samples).map(|i| format!("S{i}")).collect();
    let mut text = cohort::write_header(&names);
    lines_of(
        &mut text,
        hand.sites,
        &[
            "site", "contig", "start", "end", "ref", "alt", "gq", "dp", "mindp", "ad", "pl",
        ],
    );
    let mut lent = Lent {
        cohort: read_cohort(&text, Rules::On).map_err(|r| format!("{}: {r}", hand.shows))?,
        clip: None,
        reference: None,
    };
    if let Some(rows) = hand.clip {
        let mut text = String::new();
        lines_of(&mut text, rows, &["contig", "start", "end"]);
        lent.clip = Some(cohort::read_clip(&text, Rules::On).map_err(|r| r.to_string())?);
    }
    if let Some(rows) = hand.reference {
        let mut text = String::new();
        lines_of(&mut text, rows, &["contig", "first", "bases"]);
        lent.reference = Some(cohort::read_reference(&text).map_err(|r| r.to_string())?);
    }
    Ok(lent)
}

fn lines_of(text: &mut String, rows: &[&str], keys: &[&str]) {
    for row in rows {
        for (key, value) in keys.iter().zip(row.split(' ')) {
            line(text, key, value);
        }
    }
}

fn record_call(folder: &Path, seed: u64, lists: &[(usize, String)]) -> Result<(), String> {
    let mut index = String::new();
    let mut number = 0;
    let mut keep = |text: &str, from: String| -> Result<(), String> {
        let list = read_combined(text, Rules::On).map_err(|r| format!("{from}: {r}"))?;
        let called = called(&list).map_err(|e| format!("{from}: {e}"))?;
        let files = vec![
            ("combined.kv".to_string(), text.to_string()),
            ("called.kv".to_string(), called),
        ];
        write_folder(&folder.join(format!("call/{number:03}")), &files)?;
        index.push_str(&format!("{number:03} {from}\n"));
        number += 1;
        Ok(())
    };
    for (shows, text) in COMBINED_LISTS {
        keep(text, format!("by hand: {shows}"))?;
    }
    for (n, text) in lists
        .iter()
        .filter(|(n, t)| n % 6 == 0 && t.len() < READABLE)
    {
        keep(text, format!("the list of combine/{n:03}"))?;
    }
    let mut made = 0;
    let mut case = 0;
    while made < GENERATED_LISTS {
        let case_seed = case_seed(seed, "combined", case);
        case += 1;
        let text = write_combined(&generate::combined_list(case_seed));
        if text.len() < READABLE {
            keep(&text, format!("combined {case_seed}"))?;
            made += 1;
        }
    }
    for (shows, text) in SPELLED_LISTS.iter().chain(MIN_DP_LISTS) {
        keep(text, format!("by hand: {shows}"))?;
    }
    write_file(&folder.join("call/INDEX.txt"), &index)
}

fn record_groups(folder: &Path, seed: u64) -> Result<(), String> {
    for kind in &KINDS {
        let mut text = String::new();
        for (_, inputs) in GROUPS.iter().filter(|(name, _)| *name == kind.name) {
            let inputs: Vec<String> = inputs.iter().map(|s| s.to_string()).collect();
            text.push_str(&answer_group(kind, &inputs, Rules::On)?);
        }
        let mut seen: Vec<Vec<String>> = Vec::new();
        let mut case = 0;
        while seen.len() < GROUPS_OF_EACH {
            let inputs = generate::group(kind.name, case_seed(seed, kind.name, case));
            case += 1;
            if seen.contains(&inputs) {
                continue;
            }
            let group =
                answer_group(kind, &inputs, Rules::On).map_err(|e| format!("{inputs:?}: {e}"))?;
            text.push_str(&group);
            seen.push(inputs);
        }
        write_file(&folder.join(format!("{}.kv", kind.name)), &text)?;
    }
    Ok(())
}

fn write_folder(folder: &Path, files: &Files) -> Result<(), String> {
    for (name, text) in files {
        write_file(&folder.join(name), text)?;
    }
    Ok(())
}

pub fn write_file(path: &Path, text: &str) -> Result<(), String> {
    let parent = path.parent().ok_or("a file stands in a folder")?;
    fs::create_dir_all(parent)
        .and_then(|()| fs::write(path, text))
        .map_err(|e| format!("{}: {e}", path.display()))
}

pub fn read_file(path: &Path) -> Result<String, String> {
    fs::read_to_string(path).map_err(|e| format!("{}: {e}", path.display()))
}

/// Runs the Rust on all that is recorded and compares byte for byte.
pub fn check(folder: &Path) -> Result<String, String> {
    let mut report = String::new();
    let mut count = 0;
    for case in sorted_folders(&folder.join("combine"))? {
        let (_, text) = combined(&Lent::read(&case, Rules::On)?).map_err(|e| in_case(&case, e))?;
        same(&case.join("combined.kv"), &text)?;
        count += 1;
    }
    report.push_str(&format!("combine: {count} lists as recorded\n"));
    count = 0;
    for case in sorted_folders(&folder.join("call"))? {
        let text = read_file(&case.join("combined.kv"))?;
        let list = read_combined(&text, Rules::On).map_err(|r| in_case(&case, r.to_string()))?;
        let called = called(&list).map_err(|e| in_case(&case, e))?;
        same(&case.join("called.kv"), &called)?;
        count += 1;
    }
    report.push_str(&format!("call: {count} lists as recorded\n"));
    for kind in &KINDS {
        let path = folder.join(format!("{}.kv", kind.name));
        let text = read_file(&path)?;
        same(&path, &answer_text(kind, &text, Rules::On)?)?;
        let groups = text
            .lines()
            .filter(|l| l.starts_with(&format!("{}=", kind.inputs[0])));
        report.push_str(&format!(
            "{}: {} groups as recorded\n",
            kind.name,
            groups.count()
        ));
    }
    Ok(report)
}

pub fn sorted_folders(folder: &Path) -> Result<Vec<PathBuf>, String> {
    let entries = fs::read_dir(folder).map_err(|e| format!("{}: {e}", folder.display()))?;
    let mut found: Vec<PathBuf> = entries
        .filter_map(|e| e.ok().map(|e| e.path()))
        .filter(|p| p.is_dir())
        .collect();
    found.sort();
    Ok(found)
}

fn in_case(case: &Path, e: String) -> String {
    format!("{}: {e}", case.display())
}

fn same(path: &Path, text: &str) -> Result<(), String> {
    if read_file(path)? == text {
        Ok(())
    } else {
        Err(format!("{}: the Rust's answer is another", path.display()))
    }
}

/// Draws calls and lists that are not kept, and holds each answer to what a list must be.
pub fn sweep(seed: u64, count: u64) -> Result<String, String> {
    let (mut records, mut kept, mut referenced, mut small) = (0, 0, 0, 0);
    for case in 0..count {
        let profile = &generate::PROFILES[(case % generate::PROFILES.len() as u64) as usize];
        let case_seed = case_seed(seed, profile.name, case);
        let drawn = format!("{} {case_seed}", profile.name);
        let lent = generate::lent(profile, case_seed);
        let (list, _) = combined(&lent).map_err(|e| format!("{drawn}: {e}"))?;
        records += list.records.len();
        referenced += u64::from(lent.reference.is_some());
        small += u64::from(lent.has_small_letters());
        called(&list).map_err(|e| format!("{drawn}: {e}"))?;
        let list = generate::combined_list(case_seed);
        kept += call(&list).records.len();
        called(&list).map_err(|e| format!("combined {case_seed}: {e}"))?;
        for kind in &KINDS {
            let inputs = generate::group(kind.name, case_seed);
            answer_group(kind, &inputs, Rules::On)
                .map_err(|e| format!("{} {case_seed}: {e}", kind.name))?;
        }
    }
    Ok(format!(
        "{count} calls, {referenced} with a reference, {small} with small letters, gave {records} records; {count} combined lists gave {kept} called records\n"
    ))
}
