//! Depth along a contig against a count position by position, written from document 02 alone, on generated lists and windows, some with faults.

use crate::bad::changed;
use crate::list_rows::refusing;
use crate::ours::Library;
use crate::rows::{lines, number, or_missing, sample_names, value};
use oracle::generate;
use oracle::list::{write_combined, List, ListRecord, ListSample};
use oracle::rng::{mix, Rng};
use wintabol::Depth;

const LAST: u64 = 2_147_483_647;
const MOST: u32 = 1_000_000;
const MOST_PLACES: usize = 5000;

/// A stretch of the contig, and the sample's DP there.
struct Stretch {
    pos: u64,
    last: u64,
    dp: Option<u64>,
}

/// The stretches of a contig in a list that no row refuses.
fn stretches(list: &[u8], contig: &[u8], sample: usize) -> Vec<Stretch> {
    let all = lines(list);
    let samples = sample_names(&all).unwrap().len();
    let on = |group: &&[Option<&[u8]>]| value(group, 0, "contig") == Some(contig);
    let read = |group: &[Option<&[u8]>]| {
        let field = |line: usize, key: &str| or_missing(value(group, line, key).unwrap(), number).unwrap();
        let pos = field(1, "pos").unwrap();
        Stretch { pos, last: field(2, "end").unwrap_or(pos), dp: field(7 + 6 * sample, "dp") }
    };
    all[samples + 2..].chunks(5 + 6 * samples).filter(on).map(read).collect()
}

/// Whether a position lies in a record with DP at or above the threshold.
fn is_deep(on: &[Stretch], threshold: u32, position: u64) -> bool {
    on.iter().any(|s| s.pos <= position && position <= s.last && s.dp.is_some_and(|dp| u64::from(threshold) <= dp))
}

/// The count of each window, or the row that refuses the call: rows 1 to 8, then 17, then 14.
fn windows(list: &[u8], contig: &[u8], asked: Depth, places: usize) -> Result<Vec<u32>, usize> {
    match refusing(list) {
        0 => {}
        row => return Err(row),
    }
    let samples = sample_names(&lines(list))?.len();
    if !(1..=MOST).contains(&asked.size) || !(1..=MOST).contains(&asked.step) || asked.sample >= samples {
        return Err(17);
    }
    let on = stretches(list, contig, asked.sample);
    let (Some(first), Some(last)) = (on.iter().map(|s| s.pos).min(), on.iter().map(|s| s.last).max()) else { return Ok(Vec::new()) };
    let begins: Vec<u64> = (first..=last).step_by(asked.step as usize).take(places + 1).collect();
    if begins.len() > places {
        return Err(14);
    }
    // behind the last position no record holds one
    let positions = |begin: u64| begin..(begin + u64::from(asked.size)).min(last + 1);
    Ok(begins.into_iter().map(|begin| positions(begin).filter(|&p| is_deep(&on, asked.threshold, p)).count() as u32).collect())
}

/// A record of one to three samples on a contig, a block if it has an end.
fn any_record(rng: &mut Rng, contig: &str, pos: u64, samples: u64) -> ListRecord {
    let end = match rng.below(10) {
        0..=3 => None,
        4..=8 => Some(pos + rng.range(1, 30)),
        _ => Some(pos + rng.range(1, 2500)),
    };
    let dp = |rng: &mut Rng| *rng.pick(&[None, None, Some(0), Some(1), Some(5), Some(9), Some(30), Some(LAST as u32)]);
    let alts: &[&str] = if end.is_some() { &["<NON_REF>"] } else { &["G", "<NON_REF>"] };
    ListRecord {
        contig: contig.to_string(),
        pos,
        end: end.map(|e| e.min(LAST)).filter(|e| *e > pos),
        ref_allele: "A".to_string(),
        alts: alts.iter().map(|a| a.to_string()).collect(),
        samples: (0..samples).map(|_| ListSample { dp: dp(rng), ..ListSample::default() }).collect(),
    }
}

/// Blocks and single positions on up to three contigs, some up to the last position there is.
fn any_list(rng: &mut Rng) -> List {
    let samples = rng.range(1, 3);
    let mut list = List { samples: (0..samples).map(|i| format!("S{i}")).collect(), records: Vec::new() };
    for contig in ["a", "c", "chr1"] {
        let mut at = *rng.pick(&[1, 7, 500, LAST - 60]);
        for _ in 0..rng.below(7) {
            if at > LAST {
                break;
            }
            let record = any_record(rng, contig, at, samples);
            at = record.last() + *rng.pick(&[1, 1, 2, 5, 40]);
            list.records.push(record);
        }
    }
    list
}

/// What is asked: mostly what may be, now and then one past an end.
fn asked_of(rng: &mut Rng, list: &List) -> (String, Depth) {
    let contig = match list.records.is_empty() || rng.chance(8) {
        true => rng.pick(&["a", "c", "ch", "zz", ""]).to_string(),
        false => rng.pick(&list.records).contig.clone(),
    };
    let samples = list.samples.len();
    let sample = if rng.chance(95) { rng.below(samples as u64) as usize } else { *rng.pick(&[samples, samples + 1, usize::MAX]) };
    let threshold = *rng.pick(&[0, 0, 1, 5, 6, 9, 30, 60, LAST as u32, u32::MAX]);
    let extent = |rng: &mut Rng| match rng.below(40) {
        0 => *rng.pick(&[0, MOST + 1, u32::MAX]),
        1 => *rng.pick(&[MOST, MOST - 1]),
        2..=7 => rng.range(1, 3000) as u32,
        _ => rng.range(1, 40) as u32,
    };
    (contig, Depth { sample, threshold, size: extent(rng), step: extent(rng) })
}

#[derive(Default)]
struct Tally {
    windows: u64,
    thin: u64,
    positions: u64,
    missing_at_0: u64,
    step_longer: u64,
    to_the_last: u64,
    no_record: u64,
    rows: [u64; 18],
}

impl Tally {
    fn add(&mut self, text: &[u8], contig: &[u8], asked: Depth, counts: &[u32]) {
        let on = stretches(text, contig, asked.sample);
        self.windows += counts.len() as u64;
        self.thin += counts.iter().filter(|&&n| n == 0).count() as u64;
        self.positions += counts.iter().map(|&n| u64::from(n)).sum::<u64>();
        self.missing_at_0 += u64::from(asked.threshold == 0 && on.iter().any(|s| s.dp.is_none()));
        self.step_longer += u64::from(asked.size < asked.step && counts.len() > 1);
        self.to_the_last += u64::from(on.iter().any(|s| s.last == LAST));
        self.no_record += u64::from(on.is_empty());
    }

    fn told(&self) -> String {
        let rows: Vec<String> = self.rows.iter().enumerate().filter(|(_, n)| **n > 0).map(|(row, n)| format!("{row}: {n}")).collect();
        format!(
            "{} windows, {} of them with no deep position, {} deep positions; lists with a missing DP at threshold 0: {}, a step longer than \
             windows: {}, a record up to {LAST}: {}, no record on the contig: {}; rows of all calls (0: answered): {}",
            self.windows,
            self.thin,
            self.positions,
            self.missing_at_0,
            self.step_longer,
            self.to_the_last,
            self.no_record,
            rows.join(", ")
        )
    }
}

/// The calls of a list: three places more than windows, just enough, one fewer, and none.
fn hold(library: &mut Library, text: &[u8], contig: &[u8], asked: Depth, tally: &mut Tally) -> Result<(), String> {
    let whole = windows(text, contig, asked, MOST_PLACES);
    let count = whole.as_ref().map_or(2, Vec::len);
    for places in [count + 3, count, count.saturating_sub(1), 0] {
        let expected = whole.clone().and_then(|counts| if counts.len() <= places { Ok(counts) } else { Err(14) });
        let answer = library.depth_windows(text, contig, asked, places);
        if answer != expected {
            return Err(format!("with {places} places {expected:?} expected, {answer:?} answered"));
        }
        tally.rows[answer.err().unwrap_or(0)] += 1;
    }
    if let Ok(counts) = whole {
        tally.add(text, contig, asked, &counts);
    }
    Ok(())
}

pub fn check(seed: u64, count: u64) -> Result<String, String> {
    let mut library = Library::new();
    let mut tally = Tally::default();
    for i in 0..count {
        let mut rng = Rng::new(mix(seed ^ mix(i)));
        let list = if rng.chance(30) { generate::combined_list(rng.any()) } else { any_list(&mut rng) };
        let (contig, asked) = asked_of(&mut rng, &list);
        let mut text = write_combined(&list).into_bytes();
        if rng.chance(20) {
            text = changed(&mut rng, &text);
        }
        hold(&mut library, &text, contig.as_bytes(), asked, &mut tally)
            .map_err(|what| format!("seed {seed}, list {i}: {asked:?} on {contig:?}: {what}\n{}", String::from_utf8_lossy(&text)))?;
    }
    Ok(format!("{count} lists, each with four numbers of places: {}; no difference\n", tally.told()))
}
