//! Positions looked up in a combined list against a plain search, written from document 02 alone, on generated lists and pairs, some with faults.

use crate::bad::changed;
use crate::list_rows::record_end;
use crate::ours::Library;
use crate::rows::{lines, name, number, sample_names, value, MOST_BYTES};
use oracle::generate;
use oracle::list::{write_combined, List};
use oracle::rng::{mix, Rng};
use wintabol::NO_RECORD;

const MOST_PAIRS: usize = 1024;
const LAST: u64 = 2_147_483_647;

type Pair<'a> = (&'a [u8], u64);
type Found = (Vec<u32>, u32);

/// The pairs of a text: row 1 for a misspelt one, 18 for one past the 1,024th or before its neighbour, pair by pair.
fn pairs(asked: &[u8]) -> Result<Vec<Pair<'_>>, usize> {
    let mut found: Vec<Pair> = Vec::new();
    for group in lines(asked).chunks(2) {
        let pair = || Some((value(group, 0, "contig").and_then(name)?, value(group, 1, "pos").and_then(number)?));
        let pair = pair().ok_or(1usize)?;
        if found.len() == MOST_PAIRS || found.last().is_some_and(|before| pair < *before) {
            return Err(18);
        }
        found.push(pair);
    }
    Ok(found)
}

/// Contig, POS and last position of the records up to and including the first that ends at or after a pair, or of all.
fn records_to<'a>(list: &'a [u8], last: Option<&Pair>) -> Result<Vec<(&'a [u8], u64, u64)>, usize> {
    let all = lines(list);
    let samples = sample_names(&all)?.len();
    let records = value(&all, samples + 1, "records").and_then(number).ok_or(1usize)?;
    let mut read: Vec<(&[u8], u64, u64)> = Vec::new();
    let Some(last) = last else { return Ok(read) };
    for group in all[samples + 2..].chunks(5 + 6 * samples) {
        if read.len() as u64 == records {
            return Err(1);
        }
        let (contig, end) = record_end(group, samples, read.last().map(|r| (r.0, r.2)))?;
        read.push((contig, value(group, 1, "pos").and_then(number).unwrap(), end));
        if *last <= (contig, end) {
            return Ok(read);
        }
    }
    if (read.len() as u64) < records {
        return Err(1);
    }
    Ok(read)
}

/// What the call answers: for each pair the first record whose stretch holds it, and how many record groups are read; or the row.
fn searched(list: &[u8], asked: &[u8], places: usize) -> Result<Found, usize> {
    if list.len() > MOST_BYTES || asked.len() > MOST_BYTES {
        return Err(2);
    }
    let pairs = pairs(asked)?;
    let read = records_to(list, pairs.last())?;
    if places < pairs.len() {
        return Err(14);
    }
    let holder = |p: &Pair| read.iter().position(|r| r.0 == p.0 && r.1 <= p.1 && p.1 <= r.2);
    let found = pairs.iter().map(|p| holder(p).map_or(NO_RECORD, |i| i as u32)).collect();
    Ok((found, read.len() as u32))
}

/// A position at, before, in or behind a record's stretch, or anywhere on a contig.
fn any_pair(rng: &mut Rng, list: &List) -> (String, u64) {
    if list.records.is_empty() || rng.chance(8) {
        let contig = *rng.pick(&["c", "chr1", "A", "zz", "0"]);
        return (contig.to_string(), *rng.pick(&[0, 1, 10, LAST]));
    }
    let record = rng.pick(&list.records);
    let (pos, last) = (record.pos, record.last());
    let at = match rng.below(6) {
        0 => pos,
        1 => last,
        2 => pos - 1,
        3 => (last + 1).min(LAST),
        4 => rng.range(pos, last),
        _ => rng.range(1, LAST.min(last + 50)),
    };
    (record.contig.clone(), at)
}

/// Pairs in list order, or now and then not; few, and sometimes as many as may be or one more; some texts get a fault.
fn asked_of(rng: &mut Rng, list: &List) -> Vec<u8> {
    let count = match rng.below(60) {
        0 => 1024 + rng.below(2),
        1..=4 => 0,
        _ => rng.range(1, 12),
    };
    let mut pairs: Vec<(String, u64)> = (0..count).map(|_| any_pair(rng, list)).collect();
    if !rng.chance(4) {
        pairs.sort();
    }
    let text = pairs.iter().map(|(contig, at)| format!("contig={contig}\npos={at}\n")).collect::<String>().into_bytes();
    if !text.is_empty() && rng.chance(6) {
        return changed(rng, &text);
    }
    text
}

/// The library's answer to each pair asked alone: the same, with no more groups read.
fn alone(library: &mut Library, list: &[u8], asked: &[u8], found: &Found) -> Result<(), String> {
    for (k, (contig, at)) in pairs(asked).unwrap_or_default().into_iter().enumerate().take(16) {
        let pair = [b"contig=", contig, format!("\npos={at}\n").as_bytes()].concat();
        match library.look_up(list, &pair, 1) {
            Ok((one, groups)) if one == found.0[k..=k] && groups <= found.1 => {}
            other => return Err(format!("pair {k} alone: {other:?}")),
        }
    }
    Ok(())
}

#[derive(Default)]
struct Tally {
    pairs: u64,
    held: u64,
    groups: u64,
    unread: u64,
    rows: [u64; 19],
}

pub fn check(seed: u64, count: u64) -> Result<String, String> {
    let mut library = Library::new();
    let mut tally = Tally::default();
    for i in 0..count {
        let mut rng = Rng::new(mix(seed ^ mix(i)));
        let list = generate::combined_list(rng.any());
        let mut text = write_combined(&list).into_bytes();
        if rng.chance(30) {
            text = changed(&mut rng, &text);
        }
        let asked = asked_of(&mut rng, &list);
        let told = |what: String| format!("seed {seed}, list {i}: {what}\n{}\n{}", String::from_utf8_lossy(&text), String::from_utf8_lossy(&asked));
        let count = lines(&asked).len() / 2;
        for places in [count + 3, count, count.saturating_sub(1)] {
            let expected = searched(&text, &asked, places);
            let answer = library.look_up(&text, &asked, places);
            if answer != expected {
                return Err(told(format!("with {places} places {expected:?} expected, {answer:?} answered")));
            }
            match answer {
                Err(row) => tally.rows[row] += 1,
                Ok(found) => {
                    alone(&mut library, &text, &asked, &found).map_err(told)?;
                    tally.rows[0] += 1;
                    tally.pairs += found.0.len() as u64;
                    tally.held += found.0.iter().filter(|&&n| n != NO_RECORD).count() as u64;
                    tally.groups += u64::from(found.1);
                    tally.unread += u64::from((found.1 as usize) < list.records.len());
                }
            }
        }
    }
    let rows: Vec<String> = tally.rows.iter().enumerate().filter(|(_, n)| **n > 0).map(|(row, n)| format!("{row}: {n}")).collect();
    Ok(format!(
        "{count} lists, each with three numbers of places: {} pairs, {} held by a record, {} record groups read, {} calls that left some unread; rows (0: answered): {}; no difference\n",
        tally.pairs,
        tally.held,
        tally.groups,
        tally.unread,
        rows.join(", ")
    ))
}
