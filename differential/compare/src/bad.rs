//! Texts with faults: rows 1 to 9 against a second implementation of them, every answer under closed pages.

use crate::combine::{sort_of, Texts};
use crate::ours::{Call, Library};
use crate::list_rows;
use crate::rows::{has_site, refusing};
use oracle::generate;
use oracle::list::write_combined;
use oracle::rng::{mix, Rng};

/// Bytes that mean something in a text, so that a change often leaves it nearly right.
const TELLING: &[u8] = b"\n\n==,,..0019ACGTNacgtn*<>sx \r\0\xff";

pub fn changed(rng: &mut Rng, text: &[u8]) -> Vec<u8> {
    let mut text = text.to_vec();
    for _ in 0..rng.range(1, 2) {
        let at = rng.below(text.len() as u64 + 1) as usize;
        let byte = *rng.pick(TELLING);
        match rng.below(10) {
            0 if at < text.len() => text[at] = byte,
            1 => text.insert(at, byte),
            2 if at < text.len() => drop(text.remove(at)),
            3 => text.truncate(at),
            4 if at < text.len() => text[at] = rng.any() as u8,
            5 => value_changed(rng, &mut text),
            6 => case_changed(rng, &mut text),
            7 => allele_repeated(rng, &mut text),
            8 => min_dp_changed(rng, &mut text),
            _ => lines_changed(rng, &mut text),
        }
    }
    text
}

fn other_case(b: &mut u8) {
    *b = if b.is_ascii_lowercase() { b.to_ascii_uppercase() } else { b.to_ascii_lowercase() };
}

/// A letter, or all of a line of alleles or bases, in the other case.
fn case_changed(rng: &mut Rng, text: &mut [u8]) {
    let of_letters = |line: &&mut [u8]| [&b"ref="[..], b"alt=", b"bases="].iter().any(|key| line.starts_with(key));
    let mut lines: Vec<&mut [u8]> = text.split_mut(|&b| b == b'\n').filter(of_letters).collect();
    if lines.is_empty() {
        return;
    }
    let at = rng.below(lines.len() as u64) as usize;
    let key = lines[at].iter().take_while(|&&b| b != b'=').count() + 1;
    let value = &mut lines[at][key..];
    match rng.below(3) {
        0 => value.iter_mut().for_each(other_case),
        _ if value.is_empty() => {}
        _ => other_case(&mut value[rng.below(value.len() as u64) as usize]),
    }
}

/// An ALT becomes REF or another ALT of its line, in the other case.
fn allele_repeated(rng: &mut Rng, text: &mut Vec<u8>) {
    let mut lines: Vec<Vec<u8>> = text.split(|&b| b == b'\n').map(<[u8]>::to_vec).collect();
    let places: Vec<usize> = (1..lines.len()).filter(|&i| lines[i].starts_with(b"alt=") && lines[i - 1].starts_with(b"ref=")).collect();
    if places.is_empty() {
        return;
    }
    let at = *rng.pick(&places);
    let mut alts: Vec<Vec<u8>> = lines[at][4..].split(|&b| b == b',').map(<[u8]>::to_vec).collect();
    let (i, j) = (rng.below(alts.len() as u64) as usize, rng.below(alts.len() as u64) as usize);
    alts[i] = if i == j { lines[at - 1][4..].to_vec() } else { alts[j].clone() };
    alts[i].iter_mut().for_each(other_case);
    lines[at] = [&b"alt="[..], &alts.join(&b',')].concat();
    *text = lines.join(&b'\n');
}

/// A `mindp` line, or all of them, left out; one exchanged with a neighbour, misspelled, or with a value at the ends of its range.
fn min_dp_changed(rng: &mut Rng, text: &mut Vec<u8>) {
    let mut lines: Vec<Vec<u8>> = text.split(|&b| b == b'\n').map(<[u8]>::to_vec).collect();
    let places: Vec<usize> = (1..lines.len() - 1).filter(|&i| lines[i].starts_with(b"mindp=")).collect();
    if places.is_empty() {
        return;
    }
    let at = *rng.pick(&places);
    let spellings: [&[u8]; 6] = [b"min_dp", b"MIN_DP", b"mindp ", b"mind", b"dp", b""];
    let values: [&[u8]; 9] = [b"", b"0", b"05", b"-1", b"5,6", b"..", b".", b"2147483647", b"2147483648"];
    match rng.below(6) {
        0 => drop(lines.remove(at)),
        1 => lines.retain(|line| !line.starts_with(b"mindp=")),
        2 => lines.swap(at - 1, at),
        3 => lines.swap(at, at + 1),
        4 => lines[at] = [*rng.pick::<&[u8]>(&spellings), &lines[at][5..]].concat(),
        _ => lines[at] = [&b"mindp="[..], *rng.pick::<&[u8]>(&values)].concat(),
    }
    *text = lines.join(&b'\n');
}

/// The value of a line is that of another line, or one at the ends of a range.
fn value_changed(rng: &mut Rng, text: &mut Vec<u8>) {
    let mut lines: Vec<Vec<u8>> = text.split(|&b| b == b'\n').map(<[u8]>::to_vec).collect();
    let (i, j) = (rng.below(lines.len() as u64) as usize, rng.below(lines.len() as u64) as usize);
    let key = lines[i].split(|&b| b == b'=').next().unwrap_or_default().to_vec();
    let other = lines[j].splitn(2, |&b| b == b'=').nth(1).unwrap_or_default().to_vec();
    let values: [&[u8]; 14] = [
        &other, b"0", b"2147483647", b"2147483648", b".", b"00", b"G,G", b"<NON_REF>", b"A,<NON_REF>,*", b"G,g,<NON_REF>", b"g,<NON_REF>",
        b"<non_ref>", b"<NOn_REF>", b"a",
    ];
    let value = *rng.pick::<&[u8]>(&values);
    lines[i] = [&key[..], b"=", value].concat();
    *text = lines.join(&b'\n');
}

/// A line is left out, doubled, or exchanged with its neighbour.
fn lines_changed(rng: &mut Rng, text: &mut Vec<u8>) {
    let mut lines: Vec<Vec<u8>> = text.split(|&b| b == b'\n').map(<[u8]>::to_vec).collect();
    let i = rng.below(lines.len() as u64) as usize;
    match rng.below(3) {
        0 => drop(lines.remove(i)),
        1 => lines.insert(i, lines[i].clone()),
        _ if i + 1 < lines.len() => lines.swap(i, i + 1),
        _ => {}
    }
    *text = lines.join(&b'\n');
}

/// The answer must be the row of rows 1 to 9 that refuses the texts, if one does, and else a list or 11 to 14, the same with many places and
/// with one; without places it is 10 if there is a site.
pub fn hold(library: &mut Library, cohort: &[u8], clip: Option<&[u8]>, reference: Option<&[u8]>) -> Result<usize, String> {
    let row = refusing(cohort, clip, reference);
    let mut with = |places: usize| library.combine_roomy(&Call { cohort, clip, reference, places, room: 0 });
    let (answer, one, none) = (with(2048), with(1), with(0));
    let first = match (row, &answer) {
        (0, Ok(_)) => true,
        (0, Err(other)) => (11..=14).contains(other),
        (row, Err(other)) => row == *other,
        _ => false,
    };
    let ten = row == 0 && has_site(cohort);
    if first && one == answer && none == if ten { Err(10) } else { answer.clone() } {
        return Ok(row);
    }
    Err(format!(
        "row {row} expected, {:?} answered, with one place {:?}, with none {:?} for\n{}\nclip {:?}\nreference {:?}",
        answer.map(|l| l.len()),
        one.map(|l| l.len()),
        none.map(|l| l.len()),
        String::from_utf8_lossy(cohort),
        clip.map(String::from_utf8_lossy),
        reference.map(String::from_utf8_lossy)
    ))
}

pub fn check(seed: u64, count: u64) -> Result<String, String> {
    let mut library = Library::new();
    let mut rows = [0u64; 10];
    for length in 0..3u32 {
        for n in 0..256u32.pow(length) {
            let text = &n.to_le_bytes()[..length as usize];
            rows[hold(&mut library, text, None, None)?] += 1;
            hold(&mut library, b"samples=1\nsample=S\n", Some(text), None)?;
            hold(&mut library, b"samples=1\nsample=S\n", None, Some(text))?;
        }
    }
    for i in 0..count {
        let mut rng = Rng::new(mix(seed ^ mix(i)));
        let texts = Texts::of(&generate::lent(sort_of(i), rng.any()));
        let (mut cohort, mut clip, mut reference) = (
            texts.cohort.into_bytes(),
            texts.clip.map(String::into_bytes),
            texts.reference.map(String::into_bytes),
        );
        match rng.below(10) {
            0 => cohort = (0..rng.below(200)).map(|_| *rng.pick(TELLING)).collect(),
            1 => clip = clip.map(|t| changed(&mut rng, &t)),
            2 => reference = reference.map(|t| changed(&mut rng, &t)),
            _ => cohort = changed(&mut rng, &cohort),
        }
        let row = hold(&mut library, &cohort, clip.as_deref(), reference.as_deref())
            .map_err(|e| format!("seed {seed}, text {i}: {e}"))?;
        rows[row] += 1;
    }
    Ok(format!("{count} texts with faults, and all of at most 2 bytes; rows (0: none of 1 to 9): {}\n", told(&rows)))
}

fn told(rows: &[u64]) -> String {
    let each: Vec<String> = rows.iter().enumerate().map(|(row, n)| format!("{row}: {n}")).collect();
    each.join(", ")
}

/// The answer must be the row of rows 1 to 8 that refuses the list, if one does, and else a called list.
pub fn hold_list(library: &mut Library, list: &[u8]) -> Result<usize, String> {
    let row = list_rows::refusing(list);
    // a called list is no longer: only GQ may grow, by one byte, and its GT and MIN_DP lines are gone
    let answer = library.call(list, 4096 + list.len());
    match (row, &answer) {
        (0, Ok(_)) => Ok(0),
        (row, Err(other)) if row == *other => Ok(row),
        _ => Err(format!("row {row} expected, {:?} answered for\n{}", answer.map(|l| l.len()), String::from_utf8_lossy(list))),
    }
}

pub fn check_lists(seed: u64, count: u64) -> Result<String, String> {
    let mut library = Library::new();
    let mut rows = [0u64; 9];
    for length in 0..3u32 {
        for n in 0..256u32.pow(length) {
            rows[hold_list(&mut library, &n.to_le_bytes()[..length as usize])?] += 1;
        }
    }
    for i in 0..count {
        let mut rng = Rng::new(mix(seed ^ mix(i)));
        let text = write_combined(&generate::combined_list(rng.any())).into_bytes();
        let list = match rng.below(12) {
            0 => (0..rng.below(200)).map(|_| *rng.pick(TELLING)).collect(),
            1 => text,
            _ => changed(&mut rng, &text),
        };
        rows[hold_list(&mut library, &list).map_err(|e| format!("seed {seed}, list {i}: {e}"))?] += 1;
    }
    Ok(format!("{count} lists with faults, and all of at most 2 bytes; rows (0: none of 1 to 8): {}\n", told(&rows)))
}
