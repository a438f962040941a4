//! Rows 1 to 8 for a combined list that is read back, once more, written from the documents alone.

use crate::rows::{lines, name, number, numbers, or_missing, sample_names, spelled, value, Group, MOST_BYTES};

/// The row, 1 to 8, that refuses the list; 0 if none does.
pub fn refusing(text: &[u8]) -> usize {
    if text.len() > MOST_BYTES {
        return 2;
    }
    let all = lines(text);
    let samples = match sample_names(&all) {
        Ok(names) => names.len(),
        Err(row) => return row,
    };
    let Some(records) = value(&all, samples + 1, "records").and_then(number) else { return 1 };
    let mut before: Option<(&[u8], u64)> = None;
    let mut count = 0;
    for group in all[samples + 2..].chunks(5 + 6 * samples) {
        if count == records {
            return 1;
        }
        match record_end(group, samples, before) {
            Ok(end) => before = Some(end),
            Err(row) => return row,
        }
        count += 1;
    }
    usize::from(count < records)
}

/// GT of n alleles: missing, or j/k with j ≤ k < n.
fn genotype_right(value: &[u8], n: u64) -> bool {
    let pair: Option<Vec<u64>> = value.split(|&b| b == b'/').map(number).collect();
    value == b"." || matches!(pair.as_deref(), Some([j, k]) if j <= k && *k < n)
}

/// Contig and last position of the record, or the row that refuses its group.
pub fn record_end<'a>(group: &Group<'a>, samples: usize, before: Option<(&[u8], u64)>) -> Result<(&'a [u8], u64), usize> {
    let head = || {
        Some((
            value(group, 0, "contig").and_then(name)?,
            value(group, 1, "pos").and_then(number)?,
            or_missing(value(group, 2, "end")?, number)?,
            value(group, 3, "ref")?,
            value(group, 4, "alt")?,
        ))
    };
    let (contig, pos, end, reference, alt) = head().ok_or(1usize)?;
    let alts: Vec<&[u8]> = alt.split(|&b| b == b',').collect();
    let n = alts.len() + 1;
    let mut counts = Vec::new();
    for i in 0..samples {
        let own = || {
            genotype_right(value(group, 5 + 6 * i, "gt")?, n as u64).then_some(())?;
            or_missing(value(group, 6 + 6 * i, "gq")?, number)?;
            or_missing(value(group, 7 + 6 * i, "dp")?, number)?;
            or_missing(value(group, 8 + 6 * i, "mindp")?, number)?;
            let ad = or_missing(value(group, 9 + 6 * i, "ad")?, numbers)?;
            let pl = or_missing(value(group, 10 + 6 * i, "pl")?, numbers)?;
            Some((ad, pl))
        };
        counts.push(own().ok_or(1usize)?);
    }
    let behind = match before {
        Some((other, last)) => other < contig || (other == contig && last < pos),
        None => true,
    };
    if pos == 0 || end.is_some_and(|end| end <= pos) || !behind {
        return Err(4);
    }
    if !spelled(reference, &alts, 255, 16) {
        return Err(5);
    }
    if !alts.contains(&&b"<NON_REF>"[..]) {
        return Err(6);
    }
    if end.is_some() && !(alts.len() == 1 && reference.len() == 1) {
        return Err(7);
    }
    let right = |(ad, pl): &(Option<Vec<u64>>, Option<Vec<u64>>)| {
        ad.as_ref().map_or(true, |ad| ad.len() == n) && pl.as_ref().map_or(true, |pl| pl.len() == n * (n + 1) / 2)
    };
    if !counts.iter().all(right) {
        return Err(8);
    }
    Ok((contig, end.unwrap_or(pos)))
}
