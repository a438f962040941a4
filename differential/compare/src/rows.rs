//! Rows 1 to 9 of document 01's table once more, written from the documents alone: which row refuses the texts of a call, if one does.

pub const MOST_BYTES: usize = 16_777_216;
const MOST_NUMBER: u64 = 2_147_483_647;

/// The row, 1 to 9, that refuses the call; 0 if none does.
pub fn refusing(cohort: &[u8], clip: Option<&[u8]>, reference: Option<&[u8]>) -> usize {
    let texts = [Some(cohort), clip, reference];
    if texts.iter().flatten().any(|t| t.len() > MOST_BYTES) {
        return 2;
    }
    let row = cohort_row(cohort);
    if row != 0 {
        return row;
    }
    let clip_right = clip.map_or(true, |t| groups(t, 3).iter().all(|g| clip_group(g)));
    let reference_right = reference.map_or(true, |t| groups(t, 3).iter().all(|g| reference_group(g)));
    if clip_right && reference_right {
        0
    } else {
        9
    }
}

/// Whether a cohort that no row refuses has a site.
pub fn has_site(cohort: &[u8]) -> bool {
    let all = lines(cohort);
    sample_names(&all).is_ok_and(|names| all.len() > 1 + names.len())
}

/// Lines of a text, one after the other.
pub type Group<'a> = [Option<&'a [u8]>];

/// The lines of a text; one that no LF ends is None.
pub fn lines(text: &[u8]) -> Vec<Option<&[u8]>> {
    let mut all: Vec<Option<&[u8]>> = text.split(|&b| b == b'\n').map(Some).collect();
    match all.pop() {
        Some(Some(rest)) if !rest.is_empty() => all.push(None),
        _ => {}
    }
    all
}

fn groups(text: &[u8], size: usize) -> Vec<Vec<Option<&[u8]>>> {
    lines(text).chunks(size).map(<[_]>::to_vec).collect()
}

pub fn value<'a>(group: &Group<'a>, number: usize, key: &str) -> Option<&'a [u8]> {
    let line = (*group.get(number)?)?;
    let rest = line.strip_prefix(key.as_bytes())?;
    rest.strip_prefix(b"=")
}

pub fn number(value: &[u8]) -> Option<u64> {
    let digits = !value.is_empty() && value.len() <= 10 && value.iter().all(u8::is_ascii_digit);
    if !digits || (value.len() > 1 && value[0] == b'0') {
        return None;
    }
    let n = value.iter().fold(0u64, |n, b| n * 10 + u64::from(b - b'0'));
    (n <= MOST_NUMBER).then_some(n)
}

pub fn name(value: &[u8]) -> Option<&[u8]> {
    let right = |b: &u8| (33..=126).contains(b) && *b != b'=' && *b != b',';
    ((1..=32).contains(&value.len()) && value.iter().all(right)).then_some(value)
}

pub fn or_missing<T>(value: &[u8], read: impl Fn(&[u8]) -> Option<T>) -> Option<Option<T>> {
    if value == b"." {
        return Some(None);
    }
    read(value).map(Some)
}

pub fn numbers(value: &[u8]) -> Option<Vec<u64>> {
    value.split(|&b| b == b',').map(number).collect()
}

/// One byte of an allele or of bases, read: the small letters stand for the capitals.
fn letter(byte: u8) -> Option<u8> {
    match byte {
        b'A' | b'a' => Some(b'A'),
        b'C' | b'c' => Some(b'C'),
        b'G' | b'g' => Some(b'G'),
        b'T' | b't' => Some(b'T'),
        b'N' | b'n' => Some(b'N'),
        _ => None,
    }
}

/// From one letter to so many, in either case, as capitals.
fn letters(value: &[u8], most: usize) -> Option<Vec<u8>> {
    (1..=most).contains(&value.len()).then_some(())?;
    value.iter().map(|&b| letter(b)).collect()
}

/// An ALT as it is read: letters are capitals, `*` and `<NON_REF>` have this spelling alone.
fn allele(value: &[u8], most: usize) -> Option<Vec<u8>> {
    match value {
        b"*" | b"<NON_REF>" => Some(value.to_vec()),
        _ => letters(value, most),
    }
}

/// Whether REF and the ALTs are spelled right and are few enough, none twice as they are read: row 5.
pub fn spelled(reference: &[u8], alts: &[&[u8]], letters_most: usize, alleles_most: usize) -> bool {
    let Some(reference) = letters(reference, letters_most) else { return false };
    let Some(read) = alts.iter().map(|a| allele(a, letters_most)).collect::<Option<Vec<_>>>() else { return false };
    let twice = (0..read.len()).any(|i| read[i] == reference || read[..i].contains(&read[i]));
    alts.len() < alleles_most && !twice
}

/// The names of the samples, or the row that refuses them.
pub fn sample_names<'a>(all: &Group<'a>) -> Result<Vec<&'a [u8]>, usize> {
    let count = value(all, 0, "samples").and_then(number).ok_or(1usize)?;
    if !(1..=64).contains(&count) {
        return Err(2);
    }
    let mut names: Vec<&[u8]> = Vec::new();
    for i in 0..count as usize {
        let own = value(all, i + 1, "sample").and_then(name).ok_or(1usize)?;
        if names.contains(&own) {
            return Err(3);
        }
        names.push(own);
    }
    Ok(names)
}

fn cohort_row(text: &[u8]) -> usize {
    let all = lines(text);
    let count = match sample_names(&all) {
        Ok(names) => names.len(),
        Err(row) => return row,
    };
    for (before, group) in all[count + 1..].chunks(11).enumerate() {
        let row = site_row(group, count, before);
        if row != 0 {
            return row;
        }
    }
    0
}

fn site_row(group: &Group, samples: usize, before: usize) -> usize {
    let read = || {
        Some((
            value(group, 0, "site").and_then(number)?,
            value(group, 1, "contig").and_then(name)?,
            value(group, 2, "start").and_then(number)?,
            value(group, 3, "end").and_then(number)?,
            value(group, 4, "ref")?,
            value(group, 5, "alt")?,
            or_missing(value(group, 6, "gq")?, number)?,
            or_missing(value(group, 7, "dp")?, number)?,
            or_missing(value(group, 8, "mindp")?, number)?,
            or_missing(value(group, 9, "ad")?, numbers)?,
            or_missing(value(group, 10, "pl")?, numbers)?,
        ))
    };
    let Some((sample, _, start, end, reference, alt, _, _, _, ad, pl)) = read() else { return 1 };
    if before >= 4096 {
        return 2;
    }
    if sample >= samples as u64 {
        return 3;
    }
    if start == 0 || end < start {
        return 4;
    }
    let alts: Vec<&[u8]> = alt.split(|&b| b == b',').collect();
    if !spelled(reference, &alts, 128, 8) {
        return 5;
    }
    if !alts.contains(&&b"<NON_REF>"[..]) {
        return 6;
    }
    let block = alts.len() == 1;
    if (block && reference.len() != 1) || (!block && end - start + 1 != reference.len() as u64) {
        return 7;
    }
    let n = alts.len() + 1;
    if pl.is_some_and(|pl| pl.len() != n * (n + 1) / 2) || ad.is_some_and(|ad| ad.len() > n) {
        return 8;
    }
    0
}

fn clip_group(group: &Group) -> bool {
    let read = || {
        value(group, 0, "contig").and_then(name)?;
        Some((value(group, 1, "start").and_then(number)?, value(group, 2, "end").and_then(number)?))
    };
    read().is_some_and(|(start, end)| 1 <= start && start <= end)
}

fn reference_group(group: &Group) -> bool {
    let read = || {
        value(group, 0, "contig").and_then(name)?;
        Some((value(group, 1, "first").and_then(number)?, value(group, 2, "bases")?))
    };
    read().is_some_and(|(first, bases)| {
        1 <= first && letters(bases, usize::MAX).is_some() && first + bases.len() as u64 - 1 <= MOST_NUMBER
    })
}
