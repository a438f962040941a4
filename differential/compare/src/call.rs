//! The Rust's dropped PL, AD and GQ against the library's `call`, on generated combined lists.

use crate::ours::Library;
use oracle::list::write_combined;
use oracle::rng::mix;
use oracle::{generate, record};

/// Each list is called with just enough output, and with one byte too few.
pub fn compare(seed: u64, count: u64) -> Result<String, String> {
    let mut library = Library::new();
    let (mut records, mut bytes, mut small, mut min_dps) = (0, 0, 0, 0);
    for i in 0..count {
        let list = generate::combined_list(mix(seed ^ mix(i)));
        let told = |what: &str| format!("seed {seed}, list {i}: {what}");
        let expected = record::called(&list).map_err(|e| told(&e))?;
        let text = write_combined(&list);
        let n = expected.len();
        if library.call(text.as_bytes(), n) != Ok(expected.into_bytes()) {
            return Err(told("another called list"));
        }
        if library.call(text.as_bytes(), n - 1) != Err(14) {
            return Err(told("not 14 with one byte too few"));
        }
        records += list.records.len();
        bytes += n;
        small += u64::from(list != list.capitals());
        min_dps += u64::from(list.records.iter().flat_map(|r| &r.samples).any(|s| s.min_dp.is_some()));
    }
    Ok(format!(
        "{count} combined lists, {small} with small letters, {min_dps} with MIN_DP, {records} records, {bytes} bytes of called lists: no difference\n"
    ))
}
