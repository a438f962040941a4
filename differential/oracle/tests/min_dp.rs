//! MIN_DP is one of the Rust's other FORMAT keys: there where the site has one, and nowhere else, in the texts and back again.

use oracle::cohort::{read_cohort, write_cohort, Lent};
use oracle::combine::{combine, loaded_gvcfs};
use oracle::generate;
use oracle::list::{read_combined, write_called, write_combined};
use oracle::record;
use oracle::text::{or_dot, Rules};

/// Blocks of one position, one behind the other from 5 on: sample, DP and MIN_DP of each.
fn blocks(rows: &[(usize, u64, &str, &str)]) -> Lent {
    let mut text = "samples=2\nsample=S\nsample=T\n".to_string();
    for (sample, start, dp, min_dp) in rows {
        text += &format!("site={sample}\ncontig=c\nstart={start}\nend={start}\nref=A\nalt=<NON_REF>\n");
        text += &format!("gq=.\ndp={dp}\nmindp={min_dp}\nad=.\npl=.\n");
    }
    let cohort = read_cohort(&text, Rules::On).expect("a cohort");
    assert_eq!(write_cohort(&cohort), text);
    Lent { cohort, clip: None, reference: None }
}

/// `pos`, `end` and both samples' MIN_DP of each record.
fn seen(lent: &Lent) -> Vec<String> {
    let list = combine(lent).expect("the Rust's list");
    assert_eq!(read_combined(&write_combined(&list), Rules::On).as_ref(), Ok(&list));
    assert!(!write_called(&list).contains("mindp"));
    let one = |i: usize, j: usize| or_dot(list.records[i].samples[j].min_dp);
    (0..list.records.len()).map(|i| format!("{} {} {} {}", list.records[i].pos, or_dot(list.records[i].end), one(i, 0), one(i, 1))).collect()
}

#[test]
fn other_is_empty_where_min_dp_is_missing() {
    let lent = blocks(&[(0, 5, "7", "."), (0, 6, "7", "0"), (1, 5, ".", "2147483647")]);
    let loaded = loaded_gvcfs(&lent.cohort);
    let other = |sample: usize, site: usize| loaded[sample].sites[site].sample.other.clone();
    assert!(other(0, 0).is_empty());
    assert_eq!(other(0, 1), [("MIN_DP".to_string(), "0".to_string())]);
    assert_eq!(other(1, 0), [("MIN_DP".to_string(), "2147483647".to_string())]);
}

#[test]
fn blocks_join_only_if_it_agrees() {
    assert_eq!(seen(&blocks(&[(0, 5, "7", "6"), (0, 6, "7", "6")])), ["5 6 6 ."]);
    assert_eq!(seen(&blocks(&[(0, 5, "7", "6"), (0, 6, "7", "7")])), ["5 . 6 .", "6 . 7 ."]);
    assert_eq!(seen(&blocks(&[(0, 5, "7", "."), (0, 6, "7", "7")])), ["5 . . .", "6 . 7 ."]);
    // of T nothing is known at 5, and at 6 it has no site
    assert_eq!(seen(&blocks(&[(0, 5, "7", "6"), (0, 6, "7", "6"), (1, 5, ".", ".")])), ["5 6 6 ."]);
    assert_eq!(seen(&blocks(&[(0, 5, "7", "6"), (0, 6, "7", "6"), (1, 5, ".", "0")])), ["5 . 6 0", "6 . 6 ."]);
}

/// In half of all draws there are MIN_DPs: they part blocks that would have joined, and nothing else of a list changes; called lists are the same.
#[test]
fn it_parts_blocks_and_changes_nothing_else() {
    let (mut given, mut parted) = (0, 0);
    for seed in 0..400 {
        let profile = &generate::PROFILES[seed as usize % 13];
        let lent = generate::lent(profile, seed);
        let mut without = lent.clone();
        without.cohort.sites.iter_mut().for_each(|s| s.min_dp = None);
        given += usize::from(lent != without);
        let (list, _) = record::combined(&lent).expect("a list");
        let (plain, _) = record::combined(&without).expect("a list");
        assert_eq!(list.records.len() - list.parted_by_min_dp(), plain.records.len());
        parted += list.parted_by_min_dp();
        assert_eq!(record::called(&list), record::called(&plain));
    }
    assert!((150..250).contains(&given) && parted > 0, "{given} with MIN_DP, {parted} records parted");
}
