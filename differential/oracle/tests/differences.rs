//! Each input `differences/row-NN-..` is refused with NN by the oracle's own check; and what the
//! Rust does with other FORMAT keys, of which the texts hold MIN_DP, and with a GQ that they cannot hold.

use gatk_haplotypecaller::combine_gvcfs::{combine_loaded_gvcfs, GvcfSite, LoadedGvcf};
use oracle::cohort::Lent;
use oracle::domain;
use oracle::record::sorted_folders;
use oracle::text::Rules;
use stand_ins::io::vcf::{SampleData, VcfHeader, VcfRecord};
use std::path::Path;

fn refusal(folder: &Path) -> Option<String> {
    match Lent::read(folder, Rules::On) {
        Err(message) => Some(message),
        Ok(lent) => domain::check(&lent).err().map(|r| r.to_string()),
    }
}

#[test]
fn each_row_is_refused_with_its_number() {
    let inputs = Path::new(env!("CARGO_MANIFEST_DIR")).join("../differences");
    let mut rows = 0;
    for folder in sorted_folders(&inputs).expect("differences") {
        let name = folder
            .file_name()
            .expect("a name")
            .to_string_lossy()
            .to_string();
        let Some(rest) = name.strip_prefix("row-") else {
            continue;
        };
        let number: u8 = rest[..2].parse().expect("a row number");
        let message = refusal(&folder).expect("refused");
        assert!(
            message.ends_with(&format!("(refusal {number})")),
            "{name}: {message}"
        );
        rows += 1;
    }
    assert!(rows > 0);
}

fn block(start: u64, end: u64, gq: f64, min_dp: &str) -> GvcfSite {
    GvcfSite {
        contig: "c".to_string(),
        start,
        end,
        ref_allele: "A".to_string(),
        alts: vec!["<NON_REF>".to_string()],
        sample: SampleData {
            gt: None,
            gq: Some(gq),
            dp: None,
            ad: None,
            pl: None,
            other: vec![("MIN_DP".to_string(), min_dp.to_string())],
        },
        source: String::new(),
    }
}

fn combine_one(sites: Vec<GvcfSite>) -> Vec<VcfRecord> {
    let input = LoadedGvcf {
        path: "S".into(),
        sample_name: "S".to_string(),
        header: VcfHeader::default(),
        sites,
    };
    combine_loaded_gvcfs(&[input], None, None).expect("the Rust's records")
}

#[test]
fn the_rust_carries_other_format_keys_and_joins_no_blocks_that_differ_in_them() {
    let alike = combine_one(vec![block(1, 2, 30.0, "5"), block(3, 4, 30.0, "5")]);
    assert_eq!(alike.len(), 1);
    let other = combine_one(vec![block(1, 2, 30.0, "5"), block(3, 4, 30.0, "6")]);
    assert_eq!(other.len(), 2);
    let carried = &other[1].samples[0].other;
    assert_eq!(carried, &[("MIN_DP".to_string(), "6".to_string())]);
}

#[test]
fn the_rust_carries_a_gq_that_is_no_whole_number() {
    let records = combine_one(vec![block(1, 2, 30.5, "5")]);
    assert_eq!(records[0].samples[0].gq, Some(30.5));
}
