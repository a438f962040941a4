//! The Rust's dropped PL, AD and GQ over a combined list.

use crate::combine::{list_sample, other_of};
use crate::list::{List, ListRecord, ListSample};
use gatk_haplotypecaller::genotype_gvcfs::accessors::{
    alleles_without_non_ref, remap_ad, remap_pl_drop_alleles,
};
use gatk_haplotypecaller::genotype_gvcfs::{genotype_gvcf_records, GenotypeGvcfsConfig};
use gatk_haplotypecaller::genotyping::gq_phred_from_pl;
use stand_ins::io::vcf::{SampleData, VcfRecord};

pub fn call(list: &List) -> List {
    List {
        samples: list.samples.clone(),
        records: list.records.iter().filter_map(call_record).collect(),
    }
}

/// The record without `<NON_REF>`, or none where no ALT is left or no sample has PL.
fn call_record(record: &ListRecord) -> Option<ListRecord> {
    let (keep, allele_map) = alleles_without_non_ref(&record.ref_allele, &record.alts);
    if keep.len() < 2 || record.samples.iter().all(|s| s.pl.is_none()) {
        return None;
    }
    let old_n = 1 + record.alts.len();
    let samples = record
        .samples
        .iter()
        .map(|s| {
            let pl = s
                .pl
                .as_ref()
                .and_then(|pl| remap_pl_drop_alleles(&signed(pl), old_n, &allele_map, keep.len()));
            ListSample {
                gt: None,
                gq: pl.as_ref().map(|pl| gq_phred_from_pl(pl) as u32),
                dp: s.dp,
                min_dp: None,
                ad: s
                    .ad
                    .as_ref()
                    .map(|ad| remap_ad(ad, &allele_map, keep.len())),
                pl: pl.map(|pl| pl.iter().map(|&p| p as u32).collect()),
            }
        })
        .collect();
    Some(ListRecord {
        contig: record.contig.clone(),
        pos: record.pos,
        end: None,
        ref_allele: keep[0].clone(),
        alts: keep[1..].to_vec(),
        samples,
    })
}

pub fn signed(values: &[u32]) -> Vec<i32> {
    values.iter().map(|&v| v as i32).collect()
}

/// The same list from the Rust's whole `genotype_gvcf_records`, with no record left out for its
/// QUAL; its GT is struck. Not for lists with sums of depths past i32 (see `sums_fit`).
pub fn call_by_the_whole(list: &List) -> Result<List, String> {
    let config = GenotypeGvcfsConfig {
        stand_call_conf: f64::NEG_INFINITY,
        include_non_variant_sites: true,
        clip: None,
    };
    let mut called = List {
        samples: list.samples.clone(),
        records: Vec::new(),
    };
    for record in &list.records {
        let given = vcf_record(record);
        let sites = genotype_gvcf_records(&[given], &list.samples, &config)
            .map_err(|e| format!("the Rust gives an error: {e}"))?;
        for site in sites {
            let samples: Result<Vec<ListSample>, String> =
                site.record.samples.iter().map(list_sample).collect();
            called.records.push(ListRecord {
                contig: site.record.chromosome,
                pos: site.record.position,
                end: None,
                ref_allele: site.record.reference,
                alts: site.record.alternate,
                samples: samples?
                    .into_iter()
                    .map(|s| ListSample { gt: None, ..s })
                    .collect(),
            });
        }
    }
    Ok(called)
}

/// Contig, position and QUAL of the records that the Rust's GenotypeGVCFs keeps by default.
pub fn genotype_by_default(list: &List) -> Result<String, String> {
    let records: Vec<VcfRecord> = list.records.iter().map(vcf_record).collect();
    let config = GenotypeGvcfsConfig::with_defaults();
    let sites = genotype_gvcf_records(&records, &list.samples, &config)
        .map_err(|e| format!("the Rust gives an error: {e}"))?;
    let mut out = format!("{} of {} records kept\n", sites.len(), records.len());
    for site in sites {
        let (contig, position) = (site.record.chromosome, site.record.position);
        out.push_str(&format!("{contig} {position} QUAL {:.2}\n", site.qual));
    }
    Ok(out)
}

/// The list with DP and AD struck.
pub fn without_depths(list: &List) -> List {
    let mut struck = list.clone();
    for s in struck.records.iter_mut().flat_map(|r| &mut r.samples) {
        s.dp = None;
        s.ad = None;
    }
    struck
}

/// Whether the sums of depths that the Rust makes for INFO stay within i32.
pub fn sums_fit(list: &List) -> bool {
    list.records.iter().all(|r| {
        let dp: u64 = r.samples.iter().filter_map(|s| s.dp).map(u64::from).sum();
        let ad: u64 = r
            .samples
            .iter()
            .flat_map(|s| s.ad.iter().flatten())
            .map(|&d| u64::from(d))
            .sum();
        dp + ad <= i32::MAX as u64
    })
}

fn vcf_record(record: &ListRecord) -> VcfRecord {
    VcfRecord {
        chromosome: record.contig.clone(),
        position: record.pos,
        id: ".".to_string(),
        reference: record.ref_allele.clone(),
        alternate: record.alts.clone(),
        quality: None,
        filter: vec![".".to_string()],
        info: Vec::new(),
        format: Vec::new(),
        samples: record
            .samples
            .iter()
            .map(|s| SampleData {
                gt: None,
                gq: s.gq.map(f64::from),
                dp: s.dp,
                ad: s.ad.clone(),
                pl: s.pl.clone(),
                other: other_of(s.min_dp),
            })
            .collect(),
    }
}
