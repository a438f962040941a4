//! The Rust's `combine_loaded_gvcfs` over the project's texts.

use crate::cohort::{flattened, Cohort, Lent, Site};
use crate::list::{List, ListRecord, ListSample};
use crate::text::{optional_number, Rules, MAX_NUMBER};
use gatk_haplotypecaller::combine_gvcfs::{combine_loaded_gvcfs, GvcfSite, LoadedGvcf, Span};
use stand_ins::io::vcf::{InfoValue, SampleData, VcfHeader, VcfRecord};
use std::collections::HashMap;
use std::path::{Path, PathBuf};

/// The Rust's records, or the message of the error that it gives back.
pub fn combine(lent: &Lent) -> Result<List, String> {
    let inputs = loaded_gvcfs(&lent.cohort);
    let clip = lent.clip.as_ref().map(|spans| {
        let mut map: HashMap<String, Vec<Span>> = HashMap::new();
        for s in spans {
            let span = Span {
                start: s.start,
                end: s.end,
            };
            map.entry(s.contig.clone()).or_default().push(span);
        }
        map
    });
    stand_ins::reference::lend(&flattened(lent.reference.as_deref().unwrap_or_default()));
    let path = lent.reference.as_ref().map(|_| Path::new("reference.kv"));
    let records = combine_loaded_gvcfs(&inputs, path, clip.as_ref())
        .map_err(|e| format!("the Rust gives an error: {e}"))?;
    let records: Result<Vec<ListRecord>, String> = records.iter().map(list_record).collect();
    Ok(List {
        samples: lent.cohort.samples.clone(),
        records: records?,
    })
}

/// One loaded gVCF for each sample, its sites in file order.
pub fn loaded_gvcfs(cohort: &Cohort) -> Vec<LoadedGvcf> {
    let mut inputs: Vec<LoadedGvcf> = cohort
        .samples
        .iter()
        .map(|name| LoadedGvcf {
            path: PathBuf::from(name),
            sample_name: name.clone(),
            header: VcfHeader::default(),
            sites: Vec::new(),
        })
        .collect();
    for site in &cohort.sites {
        // Without the scope's rules a site may name no sample; the Rust has no place for it.
        if let Some(input) = inputs.get_mut(site.sample) {
            input.sites.push(gvcf_site(site));
        }
    }
    inputs
}

fn gvcf_site(site: &Site) -> GvcfSite {
    GvcfSite {
        contig: site.contig.clone(),
        start: site.start,
        end: site.end,
        ref_allele: site.ref_allele.clone(),
        alts: site.alts.clone(),
        sample: SampleData {
            gt: None,
            gq: site.gq.map(f64::from),
            dp: site.dp,
            ad: site.ad.clone(),
            pl: site.pl.clone(),
            other: other_of(site.min_dp),
        },
        source: String::new(),
    }
}

/// The Rust has no MIN_DP: it is one of the other FORMAT keys, which stand where they are given.
pub fn other_of(min_dp: Option<u32>) -> Vec<(String, String)> {
    min_dp.map(|v| ("MIN_DP".to_string(), v.to_string())).into_iter().collect()
}

fn min_dp_of(other: &[(String, String)]) -> Result<Option<u32>, String> {
    match other {
        [] => Ok(None),
        [(key, value)] if key == "MIN_DP" => match optional_number(value, Rules::On) {
            Ok(Some(v)) => Ok(Some(v)),
            _ => Err(format!("the Rust gives MIN_DP {value}")),
        },
        _ => Err(format!("the Rust gives other values {other:?}")),
    }
}

fn list_record(record: &VcfRecord) -> Result<ListRecord, String> {
    let samples: Result<Vec<ListSample>, String> = record.samples.iter().map(list_sample).collect();
    Ok(ListRecord {
        contig: record.chromosome.clone(),
        pos: record.position,
        end: end_of(record)?,
        ref_allele: record.reference.clone(),
        alts: record.alternate.clone(),
        samples: samples?,
    })
}

fn end_of(record: &VcfRecord) -> Result<Option<u64>, String> {
    match record.info.as_slice() {
        [] => Ok(None),
        [InfoValue::Integer(id, values)] if id == "END" && values.len() == 1 => {
            match u64::try_from(values[0]) {
                Ok(end) => Ok(Some(end)),
                Err(_) => Err(format!("the Rust gives END {}", values[0])),
            }
        }
        other => Err(format!("the Rust gives INFO {other:?}")),
    }
}

pub fn list_sample(sample: &SampleData) -> Result<ListSample, String> {
    let gt = match &sample.gt {
        None => None,
        Some(g) => match g.alleles.as_slice() {
            &[j, k] if 0 <= j && j <= k && !g.phased => Some((j as usize, k as usize)),
            other => return Err(format!("the Rust gives GT {other:?}")),
        },
    };
    Ok(ListSample {
        gt,
        gq: whole_number(sample.gq)?,
        dp: sample.dp,
        min_dp: min_dp_of(&sample.other)?,
        ad: sample.ad.clone(),
        pl: sample.pl.clone(),
    })
}

/// GQ is an f64 in the Rust; here it is always a whole number.
fn whole_number(gq: Option<f64>) -> Result<Option<u32>, String> {
    match gq {
        None => Ok(None),
        Some(v) if v.fract() == 0.0 && (0.0..=MAX_NUMBER as f64).contains(&v) => Ok(Some(v as u32)),
        Some(v) => Err(format!("the Rust gives GQ {v}")),
    }
}
