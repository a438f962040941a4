//! The combined list and the called list: read and written.

use crate::cohort::{read_header, split, write_header};
use crate::text::*;

#[derive(Debug, Clone, PartialEq, Eq, Default)]
pub struct ListSample {
    pub gt: Option<(usize, usize)>,
    pub gq: Option<u32>,
    pub dp: Option<u32>,
    pub min_dp: Option<u32>,
    pub ad: Option<Vec<u32>>,
    pub pl: Option<Vec<u32>>,
}

#[derive(Debug, Clone, PartialEq, Eq)]
pub struct ListRecord {
    pub contig: String,
    pub pos: u64,
    pub end: Option<u64>,
    pub ref_allele: String,
    pub alts: Vec<String>,
    pub samples: Vec<ListSample>,
}

impl ListRecord {
    pub fn last(&self) -> u64 {
        self.end.unwrap_or(self.pos)
    }
}

#[derive(Debug, Clone, PartialEq, Eq, Default)]
pub struct List {
    pub samples: Vec<String>,
    pub records: Vec<ListRecord>,
}

impl List {
    /// How many blocks agree with the block before them, which they touch, in all but MIN_DP.
    pub fn parted_by_min_dp(&self) -> usize {
        let values = |r: &ListRecord| r.samples.iter().map(|s| ListSample { min_dp: None, ..s.clone() }).collect::<Vec<_>>();
        let alike = |a: &ListRecord, b: &ListRecord| {
            let touch = (&a.contig, a.last() + 1) == (&b.contig, b.pos) && a.ref_allele == b.ref_allele;
            touch && a.ref_allele.len() == 1 && is_block(&a.alts) && is_block(&b.alts) && values(a) == values(b)
        };
        self.records.windows(2).filter(|w| alike(&w[0], &w[1])).count()
    }

    /// The list as it is read: alleles in capitals.
    pub fn capitals(&self) -> List {
        let raised = |r: &ListRecord| ListRecord {
            ref_allele: capitals(&r.ref_allele),
            alts: r.alts.iter().map(|alt| capitals(alt)).collect(),
            ..r.clone()
        };
        List { samples: self.samples.clone(), records: self.records.iter().map(raised).collect() }
    }
}

pub fn write_combined(list: &List) -> String {
    write_list(list, true)
}

/// The lines of the combined list without `end`, `gt` and `mindp`.
pub fn write_called(list: &List) -> String {
    write_list(list, false)
}

fn write_list(list: &List, combined: bool) -> String {
    let mut out = write_header(&list.samples);
    line(&mut out, "records", list.records.len().to_string());
    for r in &list.records {
        line(&mut out, "contig", &r.contig);
        line(&mut out, "pos", r.pos.to_string());
        if combined {
            line(&mut out, "end", or_dot(r.end));
        }
        line(&mut out, "ref", &r.ref_allele);
        line(&mut out, "alt", comma(&r.alts));
        for s in &r.samples {
            if combined {
                line(
                    &mut out,
                    "gt",
                    or_dot(s.gt.map(|(j, k)| format!("{j}/{k}"))),
                );
            }
            line(&mut out, "gq", or_dot(s.gq));
            line(&mut out, "dp", or_dot(s.dp));
            if combined {
                line(&mut out, "mindp", or_dot(s.min_dp));
            }
            line(&mut out, "ad", comma_or_dot(&s.ad));
            line(&mut out, "pl", comma_or_dot(&s.pl));
        }
    }
    out
}

/// Reads a combined list back, with the scope's rules for it.
pub fn read_combined(text: &str, rules: Rules) -> Result<List, Refusal> {
    let mut lines = Lines::new(text)?;
    let samples = read_header(&mut lines, rules)?;
    let records = number(lines.value("records")?)?;
    let mut list = List {
        samples,
        records: Vec::new(),
    };
    for _ in 0..records {
        let record = read_record(&mut lines, list.samples.len(), rules)?;
        if rules == Rules::Off {
            list.records.push(record);
            continue;
        }
        check_record(&record, list.records.last()).map_err(|r| Refusal {
            number: r.number,
            message: format!("record {} (from 0): {}", list.records.len(), r.message),
        })?;
        list.records.push(record);
    }
    if !lines.ended() {
        return refuse(1, "a group past the records figure");
    }
    Ok(list)
}

fn read_record(lines: &mut Lines, samples: usize, rules: Rules) -> Result<ListRecord, Refusal> {
    let contig = name(lines.value("contig")?)?;
    let pos = number(lines.value("pos")?)?;
    let end = optional_number(lines.value("end")?, Rules::On)?.map(u64::from);
    let ref_allele = lines.value("ref")?.to_string();
    let alts = split(lines.value("alt")?);
    let mut record = ListRecord {
        contig,
        pos,
        end,
        ref_allele,
        alts,
        samples: Vec::with_capacity(samples),
    };
    for _ in 0..samples {
        record.samples.push(ListSample {
            gt: genotype(lines.value("gt")?, 1 + record.alts.len())?,
            gq: optional_number(lines.value("gq")?, rules)?,
            dp: optional_number(lines.value("dp")?, rules)?,
            min_dp: optional_number(lines.value("mindp")?, rules)?,
            ad: optional_numbers(lines.value("ad")?, rules)?,
            pl: optional_numbers(lines.value("pl")?, rules)?,
        });
    }
    Ok(record)
}

fn genotype(value: &str, alleles: usize) -> Result<Option<(usize, usize)>, Refusal> {
    if value == "." {
        return Ok(None);
    }
    if let Some((j, k)) = value.split_once('/') {
        let (j, k) = (number(j)? as usize, number(k)? as usize);
        if j <= k && k < alleles {
            return Ok(Some((j, k)));
        }
    }
    refuse(1, format!("`{value}` is not a GT"))
}

fn check_record(record: &ListRecord, before: Option<&ListRecord>) -> Result<(), Refusal> {
    if record.pos == 0 || record.end.is_some_and(|end| end <= record.pos) {
        return refuse(4, "position");
    }
    if let Some(before) = before {
        let in_order = (&before.contig, before.last()) < (&record.contig, record.pos);
        if !in_order {
            return refuse(4, "records out of order");
        }
    }
    check_alleles(&record.ref_allele, &record.alts, MAX_MERGED_ALLELES, 255)?;
    if !record.alts.iter().any(|a| a == NON_REF) {
        return refuse(6, "<NON_REF> is absent");
    }
    let block = is_block(&record.alts) && record.ref_allele.len() == 1;
    if record.end.is_some() && !block {
        return refuse(7, "end outside a block");
    }
    let n = 1 + record.alts.len();
    for s in &record.samples {
        if s.pl.as_ref().is_some_and(|pl| pl.len() != pairs(n)) {
            return refuse(8, "PL count");
        }
        if s.ad.as_ref().is_some_and(|ad| ad.len() != n) {
            return refuse(8, "AD count");
        }
    }
    Ok(())
}
