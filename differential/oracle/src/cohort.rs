//! cohort.kv, clip.kv and reference.kv: read and written.

use crate::text::*;
use std::collections::BTreeMap;
use std::fs;
use std::path::Path;

pub use stand_ins::reference::Stretch;

#[derive(Debug, Clone, PartialEq, Eq)]
pub struct Site {
    pub sample: usize,
    pub contig: String,
    pub start: u64,
    pub end: u64,
    pub ref_allele: String,
    pub alts: Vec<String>,
    pub gq: Option<u32>,
    pub dp: Option<u32>,
    pub min_dp: Option<u32>,
    pub ad: Option<Vec<u32>>,
    pub pl: Option<Vec<u32>>,
}

impl Site {
    pub fn is_block(&self) -> bool {
        is_block(&self.alts)
    }

    pub fn covers(&self, position: u64) -> bool {
        self.start <= position && position <= self.end
    }

    fn capitals(&self) -> Site {
        let alts = self.alts.iter().map(|alt| capitals(alt)).collect();
        Site { ref_allele: capitals(&self.ref_allele), alts, ..self.clone() }
    }
}

#[derive(Debug, Clone, PartialEq, Eq, Default)]
pub struct Cohort {
    pub samples: Vec<String>,
    pub sites: Vec<Site>,
}

impl Cohort {
    /// Two sites of one sample share a position.
    pub fn overlaps_itself(&self) -> bool {
        let mut sites: Vec<&Site> = self.sites.iter().collect();
        sites.sort_by_key(|s| (s.sample, &s.contig, s.start));
        let mut last: Option<(usize, &str, u64)> = None;
        for s in sites {
            match last {
                Some((sample, contig, end)) if sample == s.sample && contig == s.contig && s.start <= end => return true,
                _ => last = Some((s.sample, &s.contig, s.end)),
            }
        }
        false
    }

    pub fn has_min_dp(&self) -> bool {
        self.sites.iter().any(|s| s.min_dp.is_some())
    }

    /// The same sites, those that start later first, equal starts in the file's order: where the Rust takes a sample's first site over a
    /// position, that is then the one with the greatest start, and of equal starts the first in the file.
    pub fn latest_first(&self) -> Cohort {
        let mut cohort = self.clone();
        cohort.sites.sort_by_key(|s| std::cmp::Reverse(s.start));
        cohort
    }

    /// The sites in the order in which the Rust is fed them: as they stand, or those that start later first where sites of a sample overlap.
    pub fn for_the_rust(&self) -> Cohort {
        if self.overlaps_itself() {
            self.latest_first()
        } else {
            self.clone()
        }
    }
}

#[derive(Debug, Clone, PartialEq, Eq)]
pub struct ClipSpan {
    pub contig: String,
    pub start: u64,
    pub end: u64,
}

/// What one call is lent.
#[derive(Debug, Clone, PartialEq, Eq, Default)]
pub struct Lent {
    pub cohort: Cohort,
    pub clip: Option<Vec<ClipSpan>>,
    pub reference: Option<Vec<Stretch>>,
}

impl Lent {
    /// Reads cohort.kv and, where they are there, clip.kv and reference.kv of a folder.
    pub fn read(folder: &Path, rules: Rules) -> Result<Lent, String> {
        let file = |name: &str| -> Result<Option<String>, String> {
            let path = folder.join(name);
            if !path.exists() {
                return Ok(None);
            }
            match fs::read_to_string(&path) {
                Ok(text) => Ok(Some(text)),
                Err(e) => Err(format!("{}: {e}", path.display())),
            }
        };
        let at = |name: &str, r: Refusal| format!("{}: {r}", folder.join(name).display());
        let cohort = file("cohort.kv")?.unwrap_or_default();
        let mut lent = Lent {
            cohort: read_cohort(&cohort, rules).map_err(|r| at("cohort.kv", r))?,
            clip: None,
            reference: None,
        };
        if let Some(text) = file("clip.kv")? {
            lent.clip = Some(read_clip(&text, rules).map_err(|r| at("clip.kv", r))?);
        }
        if let Some(text) = file("reference.kv")? {
            lent.reference = Some(read_reference(&text).map_err(|r| at("reference.kv", r))?);
        }
        Ok(lent)
    }

    /// The call as it is read: alleles and bases in capitals, names and contigs as they are.
    pub fn capitals(&self) -> Lent {
        let sites = self.cohort.sites.iter().map(Site::capitals).collect();
        let raised = |s: &Stretch| Stretch { bases: capitals(&s.bases), ..s.clone() };
        Lent {
            cohort: Cohort { sites, samples: self.cohort.samples.clone() },
            clip: self.clip.clone(),
            reference: self.reference.as_ref().map(|groups| groups.iter().map(raised).collect()),
        }
    }

    /// Some letter of an allele or of the bases is small.
    pub fn has_small_letters(&self) -> bool {
        *self != self.capitals()
    }

    /// The files of this call, by name.
    pub fn files(&self) -> Vec<(&'static str, String)> {
        let mut files = vec![("cohort.kv", write_cohort(&self.cohort))];
        if let Some(clip) = &self.clip {
            files.push(("clip.kv", write_clip(clip)));
        }
        if let Some(reference) = &self.reference {
            files.push(("reference.kv", write_reference(reference)));
        }
        files
    }
}

pub fn read_header(lines: &mut Lines, rules: Rules) -> Result<Vec<String>, Refusal> {
    let count = number(lines.value("samples")?)? as usize;
    if rules == Rules::On && !(1..=MAX_SAMPLES).contains(&count) {
        return refuse(2, format!("{count} samples"));
    }
    let mut samples: Vec<String> = Vec::new();
    for _ in 0..count {
        let sample = name(lines.value("sample")?)?;
        if rules == Rules::On && samples.contains(&sample) {
            return refuse(3, format!("sample `{sample}` stands twice"));
        }
        samples.push(sample);
    }
    Ok(samples)
}

pub fn read_cohort(text: &str, rules: Rules) -> Result<Cohort, Refusal> {
    let mut lines = Lines::new(text)?;
    let samples = read_header(&mut lines, rules)?;
    let mut sites = Vec::new();
    while !lines.ended() {
        let site = read_site(&mut lines, rules)?;
        if rules == Rules::Off {
            sites.push(site);
            continue;
        }
        if sites.len() == MAX_SITES {
            return refuse(2, "more than 4,096 sites");
        }
        check_site(&site, samples.len()).map_err(|r| Refusal {
            number: r.number,
            message: format!("site {} (from 0): {}", sites.len(), r.message),
        })?;
        sites.push(site);
    }
    Ok(Cohort { samples, sites })
}

fn read_site(lines: &mut Lines, rules: Rules) -> Result<Site, Refusal> {
    Ok(Site {
        sample: number(lines.value("site")?)? as usize,
        contig: name(lines.value("contig")?)?,
        start: position(lines.value("start")?, rules)?,
        end: position(lines.value("end")?, rules)?,
        ref_allele: lines.value("ref")?.to_string(),
        alts: split(lines.value("alt")?),
        gq: optional_number(lines.value("gq")?, rules)?,
        dp: optional_number(lines.value("dp")?, rules)?,
        min_dp: optional_number(lines.value("mindp")?, rules)?,
        ad: optional_numbers(lines.value("ad")?, rules)?,
        pl: optional_numbers(lines.value("pl")?, rules)?,
    })
}

pub fn split(value: &str) -> Vec<String> {
    value.split(',').map(str::to_string).collect()
}

/// The rules of one site group past its spelling: refusals 3 to 8.
pub fn check_site(site: &Site, samples: usize) -> Result<(), Refusal> {
    if site.sample >= samples {
        return refuse(3, format!("no sample {}", site.sample));
    }
    if site.start == 0 || site.end < site.start {
        return refuse(4, format!("positions {} to {}", site.start, site.end));
    }
    check_alleles(&site.ref_allele, &site.alts, 8, 128)?;
    if !site.alts.iter().any(|a| a == NON_REF) {
        return refuse(6, "<NON_REF> is absent");
    }
    if site.is_block() {
        if site.ref_allele.len() != 1 {
            return refuse(7, "a block has a one-letter REF");
        }
    } else if site.end != site.start + site.ref_allele.len() as u64 - 1 {
        return refuse(7, "a site that is no block ends with its REF");
    }
    let n = 1 + site.alts.len();
    if site.pl.as_ref().is_some_and(|pl| pl.len() != pairs(n)) {
        return refuse(8, "PL count");
    }
    if site.ad.as_ref().is_some_and(|ad| ad.len() > n) {
        return refuse(8, "AD count");
    }
    Ok(())
}

pub fn read_clip(text: &str, rules: Rules) -> Result<Vec<ClipSpan>, Refusal> {
    let mut lines = Lines::new(text).map_err(lent_fault)?;
    let mut spans = Vec::new();
    while !lines.ended() {
        spans.push(read_clip_span(&mut lines, rules).map_err(lent_fault)?);
    }
    Ok(spans)
}

fn read_clip_span(lines: &mut Lines, rules: Rules) -> Result<ClipSpan, Refusal> {
    let span = ClipSpan {
        contig: name(lines.value("contig")?)?,
        start: number(lines.value("start")?)?,
        end: number(lines.value("end")?)?,
    };
    if rules == Rules::On && (span.start == 0 || span.end < span.start) {
        return refuse(9, format!("span {} to {}", span.start, span.end));
    }
    Ok(span)
}

/// The reference with one letter for each position that some group holds, that of the first group in the file: stretches that do not
/// overlap, by contig and position. The Rust's lookup knows one sequence for each contig, so this is what it is fed.
pub fn flattened(reference: &[Stretch]) -> Vec<Stretch> {
    let mut contigs: BTreeMap<&str, BTreeMap<u64, Stretch>> = BTreeMap::new();
    for group in reference {
        let parts = contigs.entry(&group.contig).or_default();
        let behind = group.first + group.bases.len() as u64;
        let mut at = group.first;
        while at < behind {
            // a part that an earlier group gave, up to its end; else a part of this group, up to the next one
            let before = parts.range(..=at).next_back().map(|(_, p)| p.first + p.bases.len() as u64);
            if let Some(end) = before.filter(|&end| at < end) {
                at = end;
                continue;
            }
            let end = parts.range(at..).next().map_or(behind, |(&first, _)| first.min(behind));
            let bases = &group.bases[(at - group.first) as usize..(end - group.first) as usize];
            parts.insert(at, Stretch { contig: group.contig.clone(), first: at, bases: bases.to_string() });
            at = end;
        }
    }
    contigs.into_values().flat_map(BTreeMap::into_values).collect()
}

pub fn read_reference(text: &str) -> Result<Vec<Stretch>, Refusal> {
    let mut lines = Lines::new(text).map_err(lent_fault)?;
    let mut stretches = Vec::new();
    while !lines.ended() {
        stretches.push(read_stretch(&mut lines).map_err(lent_fault)?);
    }
    Ok(stretches)
}

fn read_stretch(lines: &mut Lines) -> Result<Stretch, Refusal> {
    let stretch = Stretch {
        contig: name(lines.value("contig")?)?,
        first: number(lines.value("first")?)?,
        bases: lines.value("bases")?.to_string(),
    };
    if stretch.first == 0 || !is_letters(&stretch.bases, MAX_TEXT) {
        return refuse(9, "reference group");
    }
    if stretch.first + stretch.bases.len() as u64 - 1 > MAX_NUMBER {
        return refuse(9, "the reference group goes past 2147483647");
    }
    Ok(stretch)
}

/// A fault in a clip or reference group is 9, but too long a text is 2.
fn lent_fault(r: Refusal) -> Refusal {
    Refusal {
        number: if r.number == 2 { 2 } else { 9 },
        message: r.message,
    }
}

pub fn write_header(samples: &[String]) -> String {
    let mut out = String::new();
    line(&mut out, "samples", samples.len().to_string());
    for sample in samples {
        line(&mut out, "sample", sample);
    }
    out
}

pub fn write_cohort(cohort: &Cohort) -> String {
    let mut out = write_header(&cohort.samples);
    for s in &cohort.sites {
        line(&mut out, "site", s.sample.to_string());
        line(&mut out, "contig", &s.contig);
        line(&mut out, "start", s.start.to_string());
        line(&mut out, "end", s.end.to_string());
        line(&mut out, "ref", &s.ref_allele);
        line(&mut out, "alt", comma(&s.alts));
        line(&mut out, "gq", or_dot(s.gq));
        line(&mut out, "dp", or_dot(s.dp));
        line(&mut out, "mindp", or_dot(s.min_dp));
        line(&mut out, "ad", comma_or_dot(&s.ad));
        line(&mut out, "pl", comma_or_dot(&s.pl));
    }
    out
}

pub fn write_clip(spans: &[ClipSpan]) -> String {
    let mut out = String::new();
    for s in spans {
        line(&mut out, "contig", &s.contig);
        line(&mut out, "start", s.start.to_string());
        line(&mut out, "end", s.end.to_string());
    }
    out
}

pub fn write_reference(stretches: &[Stretch]) -> String {
    let mut out = String::new();
    for s in stretches {
        line(&mut out, "contig", &s.contig);
        line(&mut out, "first", s.first.to_string());
        line(&mut out, "bases", &s.bases);
    }
    out
}
