//! Calls, combined lists and groups made from a seed, all inside the scope's domain.

use crate::cohort::{ClipSpan, Cohort, Lent, Site, Stretch};
use crate::domain;
use crate::list::{List, ListRecord, ListSample};
use crate::rng::{mix, Rng};
use crate::text::*;
use std::collections::BTreeSet;

/// What sort of cohort is made. Pairs are least and most; other numbers are percents or sizes.
pub struct Profile {
    pub name: &'static str,
    samples: (u64, u64),
    contigs: (u64, u64),
    sites: (u64, u64),
    /// Sites start within this many positions of a contig.
    span: u64,
    /// How likely blocks, SNPs, insertions, deletions and sites of several sorts of ALT are.
    kinds: [u64; 5],
    longest_ref: u64,
    most_alts: u64,
    longest_block: u64,
    /// Sites of a sample and contig follow each other, instead of lying anywhere.
    tracks: u64,
    missing: u64,
    short_ad: u64,
    extreme: u64,
    odd_names: u64,
    /// So many different values in the whole cohort; 0: all free.
    palette: u64,
    clip: u64,
    /// At most so many clip spans more, of up to 12 positions.
    short_spans: u64,
    reference: u64,
    /// Reference groups overlap and disagree where a letter is needed.
    patched: bool,
}

const PLAIN: Profile = Profile {
    name: "plain",
    samples: (2, 4),
    contigs: (1, 1),
    sites: (3, 9),
    span: 14,
    kinds: [40, 20, 10, 15, 15],
    longest_ref: 4,
    most_alts: 3,
    longest_block: 6,
    tracks: 50,
    missing: 10,
    short_ad: 15,
    extreme: 5,
    odd_names: 15,
    palette: 0,
    clip: 30,
    short_spans: 0,
    reference: 60,
    patched: false,
};

pub const PROFILES: [Profile; 20] = [
    Profile {
        name: "tiny",
        samples: (1, 2),
        sites: (1, 3),
        span: 5,
        ..PLAIN
    },
    PLAIN,
    Profile {
        name: "contigs",
        contigs: (2, 5),
        sites: (5, 14),
        odd_names: 80,
        span: 10,
        ..PLAIN
    },
    Profile {
        name: "joining",
        samples: (1, 3),
        sites: (6, 20),
        span: 24,
        kinds: [94, 3, 0, 3, 0],
        palette: 2,
        longest_block: 4,
        tracks: 90,
        missing: 30,
        ..PLAIN
    },
    Profile {
        name: "deletions",
        kinds: [20, 5, 5, 50, 20],
        longest_ref: 7,
        span: 8,
        ..PLAIN
    },
    Profile {
        name: "together",
        samples: (2, 6),
        sites: (4, 10),
        kinds: [15, 20, 20, 25, 20],
        span: 2,
        tracks: 0,
        ..PLAIN
    },
    Profile {
        name: "crowded",
        samples: (2, 5),
        sites: (3, 8),
        kinds: [5, 5, 5, 5, 80],
        most_alts: 7,
        span: 2,
        tracks: 0,
        ..PLAIN
    },
    Profile {
        name: "missing",
        missing: 50,
        short_ad: 60,
        ..PLAIN
    },
    Profile {
        name: "extreme",
        extreme: 70,
        ..PLAIN
    },
    Profile {
        name: "clipped",
        clip: 100,
        contigs: (1, 3),
        longest_block: 12,
        ..PLAIN
    },
    Profile {
        name: "referenced",
        reference: 100,
        kinds: [60, 5, 5, 25, 5],
        ..PLAIN
    },
    Profile {
        name: "overlapping",
        samples: (1, 3),
        sites: (5, 14),
        span: 8,
        tracks: 0,
        kinds: [30, 10, 10, 35, 15],
        ..PLAIN
    },
    Profile {
        name: "long",
        sites: (2, 5),
        longest_ref: 128,
        most_alts: 3,
        span: 3,
        kinds: [20, 10, 20, 25, 25],
        ..PLAIN
    },
    Profile {
        name: "broad",
        samples: (7, 40),
        sites: (10, 45),
        kinds: [60, 15, 5, 15, 5],
        longest_ref: 3,
        most_alts: 2,
        span: 5,
        ..PLAIN
    },
    Profile {
        name: "wide",
        samples: (64, 64),
        sites: (64, 100),
        span: 3,
        kinds: [70, 15, 5, 8, 2],
        longest_ref: 2,
        most_alts: 2,
        tracks: 0,
        odd_names: 50,
        ..PLAIN
    },
    Profile {
        name: "deep",
        samples: (2, 4),
        contigs: (1, 3),
        sites: (120, 250),
        span: 90,
        kinds: [70, 15, 5, 8, 2],
        tracks: 100,
        ..PLAIN
    },
    Profile {
        name: "largest",
        samples: (48, 64),
        contigs: (1, 6),
        sites: (3500, 4096),
        span: 120,
        kinds: [70, 15, 5, 8, 2],
        longest_ref: 3,
        most_alts: 2,
        tracks: 100,
        ..PLAIN
    },
    Profile {
        name: "patched",
        reference: 100,
        kinds: [60, 5, 5, 25, 5],
        patched: true,
        ..PLAIN
    },
    Profile {
        name: "windows",
        samples: (1, 3),
        contigs: (1, 2),
        sites: (30, 90),
        span: 3500,
        kinds: [35, 10, 5, 40, 10],
        longest_ref: 128,
        most_alts: 2,
        longest_block: 300,
        palette: 3,
        clip: 40,
        short_spans: 700,
        ..PLAIN
    },
    Profile {
        name: "nested",
        samples: (1, 3),
        sites: (6, 18),
        span: 6,
        kinds: [25, 20, 5, 45, 5],
        longest_ref: 8,
        longest_block: 9,
        most_alts: 2,
        tracks: 0,
        ..PLAIN
    },
];

pub fn profile(name: &str) -> Option<&'static Profile> {
    PROFILES.iter().find(|p| p.name == name)
}

/// A call of this sort from the seed. A draw outside the domain is thrown away, and so is a patched one that needs no reference letter.
pub fn lent(profile: &Profile, seed: u64) -> Lent {
    let mut rng = Rng::new(seed);
    loop {
        let drawn = draw(profile, &mut rng);
        if domain::check(&drawn).is_err() {
            continue;
        }
        if !profile.patched {
            return lowered(with_min_dp(drawn, seed), seed);
        }
        let more = patched(&drawn, rng.any());
        if more != drawn {
            return lowered(with_min_dp(more, seed), seed);
        }
    }
}

/// MIN_DPs of a call or a list: most are one of up to three, so that neighbouring blocks agree or do not; the others are the DP, or any number.
struct MinDps {
    rng: Rng,
    /// How many of a hundred are given.
    given: u64,
    usual: Vec<u32>,
}

impl MinDps {
    /// In half of all seeds there are some. Their numbers are drawn apart, so that nothing else of a draw depends on them.
    fn from(seed: u64) -> Option<MinDps> {
        let mut rng = Rng::new(mix(seed).rotate_left(31));
        if rng.below(2) == 1 {
            return None;
        }
        let given = *rng.pick(&[40, 80, 100, 100]);
        let usual = (0..rng.range(1, 3)).map(|_| quality(&mut rng, 15, 40)).collect();
        Some(MinDps { rng, given, usual })
    }

    fn draw(&mut self, dp: Option<u32>) -> Option<u32> {
        if !self.rng.chance(self.given) {
            return None;
        }
        match self.rng.weighted(&[75, 10, 15]) {
            0 => Some(*self.rng.pick(&self.usual)),
            1 => dp,
            _ => Some(quality(&mut self.rng, 20, 60)),
        }
    }
}

/// The same call, in half of all seeds with MIN_DPs.
fn with_min_dp(mut lent: Lent, seed: u64) -> Lent {
    if let Some(mut drawn) = MinDps::from(seed) {
        for site in &mut lent.cohort.sites {
            site.min_dp = drawn.draw(site.dp);
        }
    }
    lent
}

/// The same list, likewise.
fn list_with_min_dp(mut list: List, seed: u64) -> List {
    if let Some(mut drawn) = MinDps::from(seed) {
        for sample in list.records.iter_mut().flat_map(|r| &mut r.samples) {
            sample.min_dp = drawn.draw(sample.dp);
        }
    }
    list
}

/// The numbers that say which letters are small, in a third of all seeds. They are drawn apart, so that nothing else of a draw depends on them.
fn small_letters(seed: u64) -> Option<Rng> {
    let mut rng = Rng::new(mix(seed).rotate_left(17));
    (rng.below(3) == 0).then_some(rng)
}

/// An allele or bases with all letters small, none, or single ones. `<NON_REF>` and `*` have one spelling.
fn lower(rng: &mut Rng, spelling: &str) -> String {
    if spelling == NON_REF || spelling == SPAN_DEL {
        return spelling.to_string();
    }
    let percent = *rng.pick(&[0, 10, 50, 100]);
    let letter = |c: char| if rng.chance(percent) { c.to_ascii_lowercase() } else { c };
    spelling.chars().map(letter).collect()
}

/// The same call, in a third of all seeds with small letters in alleles and bases.
pub fn lowered(mut lent: Lent, seed: u64) -> Lent {
    if let Some(rng) = &mut small_letters(seed) {
        for site in &mut lent.cohort.sites {
            site.ref_allele = lower(rng, &site.ref_allele);
            site.alts.iter_mut().for_each(|alt| *alt = lower(rng, alt));
        }
        for group in lent.reference.iter_mut().flatten() {
            group.bases = lower(rng, &group.bases);
        }
    }
    lent
}

/// The same list, likewise.
fn lowered_list(mut list: List, seed: u64) -> List {
    if let Some(rng) = &mut small_letters(seed) {
        for record in &mut list.records {
            record.ref_allele = lower(rng, &record.ref_allele);
            record.alts.iter_mut().for_each(|alt| *alt = lower(rng, alt));
        }
    }
    list
}

/// The same alleles between commas, likewise.
fn lowered_alleles(alleles: String, seed: u64) -> String {
    match &mut small_letters(seed) {
        Some(rng) => alleles.split(',').map(|a| lower(rng, a)).collect::<Vec<_>>().join(","),
        None => alleles,
    }
}

/// The same call with up to four groups of any letters put anywhere among those of its reference, most of them over a position whose letter
/// is needed: then the groups that hold it disagree.
pub fn patched(lent: &Lent, seed: u64) -> Lent {
    let mut rng = Rng::new(seed);
    let mut more = lent.clone();
    let Some(reference) = &mut more.reference else {
        return more;
    };
    for contig in domain::contigs(lent) {
        let needed: Vec<u64> = domain::intervals(lent, contig)
            .iter()
            .filter(|i| i.needs_letter())
            .map(|i| i.start)
            .collect();
        if needed.is_empty() {
            continue;
        }
        for _ in 0..rng.range(1, 4) {
            let first = rng.pick(&needed).saturating_sub(rng.below(3)).max(1);
            let length = rng.range(1, 5).min(MAX_NUMBER - first + 1);
            let place = rng.below(reference.len() as u64 + 1) as usize;
            let bases = word(&mut rng, length);
            reference.insert(place, Stretch { contig: contig.to_string(), first, bases });
        }
    }
    more
}

fn draw(p: &Profile, rng: &mut Rng) -> Lent {
    let odd = rng.chance(p.odd_names);
    let contig_count = rng.range(p.contigs.0, p.contigs.1);
    let contigs = names(rng, contig_count, "c", odd);
    let sample_count = rng.range(p.samples.0, p.samples.1);
    let samples = names(rng, sample_count, "S", odd);
    let land = Land::new(p, rng, contigs);
    let mut lent = Lent {
        cohort: Cohort {
            sites: sites(p, rng, &land, samples.len()),
            samples,
        },
        clip: None,
        reference: None,
    };
    if rng.chance(p.clip) {
        let mut spans = clip(rng, &land);
        if p.short_spans > 0 {
            add_short_spans(p, rng, &land, &mut spans);
        }
        lent.clip = Some(spans);
    }
    if rng.chance(p.reference) {
        lent.reference = Some(reference(rng, &land, &lent));
    }
    lent
}

/// Names of 1 to 32 bytes, none twice; odd ones of any bytes that a name may have.
fn names(rng: &mut Rng, count: u64, start: &str, odd: bool) -> Vec<String> {
    let mut found: Vec<String> = Vec::new();
    while (found.len() as u64) < count {
        let name = if odd {
            odd_name(rng)
        } else {
            format!("{start}{}", found.len())
        };
        if !found.contains(&name) {
            found.push(name);
        }
    }
    found
}

fn odd_name(rng: &mut Rng) -> String {
    if rng.chance(25) {
        // Names that begin alike, to be told apart by length or a later byte.
        return rng
            .pick(&["c", "c1", "c10", "c2", "C", ".", "*", "~", "!", "c.1"])
            .to_string();
    }
    let length = *rng.pick(&[1, 2, 3, 5, 8, 32]);
    (0..length)
        .map(|_| loop {
            let b = rng.range(33, 126) as u8;
            if b != b'=' && b != b',' {
                return b as char;
            }
        })
        .collect()
}

/// Where sites lie and which letters stand there.
struct Land {
    contigs: Vec<String>,
    first: u64,
    last: u64,
    seed: u64,
    /// Overlapping REFs agree, as on a real reference.
    agreeing: bool,
    /// Most letters are A, so that neighbouring blocks are alike.
    monotone: bool,
}

impl Land {
    fn new(p: &Profile, rng: &mut Rng, contigs: Vec<String>) -> Land {
        let first = match rng.weighted(&[60, 20, 20]) {
            0 => rng.range(1, 20),
            1 => rng.range(1000, 2_000_000_000),
            _ => MAX_NUMBER - p.span + 1 - rng.below(3),
        };
        Land {
            contigs,
            first,
            last: (first + p.span - 1).min(MAX_NUMBER),
            seed: rng.any(),
            agreeing: rng.chance(70),
            monotone: p.palette > 0,
        }
    }

    /// REFs that start at one position are prefixes of one word.
    fn ref_letters(&self, contig: usize, start: u64, length: u64) -> String {
        (0..length)
            .map(|offset| {
                let own = if self.agreeing { 0 } else { start };
                self.letter(self.seed ^ own, contig, start + offset)
            })
            .collect()
    }

    fn letter(&self, seed: u64, contig: usize, position: u64) -> char {
        let random = mix(seed ^ mix(contig as u64) ^ mix(position));
        if self.monotone && !random.is_multiple_of(8) {
            'A'
        } else {
            letter(random >> 3)
        }
    }
}

fn letter(random: u64) -> char {
    b"ACGTACGTACGTACGTACGN"[(random % 20) as usize] as char
}

fn word(rng: &mut Rng, length: u64) -> String {
    (0..length).map(|_| letter(rng.any())).collect()
}

fn sites(p: &Profile, rng: &mut Rng, land: &Land, samples: usize) -> Vec<Site> {
    let most = rng.range(p.sites.0, p.sites.1) as usize;
    let mut sites = Vec::new();
    if rng.chance(p.tracks) {
        for contig in 0..land.contigs.len() {
            for sample in 0..samples {
                track(p, rng, land, contig, sample, &mut sites);
            }
        }
    } else {
        while sites.len() < most {
            let contig = rng.below(land.contigs.len() as u64) as usize;
            let sample = rng.below(samples as u64) as usize;
            let start = rng.range(land.first, land.last);
            sites.push(site(p, rng, land, contig, sample, start));
        }
    }
    match rng.weighted(&[35, 45, 20]) {
        0 => sites.sort_by_key(|s| s.sample),
        1 => sites.sort_by(|a, b| (&a.contig, a.start).cmp(&(&b.contig, b.start))),
        _ => rng.shuffle(&mut sites),
    }
    while sites.len() > most {
        let gone = rng.below(sites.len() as u64) as usize;
        sites.remove(gone);
    }
    sites
}

/// The sites of one sample on one contig, one behind the other, with gaps now and then.
fn track(
    p: &Profile,
    rng: &mut Rng,
    land: &Land,
    contig: usize,
    sample: usize,
    sites: &mut Vec<Site>,
) {
    let mut at = land.first + rng.below(3);
    while at <= land.last {
        if rng.chance(12) {
            at += rng.range(1, 3);
            continue;
        }
        let site = site(p, rng, land, contig, sample, at);
        at = site.end + 1;
        sites.push(site);
    }
}

fn site(p: &Profile, rng: &mut Rng, land: &Land, contig: usize, sample: usize, start: u64) -> Site {
    let room = MAX_NUMBER - start + 1;
    let (ref_allele, alts) = alleles(p, rng, land, contig, start, room);
    let end = if is_block(&alts) {
        start + rng.below(p.longest_block).min(room - 1)
    } else {
        start + ref_allele.len() as u64 - 1
    };
    let n = 1 + alts.len();
    // With a palette, values come from few seeds, so that neighbours are alike.
    let mut values = match p.palette {
        0 => Rng::new(rng.any()),
        kinds => Rng::new(mix(land.seed) + rng.below(kinds)),
    };
    let ad_count = if values.chance(p.short_ad) {
        values.range(1, n as u64) as usize
    } else {
        n
    };
    let mut made = Site {
        sample,
        contig: land.contigs[contig].clone(),
        start,
        end,
        ref_allele,
        alts,
        gq: present(p, &mut values, |p, r| quality(r, p.extreme, 99)),
        dp: present(p, &mut values, |p, r| quality(r, p.extreme, 60)),
        min_dp: None,
        ad: present(p, &mut values, |p, r| {
            (0..ad_count).map(|_| quality(r, p.extreme, 40)).collect()
        }),
        pl: present(p, &mut values, |p, r| pl(r, n, p.extreme)),
    };
    if p.palette > 0 && rng.chance(30) {
        change_one(&mut made, rng);
    }
    made
}

/// One of the values becomes another, so that a site differs from its like in that alone.
fn change_one(site: &mut Site, rng: &mut Rng) {
    let other = |v: Option<u32>| match v {
        Some(v) => v.checked_sub(1),
        None => Some(0),
    };
    match rng.below(4) {
        0 => site.gq = other(site.gq),
        1 => site.dp = other(site.dp),
        2 => change_a_number(&mut site.ad, rng),
        _ => change_a_number(&mut site.pl, rng),
    }
}

fn change_a_number(values: &mut Option<Vec<u32>>, rng: &mut Rng) {
    match values {
        Some(numbers) if rng.chance(80) => {
            let at = rng.below(numbers.len() as u64) as usize;
            numbers[at] ^= 1;
        }
        _ => *values = None,
    }
}

fn present<T>(p: &Profile, rng: &mut Rng, make: impl Fn(&Profile, &mut Rng) -> T) -> Option<T> {
    if rng.chance(p.missing) {
        None
    } else {
        Some(make(p, rng))
    }
}

fn quality(rng: &mut Rng, extreme: u64, usual: u64) -> u32 {
    if rng.chance(extreme) {
        *rng.pick(&[0, 1, 99, 100, 65_535, 65_536, 2_147_483_646, 2_147_483_647])
    } else {
        rng.range(0, usual) as u32
    }
}

/// PLs as a caller writes them, with ties, all alike, without a 0, or at the ends of the range.
pub fn pl(rng: &mut Rng, alleles: usize, extreme: u64) -> Vec<u32> {
    let count = pairs(alleles);
    let most = *rng.pick(&[1, 4, 60, 900]);
    let style = rng.weighted(&[60, 15, 10, 15]);
    let mut out: Vec<u32> = (0..count)
        .map(|_| match style {
            2 => 7,
            _ if rng.chance(extreme) => quality(rng, 100, 0),
            _ => rng.range(0, most) as u32,
        })
        .collect();
    match style {
        0 => out[rng.below(count as u64) as usize] = 0,
        1 => out
            .iter_mut()
            .for_each(|v| *v = (*v).saturating_add(5).min(MAX_NUMBER as u32)),
        _ => {}
    }
    out
}

fn alleles(
    p: &Profile,
    rng: &mut Rng,
    land: &Land,
    contig: usize,
    start: u64,
    room: u64,
) -> (String, Vec<String>) {
    let kind = rng.weighted(&p.kinds);
    let longest = p.longest_ref.min(room);
    let length = match kind {
        0 | 1 => 1,
        2 => rng.range(1, 2.min(longest)),
        3 => rng.range(2.min(longest), longest),
        _ => rng.range(1, longest),
    };
    let ref_allele = land.ref_letters(contig, start, length);
    if kind == 0 {
        return (ref_allele, vec![NON_REF.to_string()]);
    }
    let most = if kind == 4 {
        p.most_alts
    } else {
        p.most_alts.min(2)
    };
    let wanted = rng.range(1, most.min(6));
    let mut alts: Vec<String> = Vec::new();
    for _ in 0..wanted {
        let sort = if kind == 4 {
            rng.range(1, 5)
        } else {
            kind as u64
        };
        let alt = alt(rng, &ref_allele, sort, p.longest_ref);
        if alt != ref_allele && !alts.contains(&alt) {
            alts.push(alt);
        }
    }
    if alts.is_empty() || (alts.len() < 6 && rng.chance(10)) {
        let star = SPAN_DEL.to_string();
        if !alts.contains(&star) {
            alts.push(star);
        }
    }
    if rng.chance(15) {
        rng.shuffle(&mut alts);
    }
    let place = if rng.chance(85) {
        alts.len()
    } else {
        rng.below(alts.len() as u64 + 1) as usize
    };
    alts.insert(place, NON_REF.to_string());
    (ref_allele, alts)
}

fn alt(rng: &mut Rng, ref_allele: &str, sort: u64, longest: u64) -> String {
    let length = ref_allele.len() as u64;
    match sort {
        // A letter replaced.
        1 => {
            let at = rng.below(length) as usize;
            format!(
                "{}{}{}",
                &ref_allele[..at],
                word(rng, 1),
                &ref_allele[at + 1..]
            )
        }
        // An insertion, as far as an allele may be long.
        2 => {
            let more = rng.range(1, longest.clamp(1, 127)).min(128 - length);
            format!("{ref_allele}{}", word(rng, more))
        }
        // A deletion that leaves the front.
        3 if length > 1 => ref_allele[..rng.range(1, length - 1) as usize].to_string(),
        4 => SPAN_DEL.to_string(),
        _ => {
            let longest = longest.clamp(2, 128);
            let length = rng.range(1, longest);
            word(rng, length)
        }
    }
}

/// Many clip spans, in any order, that touch, overlap and leave gaps.
fn add_short_spans(p: &Profile, rng: &mut Rng, land: &Land, spans: &mut Vec<ClipSpan>) {
    for _ in 0..rng.below(p.short_spans + 1) {
        let start = rng.range(land.first, land.last);
        let end = (start + rng.below(12)).min(MAX_NUMBER);
        let contig = rng.pick(&land.contigs).clone();
        spans.push(ClipSpan { contig, start, end });
    }
}

/// Clip spans around the land: none at all, cutting blocks, single positions, other contigs.
fn clip(rng: &mut Rng, land: &Land) -> Vec<ClipSpan> {
    if rng.chance(8) {
        return Vec::new();
    }
    let mut spans = Vec::new();
    for _ in 0..rng.range(1, 4) {
        let contig = if rng.chance(8) {
            "elsewhere".to_string()
        } else {
            rng.pick(&land.contigs).clone()
        };
        let least = land.first.saturating_sub(3).max(1);
        let start = rng.range(least, land.last);
        let end = match rng.weighted(&[15, 70, 15]) {
            0 => start,
            1 => (start + rng.below(land.last - land.first + 4)).min(MAX_NUMBER),
            _ => MAX_NUMBER,
        };
        spans.push(ClipSpan { contig, start, end });
    }
    spans
}

/// Reference groups that hold every needed letter: over the whole land, or with gaps; now and
/// then groups that overlap, and disagree only where no letter is needed.
fn reference(rng: &mut Rng, land: &Land, lent: &Lent) -> Vec<Stretch> {
    let same_as_sites = rng.chance(60);
    let seed = if same_as_sites { land.seed } else { rng.any() };
    let at = |contig: usize, position: u64| land.letter(seed, contig, position);
    let whole = rng.chance(40);
    let spare = if rng.chance(70) { 3 } else { 1 };
    let mut stretches = Vec::new();
    for (number, contig) in land.contigs.iter().enumerate() {
        let needed: BTreeSet<u64> = domain::intervals(lent, contig)
            .iter()
            .filter(|i| i.needs_letter())
            .map(|i| i.start)
            .collect();
        let mut wanted: Vec<u64> = needed.iter().copied().collect();
        if whole {
            wanted.extend(land.first..=land.last);
            wanted.sort_unstable();
            wanted.dedup();
        }
        for (from, to) in runs(&wanted) {
            let from = from.saturating_sub(rng.below(spare)).max(1);
            let to = (to + rng.below(spare)).min(MAX_NUMBER);
            stretches.push(Stretch {
                contig: contig.clone(),
                first: from,
                bases: (from..=to).map(|p| at(number, p)).collect(),
            });
        }
        if rng.chance(30) {
            let from = rng.range(land.first, land.last);
            let to = (from + rng.below(5)).min(MAX_NUMBER);
            let bases = (from..=to)
                .map(|p| {
                    if needed.contains(&p) {
                        at(number, p)
                    } else {
                        letter(rng.any())
                    }
                })
                .collect();
            stretches.push(Stretch {
                contig: contig.clone(),
                first: from,
                bases,
            });
        }
    }
    if rng.chance(20) {
        rng.shuffle(&mut stretches);
    }
    stretches
}

/// First and last of each run of neighbouring positions.
fn runs(positions: &[u64]) -> Vec<(u64, u64)> {
    let mut found: Vec<(u64, u64)> = Vec::new();
    for &p in positions {
        match found.last_mut() {
            Some(run) if run.1 + 1 == p => run.1 = p,
            _ => found.push((p, p)),
        }
    }
    found
}

/// A combined list that no program need have written: GT need not follow from PL, `<NON_REF>`
/// may stand anywhere, letters may be small.
pub fn combined_list(seed: u64) -> List {
    let mut rng = Rng::new(seed);
    let odd = rng.chance(25);
    let samples = match rng.weighted(&[90, 4]) {
        0 => rng.range(1, 5),
        _ => 64,
    };
    let most = if samples > 5 { 2 } else { 6 };
    let mut list = List {
        samples: names(&mut rng, samples, "S", odd),
        records: Vec::new(),
    };
    let mut contigs = names(&mut rng, 3, "c", odd);
    contigs.sort();
    let extreme = *rng.pick(&[0, 0, 10, 60]);
    for contig in contigs {
        let mut at = *rng.pick(&[1, 1, 500, MAX_NUMBER - 40]);
        for _ in 0..rng.below(most) {
            at += rng.below(4);
            let record = list_record(&mut rng, &contig, at, samples as usize, extreme);
            if record.last() > MAX_NUMBER {
                break;
            }
            at = record.last() + 1;
            list.records.push(record);
        }
    }
    lowered_list(list_with_min_dp(list, seed), seed)
}

fn list_record(rng: &mut Rng, contig: &str, pos: u64, samples: usize, extreme: u64) -> ListRecord {
    let longest = *rng.pick(&[1, 2, 3, 5, 5, 255]);
    let length = rng.range(1, longest);
    let ref_allele = word(rng, length);
    let most = match rng.weighted(&[20, 70, 10]) {
        0 => 0,
        1 => rng.range(1, 3),
        _ => rng.range(4, 14),
    };
    let most = if samples > 5 { most.min(2) } else { most };
    let mut alts: Vec<String> = Vec::new();
    for _ in 0..most {
        let sort = rng.range(1, 5);
        let alt = alt_of_list(rng, &ref_allele, sort, longest.max(2));
        if alt != ref_allele && !alts.contains(&alt) {
            alts.push(alt);
        }
    }
    let place = if rng.chance(80) {
        alts.len()
    } else {
        rng.below(alts.len() as u64 + 1) as usize
    };
    alts.insert(place, NON_REF.to_string());
    let block = is_block(&alts) && ref_allele.len() == 1;
    let end = (block && rng.chance(60)).then(|| pos + rng.range(1, 9));
    let no_pl = rng.chance(10);
    let n = 1 + alts.len();
    ListRecord {
        contig: contig.to_string(),
        pos,
        end,
        ref_allele,
        alts,
        samples: (0..samples)
            .map(|_| list_sample(rng, n, no_pl, extreme))
            .collect(),
    }
}

fn alt_of_list(rng: &mut Rng, ref_allele: &str, sort: u64, longest: u64) -> String {
    match sort {
        2 => {
            let length = rng.range(1, longest);
            let mut grown = format!("{ref_allele}{}", word(rng, length));
            grown.truncate(255);
            grown
        }
        5 => {
            let length = rng.range(1, longest);
            word(rng, length)
        }
        _ => alt(rng, ref_allele, sort, 2),
    }
}

fn list_sample(rng: &mut Rng, n: usize, no_pl: bool, extreme: u64) -> ListSample {
    let pl = (!no_pl && !rng.chance(20)).then(|| pl(rng, n, extreme));
    let gt = match rng.weighted(&[50, 25, 25]) {
        0 => pl.as_ref().map(|pl| pair_at(first_least(pl))),
        1 => None,
        _ => Some(pair_at(rng.below(pairs(n) as u64) as usize)),
    };
    ListSample {
        gt,
        gq: (!rng.chance(15)).then(|| quality(rng, extreme, 99)),
        dp: (!rng.chance(15)).then(|| quality(rng, extreme, 60)),
        min_dp: None,
        ad: (!rng.chance(20)).then(|| (0..n).map(|_| quality(rng, extreme, 40)).collect()),
        pl,
    }
}

fn first_least(pl: &[u32]) -> usize {
    (0..pl.len()).min_by_key(|&i| pl[i]).unwrap_or(0)
}

fn pair_at(place: usize) -> (usize, usize) {
    let k = (0..).find(|k| pairs(k + 1) > place).unwrap_or(0);
    (place - pairs(k), k)
}

/// The input values of a group of this kind.
pub fn group(kind: &str, seed: u64) -> Vec<String> {
    let mut rng = Rng::new(seed);
    match kind {
        "trim" => vec![lowered_alleles(trim_alleles(&mut rng), seed)],
        "likelihoods" | "gq" => {
            let n = [1, 2, 3, 4, 5, 8, 16][rng.weighted(&[5, 30, 30, 15, 10, 8, 2])];
            let extreme = *rng.pick(&[0, 10, 80]);
            vec![comma(&pl(&mut rng, n, extreme))]
        }
        "subset" => subset_inputs(&mut rng),
        _ => {
            let mut inputs = unused_alts_inputs(&mut rng);
            inputs[0] = lowered_alleles(inputs[0].clone(), seed);
            inputs
        }
    }
}

/// Alleles with a common ending more often than not.
fn trim_alleles(rng: &mut Rng) -> String {
    let longest = *rng.pick(&[1, 2, 3, 3, 6, 20, 127]);
    let length = rng.below(longest + 1);
    let ending = word(rng, length);
    let wanted = *rng.pick(&[1, 2, 2, 2, 3, 3, 4, 8, 16]);
    let mut alleles: Vec<String> = Vec::new();
    while alleles.len() < wanted {
        let least = u64::from(ending.is_empty() || rng.chance(70));
        let length = rng.range(least, longest.max(2));
        let mut allele = word(rng, length) + &ending;
        if !alleles.is_empty() {
            match rng.weighted(&[85, 5, 10]) {
                0 => {}
                1 => allele = SPAN_DEL.to_string(),
                _ => allele = NON_REF.to_string(),
            }
        }
        if alleles.contains(&allele) {
            allele = word(rng, longest.max(3));
        }
        if !alleles.contains(&allele) {
            alleles.push(allele);
        }
    }
    comma(&alleles)
}

fn log10_value(rng: &mut Rng, style: usize) -> f64 {
    match style {
        0 => -(rng.below(3000) as f64) / 10.0,
        1 => -(rng.below(4) as f64) / 10.0,
        2 => *rng.pick(&[
            0.0,
            -0.0,
            2_147_483_648.0,
            -2_147_483_648.0,
            5e-324,
            -5e-324,
            f64::MIN_POSITIVE,
            0.1,
            -1e-300,
        ]),
        3 => (rng.any() as i64 as f64) / 4_294_967_296.0,
        _ => loop {
            let any = f64::from_bits(rng.any());
            if any.abs() <= 2_147_483_648.0 {
                return any;
            }
        },
    }
}

fn log10_values(rng: &mut Rng, count: usize) -> Vec<f64> {
    let style = rng.weighted(&[50, 15, 10, 15, 10]);
    (0..count).map(|_| log10_value(rng, style)).collect()
}

fn subset_inputs(rng: &mut Rng) -> Vec<String> {
    let n = [1, 2, 3, 4, 5, 6, 16][rng.weighted(&[5, 25, 35, 20, 10, 4, 1])];
    let keep: Vec<u64> = match rng.weighted(&[5, 10, 50, 35]) {
        0 => Vec::new(),
        1 => (0..n).collect(),
        2 => (0..n).filter(|&a| a == 0 || rng.chance(50)).collect(),
        _ => {
            let count = [1, 2, 3, 4, 5, 16][rng.weighted(&[20, 30, 25, 16, 8, 1])];
            (0..count).map(|_| rng.below(n)).collect()
        }
    };
    vec![
        crate::alleles::bits(&log10_values(rng, pairs(n as usize))),
        n.to_string(),
        dotted(&keep),
    ]
}

fn dotted<T: ToString>(values: &[T]) -> String {
    if values.is_empty() {
        ".".to_string()
    } else {
        comma(values)
    }
}

fn unused_alts_inputs(rng: &mut Rng) -> Vec<String> {
    let wanted = [0, 1, 2, 3, 4, 5, 15][rng.weighted(&[5, 25, 35, 20, 10, 4, 1])];
    let mut alts: Vec<String> = Vec::new();
    while alts.len() < wanted {
        let length = rng.range(1, 3);
        let alt = match rng.weighted(&[80, 10, 10]) {
            0 => word(rng, length),
            1 => SPAN_DEL.to_string(),
            _ => NON_REF.to_string(),
        };
        if !alts.contains(&alt) {
            alts.push(alt);
        }
    }
    let n = 1 + alts.len() as i64;
    let count = *rng.pick(&[0, 1, 2, 2, 2, 2, 2, 4]);
    let gt: Vec<i64> = (0..count)
        .map(|_| match rng.weighted(&[85, 8, 7]) {
            0 => rng.below(n as u64) as i64,
            1 => -1,
            _ => n + rng.below(3) as i64,
        })
        .collect();
    let last_kept = gt
        .iter()
        .copied()
        .filter(|&g| g < n)
        .max()
        .unwrap_or(0)
        .max(0);
    let all_assigned = (1..n).all(|a| gt.contains(&a));
    // Where all is copied, the Rust checks nothing.
    let loose = all_assigned && rng.chance(40);
    let gl = if loose {
        let count = rng.below(8) as usize;
        let mut values = log10_values(rng, count);
        values.extend(rng.pick(&[[f64::INFINITY], [f64::NEG_INFINITY], [1e300]]));
        values
    } else {
        log10_values(rng, pairs(n as usize))
    };
    let ad_count = match rng.weighted(&[80, 10, 10]) {
        0 => n as u64,
        1 => rng.range(last_kept as u64 + 1, n as u64),
        _ => n as u64 + rng.range(1, 2),
    };
    let ad: Vec<u32> = (0..ad_count).map(|_| quality(rng, 10, 40)).collect();
    vec![
        dotted(&alts),
        dotted(&gt),
        crate::alleles::bits(&gl),
        dotted(&ad),
    ]
}
