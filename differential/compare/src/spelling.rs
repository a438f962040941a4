//! Letters of either case, on purpose (Note 6): calls in which the case of a letter alone would make a row come or go, part an allele or a block,
//! if letters were compared as they are spelled. Each is also called with all letters small, and with all of them capitals: the answer is the same.

use crate::bad;
use crate::combine::{self, Texts};
use crate::looks::{self, Tally};
use crate::ours::Library;
use oracle::cohort::{ClipSpan, Cohort, Lent, Site, Stretch};
use oracle::domain;
use oracle::list::read_combined;
use oracle::text::{comma, is_letters, or_dot, pairs, Rules};
use wintabol::Refused;

/// What it shows, sites (sample, contig, start, end, ref, alt), clip spans and reference groups where they are lent, and the answer from reading the
/// documents: `pos end ref alt` of each record, or the row.
struct Case {
    shows: &'static str,
    sites: &'static [&'static str],
    clip: &'static [&'static str],
    reference: &'static [&'static str],
    answer: Result<&'static [&'static str], usize>,
}

const fn case(shows: &'static str, sites: &'static [&'static str], answer: Result<&'static [&'static str], usize>) -> Case {
    Case { shows, sites, clip: &[], reference: &[], answer }
}

const CASES: &[Case] = &[
    case("REF a and ALT g", &["0 c 10 10 a g,<NON_REF>"], Ok(&["10 . A G,<NON_REF>"])),
    case("5 by G and g", &["0 c 10 10 A G,g,<NON_REF>"], Err(5)),
    case("5 by g and G apart", &["0 c 10 10 A g,T,<NON_REF>,G"], Err(5)),
    case("5 by REF a and ALT A", &["0 c 10 10 a A,<NON_REF>"], Err(5)),
    case("5 by REF aCg and ALT AcG", &["0 c 10 12 aCg T,AcG,<NON_REF>"], Err(5)),
    case("5 by <non_ref>", &["0 c 10 10 A g,<non_ref>"], Err(5)),
    case("5 by <NOn_REF>, whose letters alone would be right", &["0 c 10 10 A <NOn_REF>"], Err(5)),
    case("5 by <NOn_REF> beside <NON_REF>", &["0 c 10 10 A <NOn_REF>,<NON_REF>"], Err(5)),
    case("5 by another small letter", &["0 c 10 10 A r,<NON_REF>"], Err(5)),
    case("5 by REF u", &["0 c 10 10 u <NON_REF>"], Err(5)),
    case("5 before 6", &["0 c 10 10 a A,g"], Err(5)),
    case("6 by small letters alone", &["0 c 10 10 a g"], Err(6)),
    case("7 by a block of two small letters", &["0 c 10 11 ac <NON_REF>"], Err(7)),
    case(
        "12 does not come: at, a and At",
        &["0 c 10 11 at A,<NON_REF>", "1 c 10 10 a g,<NON_REF>", "2 c 10 11 At A,<NON_REF>"],
        Ok(&["10 . AT A,GT,<NON_REF>", "11 . T *,<NON_REF>"]),
    ),
    case(
        "12 does not come: the longest is small and stands last",
        &["0 c 10 10 N <NON_REF>", "1 c 10 10 n <NON_REF>", "2 c 10 12 nGa N,<NON_REF>"],
        Ok(&["10 . NGA N,<NON_REF>", "11 . G *,<NON_REF>", "12 . A *,<NON_REF>"]),
    ),
    case("12 by at and AG", &["0 c 10 11 at A,<NON_REF>", "1 c 10 11 AG T,<NON_REF>"], Err(12)),
    case("12 by a and C, of one length", &["0 c 10 10 a <NON_REF>", "1 c 10 10 C <NON_REF>"], Err(12)),
    case(
        "13 does not come: fourteen ALTs, five of them in either case",
        &[
            "0 c 10 10 A C,G,T,AA,AC,<NON_REF>",
            "1 c 10 10 a c,g,t,AG,aT,Ca,<NON_REF>",
            "2 c 10 10 A aa,aC,cc,CG,cT,GA,<NON_REF>",
            "3 c 10 10 A Gc,gG,<NON_REF>",
        ],
        Ok(&["10 . A GC,GG,AA,AC,CC,CG,CT,GA,C,G,T,AG,AT,CA,<NON_REF>"]),
    ),
    case(
        "13 by fifteen ALTs in any case",
        &["0 c 10 10 A C,g,T,aA,AC,<NON_REF>", "1 c 10 10 a Ag,aT,Ca,CC,cG,<NON_REF>", "2 c 10 10 A cT,GA,Gc,gG,tt,<NON_REF>"],
        Err(13),
    ),
    case(
        "g and G are one allele, as lengthened too",
        &["0 c 10 10 A g,<NON_REF>", "1 c 10 11 aT GT,a,<NON_REF>"],
        Ok(&["10 . AT GT,A,<NON_REF>", "11 . T *,<NON_REF>"]),
    ),
    case(
        "small ALTs that are the front of REF",
        &["0 c 10 12 ACG a,ac,<NON_REF>"],
        Ok(&["10 . ACG A,AC,<NON_REF>", "11 . C *,<NON_REF>", "12 . G *,<NON_REF>"]),
    ),
    case("blocks that differ only in case join", &["0 c 10 12 a <NON_REF>", "0 c 13 13 A <NON_REF>", "0 c 14 19 a <NON_REF>"], Ok(&["10 19 A <NON_REF>"])),
    case("blocks of a and c do not", &["0 c 10 12 a <NON_REF>", "0 c 13 13 c <NON_REF>"], Ok(&["10 12 A <NON_REF>", "13 . C <NON_REF>"])),
    case("contigs keep their case", &["0 a 10 10 a <NON_REF>", "0 A 11 11 a <NON_REF>"], Ok(&["11 . A <NON_REF>", "10 . A <NON_REF>"])),
    Case {
        clip: &["c 11 12", "c 13 16"],
        ..case(
            "a small letter of the deletion before, and an unknown letter joins the block n",
            &["0 c 10 11 gt g,<NON_REF>", "0 c 12 14 T <NON_REF>", "0 c 15 16 n <NON_REF>"],
            Ok(&["11 . T *,<NON_REF>", "12 . T <NON_REF>", "13 16 N <NON_REF>"]),
        )
    },
    Case {
        clip: &["c 10 10", "c 11 11", "c 12 12", "c 13 13"],
        reference: &["c 11 a", "c 11 CAt"],
        ..case("letters of a small reference join and part", &["0 c 10 13 A <NON_REF>"], Ok(&["10 12 A <NON_REF>", "13 . T <NON_REF>"]))
    },
    Case { reference: &["c 11 aX"], ..case("9 by X behind a", &["0 c 10 13 A <NON_REF>"], Err(9)) },
    Case { clip: &["c 12 13"], reference: &["c 10 ac"], ..case("11 by small letters elsewhere", &["0 c 10 13 A <NON_REF>"], Err(11)) },
];

fn site(row: &str) -> Site {
    let part: Vec<&str> = row.split(' ').collect();
    let number = |i: usize| part[i].parse().expect("a number");
    let alts: Vec<String> = part[5].split(',').map(str::to_string).collect();
    let (contig, ref_allele) = (part[1].to_string(), part[4].to_string());
    // numbers that say whose and which they are: a sample's sites with as many alleles have the same
    let (sample, n) = (number(0), 1 + part[5].split(',').count());
    let numbers = |count: usize| Some((0..count as u32).map(|i| 100 * (1 + sample as u32) + i).collect());
    Site { sample: sample as usize, contig, start: number(2), end: number(3), ref_allele, alts, gq: Some(9), dp: None, min_dp: Some(7), ad: numbers(n), pl: numbers(pairs(n)) }
}

fn lent(case: &Case) -> Lent {
    // names that differ in case alone are two names
    let samples = ["s", "S", "n", "N"].map(str::to_string).to_vec();
    let groups = |rows: &[&'static str]| rows.iter().map(|r| r.split(' ').collect::<Vec<_>>()).collect::<Vec<_>>();
    let number = |word: &str| word.parse().expect("a number");
    let span = |p: &Vec<&str>| ClipSpan { contig: p[0].to_string(), start: number(p[1]), end: number(p[2]) };
    let stretch = |p: &Vec<&str>| Stretch { contig: p[0].to_string(), first: number(p[1]), bases: p[2].to_string() };
    let (clip, reference) = (groups(case.clip), groups(case.reference));
    Lent {
        cohort: Cohort { samples, sites: case.sites.iter().map(|row| site(row)).collect() },
        clip: (!clip.is_empty()).then(|| clip.iter().map(span).collect()),
        reference: (!reference.is_empty()).then(|| reference.iter().map(stretch).collect()),
    }
}

/// The call with all letters small.
fn small(lent: &Lent) -> Lent {
    let lower = |s: &mut String| {
        if is_letters(s, usize::MAX) {
            s.make_ascii_lowercase()
        }
    };
    let mut call = lent.clone();
    for site in &mut call.cohort.sites {
        lower(&mut site.ref_allele);
        site.alts.iter_mut().for_each(lower);
    }
    call.reference.iter_mut().flatten().for_each(|g| lower(&mut g.bases));
    call
}

fn spellings(case: &Case) -> [Lent; 3] {
    let lent = lent(case);
    [small(&lent), lent.capitals(), lent]
}

fn heads(list: &[u8]) -> Result<Vec<String>, String> {
    let list = read_combined(&String::from_utf8_lossy(list), Rules::On).map_err(|r| r.to_string())?;
    Ok(list.records.iter().map(|r| format!("{} {} {} {}", r.pos, or_dot(r.end), r.ref_allele, comma(&r.alts))).collect())
}

fn hold(library: &mut Library, case: &Case, lent: &Lent) -> Result<(), String> {
    let texts = Texts::of(lent);
    let answer = library.combine_roomy(&texts.call(1, 0));
    match (case.answer, &answer) {
        (Ok(expected), Ok(list)) if heads(list)? == expected => combine::hold(library, lent, 6).map(|_| ()),
        (Err(row), Err(other)) if row == *other => {
            let bytes = |t: &Option<String>| t.clone().map(String::into_bytes);
            let (clip, reference) = (bytes(&texts.clip), bytes(&texts.reference));
            let told = bad::hold(library, texts.cohort.as_bytes(), clip.as_deref(), reference.as_deref())?;
            let read = domain::check(lent).err().map_or(0, |r| r.number as usize);
            if told == row || (told == 0 && read == row) {
                return Ok(());
            }
            Err(format!("{row} expected, {told} and {read} by the rules"))
        }
        (expected, _) => Err(format!("{expected:?} expected, {:?} answered", answer.map(|l| String::from_utf8_lossy(&l).into_owned()))),
    }
}

pub fn check() -> Result<String, String> {
    let mut library = Library::new();
    for case in CASES {
        for lent in spellings(case) {
            hold(&mut library, case, &lent).map_err(|e| format!("{}: {e}\n{lent:?}", case.shows))?;
        }
    }
    Ok(format!("{} calls, each in three spellings: no difference\n", CASES.len()))
}

/// The same calls' looks; combined lists, trim and subsets.
pub fn check_others() -> Result<String, String> {
    let mut library = Library::new();
    for case in CASES {
        for lent in spellings(case) {
            looks_of(&mut library, case, &lent).map_err(|e| format!("{}: {e}", case.shows))?;
        }
    }
    let (lists, alleles) = (lists(&mut library)?, trimmed()?);
    Ok(format!("{} calls' looks, each in three spellings, {lists} combined lists, {alleles} lists of alleles: no difference\n", CASES.len()))
}

fn looks_of(library: &mut Library, case: &Case, lent: &Lent) -> Result<(), String> {
    if case.answer.is_ok() {
        return looks::hold(library, lent, 6, &mut Tally::default());
    }
    let answer = library.looks(&Texts::of(lent).call(1, 0), b"c").err();
    if answer == case.answer.err() {
        return Ok(());
    }
    Err(format!("looks: {:?} expected, {answer:?} answered", case.answer))
}

/// REF and ALTs of a combined list, and those of the called list, or the row.
const LISTS: &[(&str, &str, Result<&str, usize>)] = &[
    ("a", "g,<NON_REF>", Ok("ref=A\nalt=G\n")),
    ("acgtN", "*,<NON_REF>,acG", Ok("ref=ACGTN\nalt=*,ACG\n")),
    ("A", "G,g,<NON_REF>", Err(5)),
    ("a", "A,<NON_REF>", Err(5)),
    ("A", "g,<non_ref>", Err(5)),
    ("A", "g,<NOn_REF>", Err(5)),
    ("A", "g", Err(6)),
];

fn lists(library: &mut Library) -> Result<usize, String> {
    for (reference, alt, answer) in LISTS {
        let n = alt.split(',').count() + 1;
        let pl = vec!["7"; n * (n + 1) / 2].join(",");
        let list = format!("samples=1\nsample=s\nrecords=1\ncontig=c\npos=5\nend=.\nref={reference}\nalt={alt}\ngt=.\ngq=.\ndp=.\nmindp=.\nad=.\npl={pl}\n");
        bad::hold_list(library, list.as_bytes())?;
        let called = library.call(list.as_bytes(), 4096).map(|l| String::from_utf8_lossy(&l).into_owned());
        let right = match (answer, &called) {
            (Ok(lines), Ok(called)) => called.contains(&format!("pos=5\n{lines}gq=")),
            (Err(row), Err(other)) => row == other,
            _ => false,
        };
        if !right {
            return Err(format!("{reference} to {alt}: {answer:?} expected, {called:?} answered"));
        }
    }
    Ok(LISTS.len())
}

fn trimmed() -> Result<usize, String> {
    let cases: [(&str, Result<&str, usize>); 7] = [
        ("AAt,aT", Ok("AA,A")),
        ("cAT,Gat,*,<NON_REF>", Ok("C,G,*,<NON_REF>")),
        ("at,T", Ok("AT,T")),
        ("acgtn", Ok("ACGTN")),
        ("At,aT", Err(5)),
        ("A,<non_ref>", Err(5)),
        ("A,G,g", Err(5)),
    ];
    for (alleles, answer) in cases {
        let mut out = [0u8; 64];
        let found = wintabol::reverse_trim_alleles(alleles.as_bytes(), &mut out).map_err(|Refused(row)| row);
        if found.map(|n| String::from_utf8_lossy(&out[..n]).into_owned()) != answer.map(str::to_string) {
            return Err(format!("trim {alleles}: {answer:?} expected, {found:?} answered"));
        }
    }
    let (mut alts, mut gl, mut ad) = ([0u8; 16], [0f64; 16], [0u32; 16]);
    let written = wintabol::subset_unused_alts(b"g,T,acN", &[0, 3], &[0.0; 10], &[1, 2, 3, 4], &mut alts, &mut gl, &mut ad);
    match written.map(|w| &alts[..w.alts]) {
        Ok(b"acN") => Ok(cases.len() + 1),
        other => Err(format!("subset_unused_alts: the ALT acN as given expected, {other:?} answered")),
    }
}
