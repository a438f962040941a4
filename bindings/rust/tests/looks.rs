use wintabol::{looks, Refused};

/// Two sites on contig c, a block at 10 to 11 and a SNP at 10: breakpoints 10, 11, 12.
const COHORT: &[u8] = include_bytes!("../../../crates/combine/data/cohort.kv");

/// The cohort with a site behind it for each contig, start, REF and ALT, all of the sample with this number.
fn with(sample: usize, sites: &[(&str, u64, &str, &str)]) -> Vec<u8> {
    let mut text = String::from_utf8(COHORT.to_vec()).unwrap();
    for (contig, start, reference, alt) in sites {
        let end = start + reference.len() as u64 - 1;
        text += &format!("site={sample}\ncontig={contig}\nstart={start}\nend={end}\nref={reference}\nalt={alt},<NON_REF>\n");
        text += "gq=.\ndp=.\nmindp=.\nad=.\npl=.\n";
    }
    text.into_bytes()
}

fn asked(cohort: &[u8], clip: Option<&str>, contig: &str) -> Result<usize, Refused> {
    let mut scratch = [7u64; 8];
    let answer = looks(cohort, clip.map(str::as_bytes), None, contig.as_bytes(), &mut scratch);
    assert_eq!(scratch, [0; 8]);
    answer
}

#[test]
fn intervals_times_sites() {
    assert_eq!(asked(COHORT, None, "c"), Ok(2 * 2));
    // a deletion of three letters at 20 on c: breakpoints 10, 11, 12, 20, 21, 22, 23, so 6 intervals, 12 to 19 without a record among them
    assert_eq!(asked(&with(0, &[("c", 20, "ACG", "A")]), None, "c"), Ok(6 * 3));
    // sites of another contig do not count, and have their own figure
    let two = with(1, &[("d", 5, "ACG", "A")]);
    assert_eq!(asked(&two, None, "c"), Ok(2 * 2));
    assert_eq!(asked(&two, None, "d"), Ok(3));
}

#[test]
fn intervals_in_the_clip() {
    assert_eq!(asked(COHORT, Some("contig=c\nstart=10\nend=10\n"), "c"), Ok(2));
    // 1 to 9 has no record and counts all the same
    assert_eq!(asked(COHORT, Some("contig=c\nstart=1\nend=11\n"), "c"), Ok(3 * 2));
    assert_eq!(asked(COHORT, Some("contig=d\nstart=1\nend=11\n"), "c"), Ok(0));
    assert_eq!(asked(COHORT, Some(""), "c"), Ok(0));
}

#[test]
fn a_contig_that_no_site_names() {
    for contig in ["d", "", "cc", "no name=,\n"] {
        assert_eq!(asked(COHORT, None, contig), Ok(0));
        assert_eq!(asked(COHORT, Some("contig=d\nstart=1\nend=11\n"), contig), Ok(0));
    }
}

#[test]
fn places() {
    let mut one = [7u64; 1];
    assert_eq!(looks(COHORT, None, None, b"c", &mut one), Ok(4));
    assert_eq!(one, [0]);
    assert_eq!(looks(COHORT, None, None, b"c", &mut []), Err(Refused(10)));
    assert_eq!(looks(COHORT, None, None, b"d", &mut []), Err(Refused(10)));
    assert_eq!(looks(b"samples=1\nsample=S\n", None, None, b"c", &mut []), Ok(0));
}

#[test]
fn refused_on_any_contig() {
    // a SNP on d beside a REF that is no prefix: 12 for c and for a contig that no site names
    let mut text = with(0, &[("d", 10, "AT", "A")]);
    text.extend(&with(1, &[("d", 10, "C", "G")])[COHORT.len()..]);
    for contig in ["c", "d", "e"] {
        assert_eq!(asked(&text, None, contig), Err(Refused(12)));
    }
    // where the clip leaves d out nothing refuses
    assert_eq!(asked(&text, Some("contig=c\nstart=10\nend=11\n"), "c"), Ok(4));
    let mut scratch = [7u64; 8];
    // c needs the letter at 11, which an empty reference lacks
    assert_eq!(looks(COHORT, None, Some(b""), b"e", &mut scratch), Err(Refused(11)));
    assert_eq!(looks(b"", None, None, b"c", &mut scratch), Err(Refused(1)));
    assert_eq!(looks(COHORT, Some(b"\n"), None, b"c", &mut scratch), Err(Refused(9)));
    assert_eq!(scratch, [0; 8]);
}
