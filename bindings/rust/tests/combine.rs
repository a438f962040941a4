use wintabol::{combine, Refused};

const COHORT: &[u8] = include_bytes!("../../../crates/combine/data/cohort.kv");
const LIST: &[u8] = include_bytes!("../../../crates/combine/stdout");

#[test]
fn writes_the_example() {
    let mut scratch = [7u64; 8];
    let mut out = vec![9u8; 4096];
    let n = combine(COHORT, None, None, &mut scratch, &mut out).unwrap();
    assert_eq!(&out[..n], LIST);
    assert!(out[n..].iter().all(|&b| b == 9));
    assert_eq!(scratch, [0; 8]);
}

#[test]
fn one_place_is_enough_and_none_is_10() {
    let mut out = vec![9u8; 4096];
    let mut one = [7u64; 1];
    let n = combine(COHORT, None, None, &mut one, &mut out).unwrap();
    assert_eq!(&out[..n], LIST);
    assert_eq!(one, [0]);
    assert_eq!(combine(COHORT, None, None, &mut [], &mut out), Err(Refused(10)));
    let no_sites = b"samples=1\nsample=S\n";
    let n = combine(no_sites, None, None, &mut [], &mut out).unwrap();
    assert_eq!(&out[..n], b"samples=1\nsample=S\nrecords=0\n");
}

#[test]
fn a_letter_that_no_ref_reaches_is_n() {
    // the second record, at 11, lies in the block that starts at 10
    let (mut scratch, mut out) = ([7u64; 8], vec![9u8; 4096]);
    let n = combine(COHORT, None, Some(b"contig=c\nfirst=11\nbases=T\n"), &mut scratch, &mut out).unwrap();
    let unknown = String::from_utf8(LIST.to_vec()).unwrap();
    assert_eq!(unknown.matches("ref=N\n").count(), 1);
    assert_eq!(String::from_utf8(out[..n].to_vec()).unwrap(), unknown.replace("ref=N\n", "ref=T\n"));
}

#[test]
fn small_letters_are_read_as_capitals() {
    let (mut scratch, mut out) = ([7u64; 8], vec![9u8; 4096]);
    let cohort = String::from_utf8(COHORT.to_vec()).unwrap();
    let small = cohort.replace("ref=A\n", "ref=a\n").replace("alt=G,", "alt=g,");
    assert_ne!(small, cohort);
    let n = combine(small.as_bytes(), None, None, &mut scratch, &mut out).unwrap();
    assert_eq!(&out[..n], LIST);
    let twice = cohort.replace("alt=G,", "alt=G,g,");
    assert_eq!(combine(twice.as_bytes(), None, None, &mut scratch, &mut out), Err(Refused(5)));
    let symbol = cohort.replace("alt=G,<NON_REF>", "alt=G,<non_ref>");
    assert_eq!(combine(symbol.as_bytes(), None, None, &mut scratch, &mut out), Err(Refused(5)));
}

#[test]
fn min_dp_rides_along_and_parts_blocks() {
    let (mut scratch, mut out) = ([7u64; 8], vec![9u8; 4096]);
    let mut list = |cohort: &str| combine(cohort.as_bytes(), None, None, &mut scratch, &mut out).map(|n| String::from_utf8(out[..n].to_vec()).unwrap());
    let cohort = String::from_utf8(COHORT.to_vec()).unwrap();
    let given = cohort.replacen("mindp=.", "mindp=12", 1);
    let mut lines = String::from_utf8(LIST.to_vec()).unwrap();
    // of S0, in both records; no rule binds it to DP, which is 9
    lines = lines.replace("dp=9\nmindp=.", "dp=9\nmindp=12");
    assert_eq!(list(&given), Ok(lines));
    assert_eq!(list(&cohort.replace("mindp=.\n", "")), Err(Refused(1)));
    assert_eq!(list(&cohort.replace("dp=9\nmindp=.\n", "mindp=.\ndp=9\n")), Err(Refused(1)));
    let block = |start: u64, min_dp: &str| format!("site=0\ncontig=c\nstart={start}\nend={start}\nref=A\nalt=<NON_REF>\ngq=.\ndp=7\nmindp={min_dp}\nad=.\npl=.\n");
    let mut records = |first: &str, second: &str| {
        let list = list(&format!("samples=1\nsample=S\n{}{}", block(5, first), block(6, second))).unwrap();
        list.lines().find_map(|line| line.strip_prefix("records=")).unwrap().to_string()
    };
    assert_eq!([records("5", "5"), records("5", "6"), records("5", "."), records(".", ".")], ["1", "2", "2", "1"]);
}

#[test]
fn refuses_and_leaves_the_output() {
    let mut scratch = [7u64; 8];
    let mut out = [9u8; 16];
    assert_eq!(combine(COHORT, None, None, &mut scratch, &mut out), Err(Refused(14)));
    assert_eq!(combine(b"", None, None, &mut scratch, &mut out), Err(Refused(1)));
    assert_eq!(out, [9; 16]);
    assert_eq!(scratch, [0; 8]);
}
