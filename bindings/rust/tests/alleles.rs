use wintabol::{
    call, gq_phred_from_pl, log10_likelihoods_from_pl, reverse_trim_alleles, subset_log10_genotype_likelihoods,
    subset_unused_alts, Refused, Written,
};

fn trimmed(alleles: &[u8]) -> Result<Vec<u8>, Refused> {
    let mut out = [9u8; 64];
    reverse_trim_alleles(alleles, &mut out).map(|n| out[..n].to_vec())
}

#[test]
fn trims_what_alleles_share_at_the_end() {
    assert_eq!(trimmed(b"AAT,AT"), Ok(b"AA,A".to_vec()));
    assert_eq!(trimmed(b"CAT,GAT"), Ok(b"C,G".to_vec()));
    assert_eq!(trimmed(b"AT,T"), Ok(b"AT,T".to_vec()));
    assert_eq!(trimmed(b"AT,AT"), Err(Refused(5)));
    assert_eq!(trimmed(b"AAt,aT"), Ok(b"AA,A".to_vec()));
    assert_eq!(trimmed(b"At,aT"), Err(Refused(5)));
    assert_eq!(reverse_trim_alleles(b"CAT,GAT", &mut [9; 2]), Err(Refused(14)));
}

#[test]
fn gq_is_second_least_minus_least() {
    assert_eq!(gq_phred_from_pl(&[0, 0, 5]), 0);
    assert_eq!(gq_phred_from_pl(&[0, 150, 200]), 99);
    assert_eq!(gq_phred_from_pl(&[30, 0, 20]), 20);
}

#[test]
fn calls_the_example() {
    let list = include_bytes!("../../../examples/orchard/combined.kv");
    let expected = include_bytes!("../../../examples/orchard/called.kv");
    let mut out = vec![9u8; 8192];
    let n = call(list, &mut out).unwrap();
    assert_eq!(&out[..n], expected);
    assert_eq!(call(&list[1..], &mut out), Err(Refused(1)));
    // a called list has no MIN_DP, a combined one has
    let text = std::str::from_utf8(list).unwrap();
    let least: Vec<&str> = text.lines().filter(|line| line.starts_with("mindp=")).collect();
    assert!(least.contains(&"mindp=36") && least.contains(&"mindp=."));
    let without: String = text.lines().filter(|line| !line.starts_with("mindp=")).map(|line| format!("{line}\n")).collect();
    assert_eq!(call(without.as_bytes(), &mut out), Err(Refused(1)));
}

#[test]
fn likelihoods_are_minus_a_tenth() {
    let mut out = [1.0; 3];
    assert_eq!(log10_likelihoods_from_pl(&[0, 10, 255], &mut out), Ok(3));
    assert_eq!(out, [0.0, -1.0, -25.5]);
    assert_eq!(log10_likelihoods_from_pl(&[0, 10, 255, 3], &mut out), Err(Refused(14)));
}

#[test]
fn subsets_are_less_the_greatest() {
    let gl = [-3.0, 0.0, -7.5];
    let mut out = [1.0; 4];
    assert_eq!(subset_log10_genotype_likelihoods(&gl, 2, &[1, 0], &mut out), Ok(3));
    assert_eq!(out, [-7.5, 0.0, -3.0, 1.0]);
    assert_eq!(subset_log10_genotype_likelihoods(&gl, 2, &[2], &mut out), Err(Refused(15)));
    assert_eq!(subset_log10_genotype_likelihoods(&[f64::NAN; 3], 2, &[0], &mut out), Err(Refused(15)));
}

#[test]
fn alts_that_the_gt_does_not_name_go() {
    let gl = [-3.0, 0.0, -7.5, -8.0, -9.0, -10.0];
    let (mut alts, mut likelihoods, mut ad) = ([9u8; 4], [1.0; 3], [9u32; 2]);
    let written = subset_unused_alts(b"G,T", &[0, 1], &gl, &[1, 2, 3], &mut alts, &mut likelihoods, &mut ad);
    assert_eq!(written, Ok(Written { alts: 1, gl: 3, ad: 2 }));
    assert_eq!((&alts, likelihoods, ad), (b"G\x09\x09\x09", [-3.0, 0.0, -7.5], [1, 2]));
}
