use wintabol::{depth_windows, Depth, Refused};

/// A list with two samples and these records, each a contig, POS, END (or `.`) and the samples' DP.
fn listed(records: &[(&str, u32, &str, &str, &str)]) -> Vec<u8> {
    let mut text = format!("samples=2\nsample=S\nsample=T\nrecords={}\n", records.len());
    for (contig, pos, end, first, second) in records {
        text += &format!("contig={contig}\npos={pos}\nend={end}\nref=A\nalt=<NON_REF>\n");
        for dp in [first, second] {
            text += &format!("gt=.\ngq=.\ndp={dp}\nmindp=.\nad=.\npl=.\n");
        }
    }
    text.into_bytes()
}

/// c 10 to 12, c 20, c 31 to 40, d 5; the second sample's DP is missing at c 20.
fn four() -> Vec<u8> {
    listed(&[("c", 10, "12", "8", "3"), ("c", 20, ".", "0", "."), ("c", 31, "40", "7", "9"), ("d", 5, ".", "8", "8")])
}

/// The counts. The places behind them stay as they were.
fn counted(list: &[u8], contig: &str, sample: usize, threshold: u32, size: u32, step: u32) -> Result<Vec<u32>, Refused> {
    let mut out = [7777u32; 8];
    let written = depth_windows(list, contig.as_bytes(), Depth { sample, threshold, size, step }, &mut out);
    assert!(out[written.unwrap_or(0)..].iter().all(|n| *n == 7777));
    written.map(|n| out[..n].to_vec())
}

#[test]
fn from_the_first_position_to_the_last() {
    assert_eq!(counted(&four(), "c", 0, 8, 10, 10), Ok(vec![3, 0, 0, 0]));
    assert_eq!(counted(&four(), "c", 0, 7, 10, 10), Ok(vec![3, 0, 9, 1]));
    assert_eq!(counted(&four(), "c", 1, 9, 1000, 30), Ok(vec![10, 1]));
    assert_eq!(counted(&four(), "c", 0, 7, 2, 15), Ok(vec![2, 0, 1]));
    assert_eq!(counted(&four(), "d", 0, 8, 10, 10), Ok(vec![1]));
    assert_eq!(counted(&four(), "e", 0, 8, 10, 10), Ok(vec![]));
}

#[test]
fn a_missing_dp_is_below_every_threshold() {
    assert_eq!(counted(&four(), "c", 0, 0, 1000, 1000), Ok(vec![14]));
    assert_eq!(counted(&four(), "c", 1, 0, 1000, 1000), Ok(vec![13]));
}

#[test]
fn a_long_block() {
    let long = listed(&[("c", 1, "2147483647", "1", "1")]);
    let mut out = vec![0u32; 2148];
    let asked = Depth { sample: 0, threshold: 1, size: 1_000_000, step: 1_000_000 };
    assert_eq!(depth_windows(&long, b"c", asked, &mut out), Ok(2148));
    assert!(out[..2147].iter().all(|n| *n == 1_000_000));
    assert_eq!(out[2147], 483_647);
}

#[test]
fn refusals() {
    assert_eq!(counted(b"", "c", 0, 8, 0, 10), Err(Refused(1)));
    for (sample, size, step) in [(2, 10, 10), (0, 0, 10), (0, 1_000_001, 10), (0, 10, 0), (0, 10, 1_000_001)] {
        assert_eq!(counted(&four(), "c", sample, 8, size, step), Err(Refused(17)));
        assert_eq!(counted(&four(), "e", sample, 8, size, step), Err(Refused(17)));
    }
    assert_eq!(counted(&four(), "c", 0, 8, 10, 1), Err(Refused(14)));
    let asked = Depth { sample: 0, threshold: 8, size: 10, step: 10 };
    let mut out = [7u32; 4];
    assert_eq!(depth_windows(&four(), b"c", asked, &mut out[..3]), Err(Refused(14)));
    assert_eq!(out, [7; 4]);
    assert_eq!(depth_windows(&four(), b"c", asked, &mut out), Ok(4));
    assert_eq!(depth_windows(&four(), b"e", asked, &mut []), Ok(0));
}
