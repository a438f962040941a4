use wintabol::{look_up, LookedUp, Refused, NO_RECORD};

/// A list with one sample and these records, each a contig, POS, END (or `.`), REF and ALT.
fn listed(records: &[(&str, u32, &str, &str, &str)]) -> Vec<u8> {
    let mut text = format!("samples=1\nsample=S\nrecords={}\n", records.len());
    for (contig, pos, end, reference, alt) in records {
        text += &format!("contig={contig}\npos={pos}\nend={end}\nref={reference}\nalt={alt}\n");
        text += "gt=.\ngq=.\ndp=.\nmindp=.\nad=.\npl=.\n";
    }
    text.into_bytes()
}

/// c 10 to 12, c 20, d 5.
fn three() -> Vec<u8> {
    listed(&[("c", 10, "12", "A", "<NON_REF>"), ("c", 20, ".", "A", "G,<NON_REF>"), ("d", 5, ".", "A", "<NON_REF>")])
}

fn pairs(asked: &[(&str, u32)]) -> Vec<u8> {
    asked.iter().map(|(contig, pos)| format!("contig={contig}\npos={pos}\n")).collect::<String>().into_bytes()
}

/// The answers, and how many record groups were read. The places behind the answers stay as they were.
fn asked(list: &[u8], asked: &[(&str, u32)]) -> Result<(Vec<u32>, u32), Refused> {
    let mut out = [7u32; 8];
    let found = look_up(list, &pairs(asked), &mut out);
    let count = found.map_or(0, |f| f.pairs);
    assert!(out[count..].iter().all(|n| *n == 7));
    found.map(|f| (out[..count].to_vec(), f.groups))
}

#[test]
fn before_between_and_past_all_records() {
    assert_eq!(asked(&three(), &[("c", 9), ("c", 11), ("c", 11), ("c", 13)]), Ok((vec![NO_RECORD, 0, 0, NO_RECORD], 2)));
    assert_eq!(asked(&three(), &[("b", 1)]), Ok((vec![NO_RECORD], 1)));
    assert_eq!(asked(&three(), &[("c", 20), ("d", 5), ("e", 1)]), Ok((vec![1, 2, NO_RECORD], 3)));
}

#[test]
fn only_what_is_needed_is_read() {
    let faulty = listed(&[("c", 10, "12", "A", "<NON_REF>"), ("c", 20, ".", "A", "G")]);
    assert_eq!(asked(&faulty, &[("c", 12)]), Ok((vec![0], 1)));
    assert_eq!(asked(&faulty, &[("c", 13)]), Err(Refused(6)));
    assert_eq!(asked(&faulty, &[]), Ok((vec![], 0)));
    let longer = [three(), b"x".to_vec()].concat();
    assert_eq!(asked(&longer, &[("d", 5)]), Ok((vec![2], 3)));
    assert_eq!(asked(&longer, &[("d", 6)]), Err(Refused(1)));
}

#[test]
fn pairs_in_order_and_no_more_than_1024() {
    assert_eq!(asked(&three(), &[("c", 11), ("c", 10)]), Err(Refused(18)));
    assert_eq!(asked(&three(), &[("d", 1), ("c", 10)]), Err(Refused(18)));
    let mut out = [0u32; 1100];
    let many = |count| pairs(&vec![("c", 10); count]);
    assert_eq!(look_up(&three(), &many(1024), &mut out), Ok(LookedUp { pairs: 1024, groups: 1 }));
    assert_eq!(look_up(&three(), &many(1025), &mut out), Err(Refused(18)));
}

#[test]
fn places() {
    let two = pairs(&[("c", 10), ("c", 20)]);
    let mut out = [7u32; 2];
    assert_eq!(look_up(&three(), &two, &mut out[..1]), Err(Refused(14)));
    assert_eq!(look_up(b"", &two, &mut []), Err(Refused(1)));
    assert_eq!(out, [7, 7]);
    assert_eq!(look_up(&three(), &two, &mut out), Ok(LookedUp { pairs: 2, groups: 2 }));
    assert_eq!(out, [0, 1]);
    assert_eq!(look_up(&three(), b"", &mut []), Ok(LookedUp { pairs: 0, groups: 0 }));
}
