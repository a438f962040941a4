//! What the Rust is fed where letters are small: the same texts with `ref`, `alt` and `bases` in capitals, and nothing else changed. And which
//! spellings the oracle's own check takes for one allele.

use oracle::cohort::{read_cohort, read_reference, Lent};
use oracle::list::{read_combined, write_combined};
use oracle::text::{capitals, Rules};
use oracle::{domain, generate};

/// The text with the values of these lines in capitals.
fn raised(text: &str, keys: &[&str]) -> String {
    let line = |line: &str| match line.split_once('=') {
        Some((key, value)) if keys.contains(&key) => format!("{key}={}\n", value.to_uppercase()),
        _ => format!("{line}\n"),
    };
    text.lines().map(line).collect()
}

fn calls() -> impl Iterator<Item = Lent> {
    let sorts = ["tiny", "contigs", "joining", "together", "crowded", "patched", "long", "nested"];
    sorts.into_iter().flat_map(|sort| (0..150).map(move |seed| generate::lent(generate::profile(sort).expect("a sort"), seed)))
}

#[test]
fn a_call_is_raised_line_by_line() {
    let mut small = 0;
    for lent in calls() {
        let files = lent.capitals().files();
        for ((name, text), (other, read)) in lent.files().into_iter().zip(&files) {
            assert_eq!((name, &raised(&text, &["ref", "alt", "bases"])), (*other, read));
        }
        assert_eq!(domain::fed(&lent), domain::fed(&lent.capitals()));
        small += usize::from(lent.has_small_letters());
    }
    assert!((300..450).contains(&small), "{small} of 1200");
}

#[test]
fn a_list_is_raised_line_by_line() {
    let mut small = 0;
    for seed in 0..600 {
        let list = generate::combined_list(seed);
        let text = write_combined(&list);
        let read = write_combined(&list.capitals());
        assert_eq!(read, raised(&text, &["ref", "alt"]));
        assert!(read_combined(&text, Rules::On).is_ok());
        small += usize::from(text != read);
    }
    assert!((120..230).contains(&small), "{small} of 600");
}

fn site(reference: &str, alt: &str) -> Option<u8> {
    let end = 4 + reference.len();
    let text = format!("samples=1\nsample=S\nsite=0\ncontig=c\nstart=5\nend={end}\nref={reference}\nalt={alt}\ngq=.\ndp=.\nmindp=.\nad=.\npl=.\n");
    read_cohort(&text, Rules::On).err().map(|r| r.number)
}

#[test]
fn letters_have_two_spellings_and_symbols_one() {
    for (reference, alt) in [("a", "g,<NON_REF>"), ("acgtn", "ACGT,<NON_REF>"), ("n", "*,<NON_REF>,a,Na")] {
        assert_eq!(site(reference, alt), None, "{reference} {alt}");
    }
    for (reference, alt) in [
        ("A", "G,g,<NON_REF>"), ("a", "A,<NON_REF>"), ("A", "a,<NON_REF>"), ("aC", "Ac,<NON_REF>"), ("A", "gT,T,Gt,<NON_REF>"),
        ("n", "*,N*,<NON_REF>"), ("A", "<non_ref>"), ("A", "G,<nON_REF>"), ("A", "G,<NOn_REF>,<NON_REF>"), ("r", "<NON_REF>"), ("A", "G,<NON_REF>,x"),
    ] {
        assert_eq!(site(reference, alt), Some(5), "{reference} {alt}");
    }
    assert_eq!(["<NOn_REF>", "*", "acgtnACGTN", "x", ""].map(capitals), ["<NOn_REF>", "*", "ACGTNACGTN", "x", ""]);
    assert!(read_reference("contig=c\nfirst=1\nbases=acgtnACGTN\n").is_ok());
    assert_eq!(read_reference("contig=c\nfirst=1\nbases=aX\n").err().map(|r| r.number), Some(9));
}
