//! The recorded answers are the Rust's as it is fed, in capitals, and the first is the scope's printed example with Note 2's letter.

use oracle::record::{check, sorted_folders};
use std::fs;
use std::path::{Path, PathBuf};

fn recorded() -> PathBuf {
    Path::new(env!("CARGO_MANIFEST_DIR")).join("../../recorded")
}

#[test]
fn the_rust_answers_as_recorded() {
    check(&recorded()).expect("as recorded");
}

#[test]
fn the_printed_example_is_the_first() {
    let printed = "\
samples=2
sample=S0
sample=S1
records=2
contig=c
pos=10
end=.
ref=A
alt=G,<NON_REF>
gt=0/0
gq=30
dp=9
mindp=.
ad=9,0,0
pl=0,30,300,30,300,300
gt=0/1
gq=40
dp=8
mindp=.
ad=4,4,0
pl=40,0,50,60,70,80
contig=c
pos=11
end=.
ref=N
alt=<NON_REF>
gt=0/0
gq=30
dp=9
mindp=.
ad=9,0
pl=0,30,300
gt=.
gq=.
dp=.
mindp=.
ad=.
pl=.
";
    let first = fs::read_to_string(recorded().join("combine/000/combined.kv"));
    assert_eq!(first.expect("combine/000"), printed);
}

#[test]
fn what_is_written_is_capitals() {
    for (part, answer) in [("combine", "combined.kv"), ("call", "called.kv")] {
        for case in sorted_folders(&recorded().join(part)).expect("cases") {
            let text = fs::read_to_string(case.join(answer)).expect("a list");
            for line in text.lines().filter(|l| l.starts_with("ref=") || l.starts_with("alt=")) {
                assert!(!line[4..].contains(|c: char| c.is_ascii_lowercase()), "{}: {line}", case.display());
            }
        }
    }
}
