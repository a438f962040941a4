//! Puts the modules of the Rust together: a `modules.rs` in OUT_DIR names each file at its own
//! place. A file whose private functions the oracle needs is written to OUT_DIR byte for byte,
//! with accessors behind the unchanged text. With the feature `counters` every file in scope is
//! written to OUT_DIR with counters at the places that counters.txt names.

use std::collections::BTreeMap;
use std::env;
use std::fmt::Write as _;
use std::fs;
use std::path::{Path, PathBuf};
use std::process::exit;

const FILES: [&str; 11] = [
    "activity_scoring",
    "af_calc",
    "allele_subsetting_pl",
    "bio_ids",
    "combine_gvcfs",
    "genome_loc",
    "genotype_gvcfs",
    "genotyping",
    "ref_confidence_merger",
    "ref_confidence_merger_dump",
    "reverse_trim",
];

/// Put behind the text of genotype_gvcfs.rs. LIKELIHOODS stands for the statement that
/// `genotype_one_record` makes its likelihoods with, taken from the Rust's text.
const GENOTYPE_GVCFS_ACCESSORS: &str = "
pub mod accessors {
    pub fn alleles_without_non_ref(
        reference: &str,
        alts: &[String],
    ) -> (Vec<String>, Vec<Option<usize>>) {
        super::alleles_without_non_ref(reference, alts)
    }

    pub fn remap_pl_drop_alleles(
        old_pl: &[i32],
        old_n: usize,
        allele_map: &[Option<usize>],
        new_n: usize,
    ) -> Option<Vec<i32>> {
        super::remap_pl_drop_alleles(old_pl, old_n, allele_map, new_n)
    }

    pub fn remap_ad(old_ad: &[u32], allele_map: &[Option<usize>], new_n: usize) -> Vec<u32> {
        super::remap_ad(old_ad, allele_map, new_n)
    }

    pub fn likelihoods(new_pl: &Option<Vec<i32>>) -> Vec<f64> {
        LIKELIHOODS
        gl
    }
}
";

fn main() {
    let out = PathBuf::from(env::var("OUT_DIR").expect("OUT_DIR"));
    let source = source_folder();
    println!("cargo:rerun-if-env-changed=GATK_RS");
    println!("cargo:rerun-if-changed=build.rs");
    println!("cargo:rerun-if-changed=counters.txt");
    let counters = match env::var("CARGO_FEATURE_COUNTERS") {
        Ok(_) => read_counters(&fs::read_to_string("counters.txt").expect("counters.txt")),
        Err(_) => Vec::new(),
    };

    let mut modules = String::new();
    for name in FILES {
        let original = source.join(format!("{name}.rs"));
        println!("cargo:rerun-if-changed={}", original.display());
        let Ok(text) = fs::read_to_string(&original) else {
            stop(&format!("cannot read {}", original.display()));
        };
        let built = build_module(name, &text, &counters);
        let path = if built == text {
            original
        } else {
            let copy = out.join(format!("{name}.rs"));
            fs::write(&copy, built).expect("write into OUT_DIR");
            copy
        };
        writeln!(
            modules,
            "#[allow(warnings)]\n#[path = {:?}]\npub mod {name};",
            path.display().to_string()
        )
        .expect("write to a string");
    }
    fs::write(out.join("modules.rs"), modules).expect("write into OUT_DIR");
    fs::write(out.join("counted.rs"), counted_places(&counters)).expect("write into OUT_DIR");
}

/// The folder of the Rust's files: below GATK_RS, or below ../shared/docs/src of the repository.
fn source_folder() -> PathBuf {
    let here = PathBuf::from(env::var("CARGO_MANIFEST_DIR").expect("CARGO_MANIFEST_DIR"));
    let checkout = match env::var("GATK_RS") {
        Ok(named) => PathBuf::from(named),
        Err(_) => here.join("../../../shared/docs/src"),
    };
    let folder = checkout.join("gatk-haplotypecaller/src");
    match folder.canonicalize() {
        Ok(found) => found,
        Err(_) => stop(&format!(
            "no Rust at {}: name a checkout of gatk-rs with the environment variable GATK_RS",
            folder.display()
        )),
    }
}

fn stop(message: &str) -> ! {
    eprintln!("{message}");
    exit(1)
}

fn build_module(name: &str, text: &str, counters: &[Counter]) -> String {
    let mut built = with_counters(name, text, counters);
    if name == "genotype_gvcfs" {
        let statement = likelihoods_statement(text);
        built.push_str(&GENOTYPE_GVCFS_ACCESSORS.replace("LIKELIHOODS", statement));
    }
    built
}

/// The statement `let gl = new_pl ... ;` of `genotype_one_record`.
fn likelihoods_statement(text: &str) -> &str {
    let Some(from) = text.find("let gl = new_pl") else {
        stop("genotype_gvcfs.rs has no statement `let gl = new_pl`");
    };
    let length = text[from..].find(';').expect("a statement ends") + 1;
    &text[from..from + length]
}

/// A place of counters.txt: `file:line kind text`.
struct Counter {
    file: String,
    line: usize,
    kind: String,
    text: String,
}

fn read_counters(list: &str) -> Vec<Counter> {
    list.lines()
        .filter(|l| !l.is_empty() && !l.starts_with('#'))
        .map(|l| {
            let mut parts = l.splitn(3, ' ');
            let place = parts.next().expect("a place");
            let kind = parts.next().expect("a kind").to_string();
            let text = parts.next().expect("a text").to_string();
            let (file, line) = place.split_once(".rs:").expect("file:line");
            let file = file.to_string();
            let line = line.parse().expect("a line number");
            Counter {
                file,
                line,
                kind,
                text,
            }
        })
        .collect()
}

/// Puts a call of crate::counters at each counted text of this file; counters.txt says what the
/// kinds count.
fn with_counters(name: &str, text: &str, counters: &[Counter]) -> String {
    let mut insertions: BTreeMap<(usize, usize), String> = BTreeMap::new();
    let lines: Vec<&str> = text.split('\n').collect();
    for (number, c) in counters.iter().enumerate().filter(|(_, c)| c.file == name) {
        let line = lines[c.line - 1];
        let found: Vec<usize> = line.match_indices(&c.text).map(|(at, _)| at).collect();
        let &[at] = found.as_slice() else {
            stop(&format!(
                "counters.txt: `{}` is not once on {name}.rs:{}",
                c.text, c.line
            ));
        };
        let (before, after) = match c.kind.as_str() {
            "hit" => (
                format!("{{ crate::counters::hit({number}); "),
                " }".to_string(),
            ),
            "cond" => (format!("crate::counters::cond({number}, "), ")".to_string()),
            "some" => (format!("crate::counters::some({number}, "), ")".to_string()),
            "none" => (
                format!(".or_else(|| {{ crate::counters::hit({number}); None }})"),
                String::new(),
            ),
            "start" => (format!("crate::counters::hit({number}); "), String::new()),
            other => stop(&format!("counters.txt: no kind {other}")),
        };
        let opened = insertions.entry((c.line, at)).or_default();
        *opened = format!("{opened}{before}");
        let closed = insertions.entry((c.line, at + c.text.len())).or_default();
        *closed = format!("{after}{closed}");
    }
    let mut built = String::new();
    for (index, line) in lines.iter().enumerate() {
        let mut done = 0;
        for (&(_, at), inserted) in insertions.range((index + 1, 0)..(index + 2, 0)) {
            built.push_str(&line[done..at]);
            built.push_str(inserted);
            done = at;
        }
        built.push_str(&line[done..]);
        if index + 1 < lines.len() {
            built.push('\n');
        }
    }
    built
}

fn counted_places(counters: &[Counter]) -> String {
    let mut places = String::from("pub const PLACES: &[(&str, usize, &str, &str)] = &[\n");
    for c in counters {
        let file = Path::new(&c.file).with_extension("rs");
        writeln!(
            places,
            "({:?}, {}, {:?}, {:?}),",
            file.display().to_string(),
            c.line,
            c.kind,
            c.text
        )
        .expect("write to a string");
    }
    places.push_str("];\n");
    places
}
