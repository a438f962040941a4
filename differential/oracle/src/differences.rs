//! What the Rust does with the inputs of docs/DIFFERENCES.md, most of which the scope refuses.

use crate::alleles::{answer_text, kind};
use crate::call::{call_by_the_whole, genotype_by_default};
use crate::cohort::Lent;
use crate::combine::combine;
use crate::list::{read_combined, write_called, write_combined};
use crate::record::{read_file, sorted_folders};
use crate::text::Rules;
use std::panic::{catch_unwind, set_hook, take_hook};
use std::path::Path;

/// The Rust's answer without asking whether the scope accepts the input.
pub fn anyway(what: &str, path: &Path) -> Result<String, String> {
    match what {
        "combine" => {
            let lent = Lent::read(path, Rules::Off)?;
            caught(|| combine(&lent).map(|list| write_combined(&list)))
        }
        "call" | "genotype" => {
            let text = read_file(path)?;
            let list = read_combined(&text, Rules::Off).map_err(|r| r.to_string())?;
            match what {
                "call" => caught(|| call_by_the_whole(&list).map(|list| write_called(&list))),
                _ => caught(|| genotype_by_default(&list)),
            }
        }
        name => {
            let kind = kind(name).ok_or(format!("no kind {name}"))?;
            let text = read_file(path)?;
            caught(|| answer_text(kind, &text, Rules::Off))
        }
    }
}

fn caught<F>(run: F) -> Result<String, String>
where
    F: FnOnce() -> Result<String, String> + std::panic::UnwindSafe,
{
    let hook = take_hook();
    set_hook(Box::new(|_| {}));
    let outcome = catch_unwind(run);
    set_hook(hook);
    outcome.unwrap_or_else(|payload| {
        let message = match payload.downcast_ref::<String>() {
            Some(text) => text.as_str(),
            None => payload.downcast_ref::<&str>().unwrap_or(&"no message"),
        };
        Err(format!("the Rust panics: {message}"))
    })
}

/// Each folder holds the files of one input: cohort.kv (with clip.kv and reference.kv),
/// combined.kv, or the groups of a kind.
pub fn differences(folder: &Path) -> Result<String, String> {
    let mut report = String::new();
    for case in sorted_folders(folder)? {
        let name = case.file_name().unwrap_or_default().to_string_lossy();
        let (what, path) = input_of(&case)?;
        let answer = match anyway(what, &path) {
            Ok(text) => text,
            Err(message) => format!("{message}\n"),
        };
        report.push_str(&format!("== {name}: {what}\n{answer}"));
    }
    Ok(report)
}

fn input_of(case: &Path) -> Result<(&'static str, std::path::PathBuf), String> {
    if case.join("cohort.kv").exists() {
        return Ok(("combine", case.to_path_buf()));
    }
    let files = [
        ("genotype", "genotype.kv"),
        ("call", "combined.kv"),
        ("trim", "trim.kv"),
        ("likelihoods", "likelihoods.kv"),
        ("gq", "gq.kv"),
        ("subset", "subset.kv"),
        ("unused_alts", "unused_alts.kv"),
    ];
    for (what, file) in files {
        if case.join(file).exists() {
            return Ok((what, case.join(file)));
        }
    }
    Err(format!("{}: no input", case.display()))
}
