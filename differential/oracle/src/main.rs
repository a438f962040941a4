//! The oracle's commands.

use oracle::alleles::{answer_group, answer_text, kind};
use oracle::cohort::Lent;
use oracle::differences::{anyway, differences};
use oracle::list::{read_combined, write_combined, List};
use oracle::record::{called, check, combined, read_file, record, sweep, write_file};
use oracle::text::Rules;
use oracle::{domain, generate};
use std::env;
use std::io::Write;
use std::path::Path;
use std::process::ExitCode;

const USAGE: &str = "\
The original Rust, unchanged, answering in the project's text formats.

  oracle combine FOLDER            the Rust's combined list of cohort.kv, and of clip.kv and
                                   reference.kv where FOLDER has them
  oracle call FILE                 the Rust's called list of a combined list
  oracle KIND FILE                 groups with the Rust's answers; KIND is trim, likelihoods,
                                   gq, subset or unused_alts; answers in FILE are passed over
  oracle domain FOLDER             whether the scope accepts the call, by the oracle's own check
  oracle anyway combine FOLDER     what the Rust does where the scope refuses; likewise
  oracle anyway call FILE          for a combined list,
  oracle anyway KIND FILE          for groups,
  oracle anyway genotype FILE      and the records that the Rust's whole GenotypeGVCFs keeps
  oracle differences FOLDER        the inputs of docs/DIFFERENCES.md, with what the Rust does
  oracle sorts                     the sorts of calls that can be generated
  oracle generate SORT SEED FOLDER a call of that sort into FOLDER
  oracle generate combined SEED FOLDER
                                   a combined list into FOLDER
  oracle generate KIND SEED        one group
  oracle record SEED FOLDER        the recorded answers, into a new FOLDER
  oracle check FOLDER              the Rust against recorded answers, byte for byte
  oracle sweep SEED COUNT          COUNT generated calls, lists and groups through the Rust
  oracle coverage FOLDER [MORE]    check, then the inputs in MORE as for differences, then the
                                   counts at the Rust's branches (built with --features counters)
";

fn main() -> ExitCode {
    let words: Vec<String> = env::args().skip(1).collect();
    let words: Vec<&str> = words.iter().map(String::as_str).collect();
    match run(&words) {
        Ok(text) => match std::io::stdout().write_all(text.as_bytes()) {
            Ok(()) => ExitCode::SUCCESS,
            Err(_) => ExitCode::FAILURE,
        },
        Err(message) => {
            eprintln!("oracle: {message}");
            ExitCode::FAILURE
        }
    }
}

fn run(words: &[&str]) -> Result<String, String> {
    match *words {
        ["combine", folder] => Ok(combined(&Lent::read(Path::new(folder), Rules::On)?)?.1),
        ["call", file] => called(&combined_list(file, Rules::On)?),
        ["domain", folder] => {
            let lent = Lent::read(Path::new(folder), Rules::On)?;
            domain::check(&lent).map_err(|r| r.to_string())?;
            Ok("accepted\n".to_string())
        }
        ["anyway", what, path] => anyway(what, Path::new(path)),
        ["differences", folder] => differences(Path::new(folder)),
        ["generate", "combined", seed, folder] => {
            let text = write_combined(&generate::combined_list(seed_of(seed)?));
            write_file(&Path::new(folder).join("combined.kv"), &text)?;
            Ok(String::new())
        }
        ["generate", sort, seed, folder] => generate_call(sort, seed_of(seed)?, Path::new(folder)),
        ["generate", name, seed] => {
            let kind = kind(name).ok_or(format!("no kind {name}"))?;
            answer_group(kind, &generate::group(name, seed_of(seed)?), Rules::On)
        }
        ["sorts"] => Ok(generate::PROFILES
            .iter()
            .map(|p| format!("{}\n", p.name))
            .collect()),
        ["record", seed, folder] => {
            record(Path::new(folder), seed_of(seed)?)?;
            check(Path::new(folder))
        }
        ["check", folder] => check(Path::new(folder)),
        ["sweep", seed, count] => sweep(seed_of(seed)?, seed_of(count)?),
        ["coverage", folder] => coverage(Path::new(folder), None),
        ["coverage", folder, more] => coverage(Path::new(folder), Some(Path::new(more))),
        [name, file] if kind(name).is_some() => {
            let kind = kind(name).ok_or("no such kind")?;
            answer_text(kind, &read_file(Path::new(file))?, Rules::On)
        }
        _ => Err(format!("usage:\n{USAGE}")),
    }
}

fn combined_list(file: &str, rules: Rules) -> Result<List, String> {
    read_combined(&read_file(Path::new(file))?, rules).map_err(|r| format!("{file}: {r}"))
}

fn seed_of(word: &str) -> Result<u64, String> {
    word.parse()
        .map_err(|_| format!("`{word}` is not a number"))
}

fn generate_call(sort: &str, seed: u64, folder: &Path) -> Result<String, String> {
    let profile = generate::profile(sort).ok_or(format!("no sort {sort}"))?;
    for (name, text) in generate::lent(profile, seed).files() {
        write_file(&folder.join(name), &text)?;
    }
    Ok(String::new())
}

#[cfg(not(feature = "counters"))]
fn coverage(_folder: &Path, _more: Option<&Path>) -> Result<String, String> {
    Err("build with --features counters".to_string())
}

#[cfg(feature = "counters")]
fn coverage(folder: &Path, more: Option<&Path>) -> Result<String, String> {
    use gatk_haplotypecaller::counters::{count, PLACES};
    let mut report = check(folder)?;
    if let Some(folder) = more {
        differences(folder)?;
    }
    let (mut ways, mut reached) = (0, 0);
    for (number, (file, line, kind, text)) in PLACES.iter().enumerate() {
        let (first, second) = count(number);
        let counts = match *kind {
            "cond" | "some" => vec![first, second],
            _ => vec![first],
        };
        ways += counts.len();
        reached += counts.iter().filter(|&&c| c > 0).count();
        let mark = if counts.contains(&0) {
            "NOT REACHED "
        } else {
            ""
        };
        let counts = oracle::text::comma(&counts);
        report.push_str(&format!("{mark}{file}:{line} {kind} {counts} {text}\n"));
    }
    report.push_str(&format!("{reached} of {ways} ways reached\n"));
    Ok(report)
}
