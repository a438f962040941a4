//! The commands: generated inputs from a seed, so many of them, and the borders of the domain.

use compare::{bad, borders, call, combine, demand3, groups, look_up, looks, orders, spelling};
use std::path::Path;
use std::process::ExitCode;

const USAGE: &str = "\
  compare combine SEED COUNT    COUNT cohorts of every sort through the Rust and through the library
  compare recorded FOLDER       the recorded cohorts, each with 0, 1, 2, B - 1, B and B + 1 places
  compare lists SEED COUNT FOLDER
                                COUNT cohorts with overlapping sites of a sample, with letters needed and no reference, with small
                                letters or with MIN_DP, and the library's lists, into FOLDER, for model.py
  compare looks SEED COUNT      COUNT cohorts, as they are and changed: the looks of every contig, counted once more
  compare look_up SEED COUNT    COUNT combined lists, some with faults, and pairs: which record holds each, searched once more
  compare call SEED COUNT       COUNT combined lists: the called list
  compare KIND SEED COUNT       COUNT groups; KIND is trim, likelihoods, gq, subset or unused_alts
  compare demand3 SEED COUNT    COUNT pairs of cohorts: what the first list says stands in the second
  compare orders SEED COUNT     COUNT pairs of orders of one cohort, with a reference: the lists agree
  compare bad SEED COUNT        COUNT texts with faults: rows 1 to 9, buffers, nothing touched outside
  compare bad_list SEED COUNT   COUNT combined lists with faults: rows 1 to 8
  compare spelling              letters of either case, on purpose: lists
  compare spelling_others       the same calls' looks, combined lists, trim and subsets
  compare borders               the ends of the domain: largest counts and lengths, and one more
";

fn run(words: &[&str]) -> Result<String, String> {
    let number = |word: &str| word.parse::<u64>().map_err(|_| format!("`{word}` is not a number"));
    match *words {
        ["borders"] => borders::check(),
        ["spelling"] => spelling::check(),
        ["spelling_others"] => spelling::check_others(),
        ["recorded", folder] => combine::recorded(Path::new(folder)),
        ["combine", seed, count] => combine::compare(number(seed)?, number(count)?),
        ["lists", seed, count, folder] => combine::lists(number(seed)?, number(count)?, Path::new(folder)),
        ["looks", seed, count] => looks::compare(number(seed)?, number(count)?),
        ["look_up", seed, count] => look_up::check(number(seed)?, number(count)?),
        ["call", seed, count] => call::compare(number(seed)?, number(count)?),
        ["demand3", seed, count] => demand3::check(number(seed)?, number(count)?),
        ["orders", seed, count] => orders::check(number(seed)?, number(count)?),
        ["bad", seed, count] => bad::check(number(seed)?, number(count)?),
        ["bad_list", seed, count] => bad::check_lists(number(seed)?, number(count)?),
        [kind, seed, count] => groups::compare(kind, number(seed)?, number(count)?),
        _ => Err(format!("usage:\n{USAGE}")),
    }
}

fn main() -> ExitCode {
    let words: Vec<String> = std::env::args().skip(1).collect();
    let words: Vec<&str> = words.iter().map(String::as_str).collect();
    match run(&words) {
        Ok(text) => {
            print!("{text}");
            ExitCode::SUCCESS
        }
        Err(message) => {
            eprintln!("compare: {message}");
            ExitCode::FAILURE
        }
    }
}
