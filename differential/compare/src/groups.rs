//! Trim, GQ, likelihoods and subsets: the Rust's answers against the library's, f64 by f64, bit by bit but for the signs of zeros.

use oracle::alleles::{answer_group, kind};
use oracle::generate;
use oracle::rng::mix;
use oracle::text::Rules;
use wintabol::Refused;

fn list(value: &str) -> Vec<&str> {
    match value {
        "." => Vec::new(),
        _ => value.split(',').collect(),
    }
}

fn numbers<T: std::str::FromStr>(value: &str) -> Vec<T> {
    list(value).into_iter().filter_map(|v| v.parse().ok()).collect()
}

fn floats(value: &str) -> Vec<f64> {
    list(value).into_iter().filter_map(|v| u64::from_str_radix(v, 16).ok()).map(f64::from_bits).collect()
}

fn written(values: Vec<String>) -> String {
    if values.is_empty() {
        ".".to_string()
    } else {
        values.join(",")
    }
}

fn bits(values: &[f64]) -> String {
    written(values.iter().map(|v| if *v == 0.0 { 0 } else { v.to_bits() }).map(|b| format!("{b:016x}")).collect())
}

/// The library's answers, in the order of the Rust's.
fn ours(name: &str, inputs: &[String]) -> Result<Vec<String>, Refused> {
    let (mut bytes, mut reals, mut counts) = ([0u8; 8192], [0f64; 256], [0u32; 256]);
    Ok(match name {
        "trim" => {
            let n = wintabol::reverse_trim_alleles(inputs[0].as_bytes(), &mut bytes)?;
            vec![String::from_utf8_lossy(&bytes[..n]).into_owned()]
        }
        "gq" => vec![wintabol::gq_phred_from_pl(&numbers::<u32>(&inputs[0])).to_string()],
        "likelihoods" => {
            let n = wintabol::log10_likelihoods_from_pl(&numbers::<u32>(&inputs[0]), &mut reals)?;
            vec![bits(&reals[..n])]
        }
        "subset" => {
            let alleles = inputs[1].parse().unwrap_or(0);
            let n = wintabol::subset_log10_genotype_likelihoods(
                &floats(&inputs[0]),
                alleles,
                &numbers::<usize>(&inputs[2]),
                &mut reals,
            )?;
            vec![bits(&reals[..n])]
        }
        _ => {
            let alts = if inputs[0] == "." { "" } else { &inputs[0] };
            // -1, the Rust's no-call, is no allele
            let gt: Vec<usize> = numbers::<i64>(&inputs[1]).into_iter().map(|g| g as usize).collect();
            let n = wintabol::subset_unused_alts(
                alts.as_bytes(),
                &gt,
                &floats(&inputs[2]),
                &numbers::<u32>(&inputs[3]),
                &mut bytes,
                &mut reals,
                &mut counts,
            )?;
            let alts = String::from_utf8_lossy(&bytes[..n.alts]).into_owned();
            vec![
                if alts.is_empty() { ".".to_string() } else { alts },
                bits(&reals[..n.gl]),
                written(counts[..n.ad].iter().map(u32::to_string).collect()),
            ]
        }
    })
}

/// A value of the Rust without the signs of its zeros.
fn unsigned_zeros(value: &str) -> String {
    value.replace("8000000000000000", "0000000000000000")
}

pub fn compare(name: &str, seed: u64, count: u64) -> Result<String, String> {
    let kind = kind(name).ok_or(format!("no kind {name}"))?;
    for i in 0..count {
        let inputs = generate::group(name, mix(seed ^ mix(i)));
        let told = |what: String| format!("seed {seed}, group {i} of {name}, {inputs:?}: {what}");
        let text = answer_group(kind, &inputs, Rules::On).map_err(told)?;
        let theirs: Vec<String> = text
            .lines()
            .skip(kind.inputs.len())
            .map(|line| unsigned_zeros(line.split_once('=').map_or("", |l| l.1)))
            .collect();
        match ours(name, &inputs) {
            Ok(answers) if answers == theirs => {}
            other => return Err(told(format!("{theirs:?} expected, {other:?} answered"))),
        }
    }
    Ok(format!("{count} groups of {name}: no difference\n"))
}
