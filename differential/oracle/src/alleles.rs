//! Trim, likelihoods, GQ and the two subset functions: files of groups, each the inputs of one
//! call and the Rust's answers. `.` stands for an empty list, an f64 for its bits in hexadecimal.

use crate::text::*;
use gatk_haplotypecaller::allele_subsetting_pl::{
    subset_log10_genotype_likelihoods, subset_unused_alts_after_merged_genotyping,
};
use gatk_haplotypecaller::genotype_gvcfs::accessors::likelihoods;
use gatk_haplotypecaller::genotyping::gq_phred_from_pl;
use gatk_haplotypecaller::reverse_trim::reverse_trim_alleles;

type Answer = fn(&[String], Rules) -> Result<Vec<String>, String>;

/// One kind of group.
pub struct Kind {
    pub name: &'static str,
    pub inputs: &'static [&'static str],
    pub answers: &'static [&'static str],
    pub answer: Answer,
}

pub const KINDS: [Kind; 5] = [
    Kind {
        name: "trim",
        inputs: &["alleles"],
        answers: &["trimmed"],
        answer: trim,
    },
    Kind {
        name: "likelihoods",
        inputs: &["pl"],
        answers: &["log10"],
        answer: log10_of_pl,
    },
    Kind {
        name: "gq",
        inputs: &["pl"],
        answers: &["gq"],
        answer: gq,
    },
    Kind {
        name: "subset",
        inputs: &["gl", "alleles", "keep"],
        answers: &["subset"],
        answer: subset,
    },
    Kind {
        name: "unused_alts",
        inputs: &["alt", "gt", "gl", "ad"],
        answers: &["kept_alt", "kept_gl", "kept_ad"],
        answer: unused_alts,
    },
];

pub fn kind(name: &str) -> Option<&'static Kind> {
    KINDS.iter().find(|k| k.name == name)
}

/// The groups of a file with the Rust's answers; answers that stand in the file are passed over.
pub fn answer_text(kind: &Kind, text: &str, rules: Rules) -> Result<String, String> {
    let mut lines = Lines::new(text).map_err(|r| r.to_string())?;
    let mut out = String::new();
    while !lines.ended() {
        let first = lines.line_number() + 1;
        let mut inputs = Vec::new();
        for key in kind.inputs {
            inputs.push(lines.value(key).map_err(|r| r.to_string())?.to_string());
        }
        for key in kind.answers {
            if lines.next_is(key) {
                lines.value(key).map_err(|r| r.to_string())?;
            }
        }
        let group = answer_group(kind, &inputs, rules);
        out.push_str(&group.map_err(|e| format!("group at line {first}: {e}"))?);
    }
    Ok(out)
}

pub fn answer_group(kind: &Kind, inputs: &[String], rules: Rules) -> Result<String, String> {
    let answers = (kind.answer)(inputs, rules)?;
    let mut out = String::new();
    for (key, value) in kind.inputs.iter().zip(inputs) {
        line(&mut out, key, value);
    }
    for (key, value) in kind.answers.iter().zip(&answers) {
        line(&mut out, key, value);
    }
    Ok(out)
}

fn list(value: &str) -> Vec<&str> {
    match value {
        "." => Vec::new(),
        _ => value.split(',').collect(),
    }
}

fn written<T: ToString>(values: &[T]) -> String {
    if values.is_empty() {
        ".".to_string()
    } else {
        comma(values)
    }
}

pub fn bits(values: &[f64]) -> String {
    let hex: Vec<String> = values
        .iter()
        .map(|v| format!("{:016x}", v.to_bits()))
        .collect();
    written(&hex)
}

fn floats(value: &str) -> Result<Vec<f64>, String> {
    list(value)
        .into_iter()
        .map(|v| match u64::from_str_radix(v, 16) {
            Ok(bits) if format!("{bits:016x}") == v => Ok(f64::from_bits(bits)),
            _ => Err(format!("`{v}` is not the 16 hexadecimal digits of an f64")),
        })
        .collect()
}

fn numbers(value: &str) -> Result<Vec<i32>, String> {
    list(value)
        .into_iter()
        .map(|v| number(v).map(|n| n as i32).map_err(|r| r.to_string()))
        .collect()
}

/// GT numbers, which alone may be negative: -1 is the Rust's no-call.
fn genotype_numbers(value: &str) -> Result<Vec<i32>, String> {
    list(value)
        .into_iter()
        .map(|v| {
            v.parse::<i32>()
                .map_err(|_| format!("`{v}` is not a GT number"))
        })
        .collect()
}

fn trim(inputs: &[String], rules: Rules) -> Result<Vec<String>, String> {
    let mut alleles: Vec<String> = inputs[0].split(',').map(str::to_string).collect();
    if rules == Rules::On {
        check_trim(&alleles[0], &alleles[1..])?;
        alleles = alleles.iter().map(|a| capitals(a)).collect();
    }
    let (reference, alts) = (&alleles[0], &alleles[1..]);
    let (trimmed_ref, trimmed_alts) = reverse_trim_alleles(reference, alts);
    let mut trimmed = vec![trimmed_ref];
    trimmed.extend(trimmed_alts);
    Ok(vec![comma(&trimmed)])
}

fn check_trim(reference: &str, alts: &[String]) -> Result<(), String> {
    if !is_letters(reference, 255) {
        return Err(format!("REF `{reference}`"));
    }
    if alts.is_empty() {
        return Ok(());
    }
    check_alleles(reference, alts, 16, 255).map_err(|r| r.to_string())
}

fn log10_of_pl(inputs: &[String], _rules: Rules) -> Result<Vec<String>, String> {
    Ok(vec![bits(&likelihoods(&Some(numbers(&inputs[0])?)))])
}

fn gq(inputs: &[String], rules: Rules) -> Result<Vec<String>, String> {
    let pl = numbers(&inputs[0])?;
    if rules == Rules::On && pl.is_empty() {
        return Err("GQ needs PL".to_string());
    }
    Ok(vec![gq_phred_from_pl(&pl).to_string()])
}

/// Refusal 15 where a subset is made.
fn check_subset(gl: &[f64], alleles: usize, keep: &[usize]) -> Result<(), String> {
    if !(1..=16).contains(&alleles) {
        return Err(format!("{alleles} alleles"));
    }
    if gl.len() != pairs(alleles) {
        return Err(format!("{} likelihoods for {alleles} alleles", gl.len()));
    }
    if gl
        .iter()
        .any(|v| !v.is_finite() || v.abs() > 2_147_483_648.0)
    {
        return Err("a likelihood is not finite or beyond 2^31".to_string());
    }
    if keep.len() > 16 || keep.iter().any(|&k| k >= alleles) {
        return Err("keep numbers".to_string());
    }
    Ok(())
}

fn subset(inputs: &[String], rules: Rules) -> Result<Vec<String>, String> {
    let gl = floats(&inputs[0])?;
    let alleles = number(&inputs[1]).map_err(|r| r.to_string())? as usize;
    let keep: Vec<usize> = numbers(&inputs[2])?.iter().map(|&k| k as usize).collect();
    if rules == Rules::On {
        check_subset(&gl, alleles, &keep)?;
    }
    let picked = subset_log10_genotype_likelihoods(&gl, alleles, &keep)
        .map_err(|e| format!("the Rust gives an error: {e}"))?;
    Ok(vec![bits(&picked)])
}

fn check_unused_alts(alleles: usize, gt: &[i32], gl: &[f64], ad: &[i32]) -> Result<(), String> {
    if alleles > 16 {
        return Err(format!("{alleles} alleles"));
    }
    let assigned = |a: &usize| *a == 0 || gt.contains(&(*a as i32));
    let keep: Vec<usize> = (0..alleles).filter(assigned).collect();
    if keep.len() == alleles {
        return Ok(());
    }
    check_subset(gl, alleles, &keep)?;
    if keep.iter().any(|&k| k >= ad.len()) {
        return Err("AD without a kept entry".to_string());
    }
    Ok(())
}

fn unused_alts(inputs: &[String], rules: Rules) -> Result<Vec<String>, String> {
    let alts: Vec<String> = list(&inputs[0]).into_iter().map(str::to_string).collect();
    let gt = genotype_numbers(&inputs[1])?;
    let gl = floats(&inputs[2])?;
    let ad = numbers(&inputs[3])?;
    let alleles = 1 + alts.len();
    if rules == Rules::On {
        check_unused_alts(alleles, &gt, &gl, &ad)?;
    }
    let kept = subset_unused_alts_after_merged_genotyping(&alts, &gt, &gl, &ad)
        .map_err(|e| format!("the Rust gives an error: {e}"))?;
    Ok(vec![
        written(&kept.alt_alleles),
        bits(&kept.log10_gls),
        written(&kept.ad),
    ])
}
