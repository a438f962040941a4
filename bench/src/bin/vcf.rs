//! A cohort of the benchmark as gVCF files, one for each sample, and the reference's bases: vcf SHAPE SAMPLES SITES FOLDER.

#[path = "../shapes.rs"]
mod shapes;

use oracle::cohort::Site;
use oracle::text::comma;
use std::fmt::Write;
use std::fs;

const LAST: u64 = 200_000;

const HEADER: &str = "##fileformat=VCFv4.3
##contig=<ID=chr01,length=200000>
##INFO=<ID=END,Number=1,Type=Integer,Description=\"Last position\">
##FORMAT=<ID=GT,Number=1,Type=String,Description=\"Genotype\">
##FORMAT=<ID=GQ,Number=1,Type=Integer,Description=\"Genotype quality\">
##FORMAT=<ID=DP,Number=1,Type=Integer,Description=\"Depth\">
##FORMAT=<ID=AD,Number=R,Type=Integer,Description=\"Allele depths\">
##FORMAT=<ID=PL,Number=G,Type=Integer,Description=\"Likelihoods\">
##FORMAT=<ID=MIN_DP,Number=1,Type=Integer,Description=\"Least depth in a block\">
";

fn line(site: &Site) -> String {
    let end = if site.is_block() { format!("END={}", site.end) } else { ".".to_string() };
    let numbers = |values: &Option<Vec<u32>>| values.as_ref().map_or(".".to_string(), |v| comma(v));
    let one = |value: Option<u32>| value.map_or(".".to_string(), |n| n.to_string());
    format!(
        "{}\t{}\t.\t{}\t{}\t.\t.\t{end}\tGT:GQ:DP:AD:PL:MIN_DP\t0/0:{}:{}:{}:{}:{}\n",
        site.contig,
        site.start,
        site.ref_allele,
        site.alts.join(","),
        one(site.gq),
        one(site.dp),
        numbers(&site.ad),
        numbers(&site.pl),
        one(site.min_dp)
    )
}

fn main() -> std::io::Result<()> {
    let words: Vec<String> = std::env::args().collect();
    let number = |i: usize| words[i].parse::<usize>().expect("a number");
    let cohort = shapes::cohort(&words[1], number(2), number(3), 20261115);
    for (i, name) in cohort.samples.iter().enumerate() {
        let mut text = HEADER.to_string();
        let _ = writeln!(text, "#CHROM\tPOS\tID\tREF\tALT\tQUAL\tFILTER\tINFO\tFORMAT\t{name}");
        cohort.sites.iter().filter(|s| s.sample == i).for_each(|s| text.push_str(&line(s)));
        fs::write(format!("{}/{name}.vcf", words[4]), text)?;
    }
    let bases: String = (1..=LAST).map(shapes::letter).collect();
    fs::write(format!("{}/reference.fa", words[4]), format!(">chr01\n{bases}\n"))
}
