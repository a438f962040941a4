#!/bin/sh
# For orientation: bcftools merge --gvcf (Debian's bcftools and tabix) on the same sites, as files: whole process, mean of ten runs.
# Run in this folder, after cargo build --release --offline. What it prints beside it is a call of the library on the same cohort.
folder=$(mktemp -d)
echo "shape samples sites bcftools_us ours_us"
for size in "mixed 8 512" "mixed 32 1024" "mixed 64 4096" "dense 32 1024" "blocks 32 1024"; do
    rm -rf "$folder"/*
    target/release/vcf $size "$folder"
    for f in "$folder"/*.vcf; do bgzip "$f" && tabix -p vcf "$f.gz"; done
    samtools faidx "$folder/reference.fa" 2>/dev/null || printf 'chr01\t200000\t7\t200000\t200001\n' >"$folder/reference.fa.fai"
    bcftools merge --gvcf "$folder/reference.fa" "$folder"/*.vcf.gz -o "$folder/merged.vcf" || exit 1
    start=$(date +%s%N)
    for i in 1 2 3 4 5 6 7 8 9 10; do bcftools merge --gvcf "$folder/reference.fa" "$folder"/*.vcf.gz -o "$folder/merged.vcf"; done
    end=$(date +%s%N)
    ours=$(target/release/bench 5 $size | tail -1 | cut -d' ' -f7)
    echo "$size $(((end - start) / 10000)) $ours"
done
rm -rf "$folder"
