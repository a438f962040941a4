#!/bin/sh
# Instructions of one call of each side, by callgrind: what two calls take more than one. Run in this folder, after cargo build --release --offline.
# The C library's memset and memcpy are kept from `rep stosb` and `rep movsb`, which callgrind would count by the byte.
export GLIBC_TUNABLES=glibc.cpu.x86_rep_stosb_threshold=1000000000:glibc.cpu.x86_rep_movsb_threshold=1000000000
echo "shape samples sites rust_instructions ours_instructions ratio"
count() {
    valgrind --tool=callgrind --callgrind-out-file=/dev/null target/release/one "$@" 2>&1 | sed -n 's/.*Collected : //p'
}
for shape in mixed dense blocks contigs overlaps; do
    for size in "2 10" "2 64" "4 128" "8 256" "8 512" "16 1024" "32 1024" "32 2048" "64 2048" "64 4096"; do
        rust=$(($(count rust $shape $size 2) - $(count rust $shape $size 1)))
        ours=$(($(count ours $shape $size 2) - $(count ours $shape $size 1)))
        echo "$shape $size $rust $ours $(awk "BEGIN { printf \"%.2f\", $rust / $ours }")"
    done
done
