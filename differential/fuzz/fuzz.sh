#!/bin/sh
# Fuzzes the compiled library with AFL++ (Debian's package afl++) for so many seconds: ./fuzz.sh SECONDS. Run in this folder.
# The library is built as tools/static_library.sh builds it, but with clang told to count edges; the kit is left as it is: a folder of links to
# it has a clang of two lines. The archive in target/staticlib stays as it is, and crates/wintabol_c/out is built anew at the end.
set -e
seconds=${1:?seconds}
root=$(cd ../.. && pwd)
work=$root/target/fuzz
kit=$work/kit
home=$(cd "$(dirname "$(readlink -f "$(command -v rt)")")/.." && pwd)
rm -rf "$work"
mkdir -p "$kit/bin" "$kit/toolchain/bin" "$work/lib" "$work/seeds"
for f in "$home"/*; do case $(basename "$f") in bin | toolchain) ;; *) ln -s "$f" "$kit/" ;; esac; done
# rt takes the kit that it lies in, so its scripts are copies
for f in "$home"/bin/*; do case $(basename "$f") in rt*) cp "$f" "$kit/bin/" ;; *) ln -s "$f" "$kit/bin/" ;; esac; done
tools=$home/toolchain
ln -s "$tools/lib" "$kit/toolchain/lib"
ln -s "$tools/bin/rattle-x64" "$kit/toolchain/bin/"
for f in llvm-ar ld.lld; do ln -s "$tools/bin/clang" "$kit/toolchain/bin/$f"; done
printf '#!/bin/sh\nexec %s -fsanitize-coverage=trace-pc-guard "$@"\n' "$tools/bin/clang" >"$kit/toolchain/bin/clang"
chmod +x "$kit/toolchain/bin/clang"

(cd "$root/crates/wintabol_c" && "$kit/bin/rt" lib >"$work/build.log")
mv "$root/crates/wintabol_c/out/libwintabol_c.a" "$work/lib/libwintabol.a"
(cd "$root/crates/wintabol_c" && rt lib >>"$work/build.log")
(cd .. && WINTABOL_LIB=$work/lib cargo build --release --offline -p compare --lib --target-dir "$work/cargo")
afl-clang-fast -O2 main.c "$work/cargo/release/libcompare.a" -lpthread -ldl -lm -o "$work/one"

# seeds: small recorded calls, lists and alleles, each behind three bytes that say which function and how much room
seed() { printf "$1" >"$work/seeds/$2"; cat >>"$work/seeds/$2"; }
for i in $(seq -w 0 59); do
    d=$root/recorded/combine/0$i
    { cat "$d/cohort.kv"; if [ -f "$d/clip.kv" ] || [ -f "$d/reference.kv" ]; then printf '\0'; cat "$d/clip.kv" 2>/dev/null || true; fi
      if [ -f "$d/reference.kv" ]; then printf '\0'; cat "$d/reference.kv"; fi; } | seed '\000\100\010' "combine$i"
    seed '\004\000\020' "call$i" <"$root/recorded/call/0$i/combined.kv"
done
grep -h '^alleles=' "$root/recorded/trim.kv" | head -20 | sed 's/^alleles=//' | { n=0; while read -r l; do n=$((n + 1)); printf %s "$l" | seed '\006\000\002' "trim$n"; done; }
head -c 200 /dev/zero | seed '\007\100\000' subset
find "$work/seeds" -size +4k -delete

AFL_NO_UI=1 AFL_SKIP_CPUFREQ=1 AFL_I_DONT_CARE_ABOUT_MISSING_CRASHES=1 \
    afl-fuzz -i "$work/seeds" -o "$work/out" -V "$seconds" -- "$work/one" >"$work/afl.log" 2>&1
grep -E 'run_time|execs_done|execs_per_sec|corpus_count|bitmap_cvg|edges_found|total_edges|saved_crashes|saved_hangs|stability' "$work/out/default/fuzzer_stats"
