#!/bin/sh
# Makes target/staticlib/libwintabol.a, the archive that C and Rust programs link. Run it in the repository's folder.
# `rt lib` proves the crate wintabol_c and what it stands on, and writes crates/wintabol_c/out/libwintabol_c.a; this is a copy under the name that
# callers link, `-lwintabol`.
set -e
(cd crates/wintabol_c && rt lib)
# include/wintabol.h says that the functions call nothing but memset and memcpy. No proof says so: a copy by the standard library would call memmove.
if command -v nm >/dev/null; then
    others=$(nm -u crates/wintabol_c/out/libwintabol_c.a | sed -n 's/^ *U //p' | grep -vx -e memset -e memcpy || true)
    if [ -n "$others" ]; then
        echo "the archive calls what include/wintabol.h does not name:" $others >&2
        exit 1
    fi
fi
mkdir -p target/staticlib
cp crates/wintabol_c/out/libwintabol_c.a target/staticlib/libwintabol.a
