#!/bin/sh
# build.sh NAME [CRATE]: links bench/NAME/main.rs with the static library of CRATE, starlark_c where none is named, into
# bench/NAME/out/NAME. The library's heap is the toolchain's C object beside the page that rt doc names; HEAP names
# another.
set -eu
here=$(cd "$(dirname "$0")" && pwd)
crate=${2:-starlark_c}
library="$here/../crates/$crate/out/lib$crate.a"
heap=${HEAP:-$(dirname "$(rt doc)")/c/liblibc_c.a}
[ -f "$library" ] || (cd "$here/../crates/$crate" && rt lib >&2)
mkdir -p "$here/$1/out"
rustc --edition 2024 -C opt-level=3 -C target-cpu=x86-64-v2 -C link-arg="$library" -C link-arg="$heap" -o "$here/$1/out/$1" "$here/$1/main.rs"
