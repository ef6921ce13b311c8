#!/bin/sh
# run.sh: prints the instructions of edits and outlines of the program starlark_outline. Needs rt, rustc and valgrind on
# the path.
set -eu
here=$(cd "$(dirname "$0")" && pwd)
program="$here/../../crates/starlark_outline/out/starlark_outline"
[ -f "$program" ] || (cd "$here/../../crates/starlark_outline" && rt run < cases/empty >&2)
mkdir -p "$here/out"
rustc --edition 2024 -C opt-level=3 -o "$here/out/parts" "$here/main.rs"
exec "$here/out/parts" "$program" "$here/out/script"
