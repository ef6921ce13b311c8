#!/bin/sh
# run.sh TEXTS PEER [HEAP]: prints how the parser compares with the peer's on the texts of a folder. `PEER bench FILE N
# parse` prints `median_ns_per_byte=` and `min=` with a number each, and fails at a fault. HEAP is a shared library whose
# malloc is taken in place of the C library's. Needs rt and rustc on the path.
set -eu
here=$(cd "$(dirname "$0")" && pwd)
"$here/../build.sh" parser starlark_c_parser
[ -z "${3:-}" ] || export LD_PRELOAD="$3"
exec "$here/out/parser" "$1" "$2" "$here/out/joined"
