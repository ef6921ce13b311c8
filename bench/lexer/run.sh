#!/bin/sh
# run.sh TEXTS PEER: prints how the lexer compares with the peer's scanner on the texts of a folder. `PEER bench FILE N
# lex` prints `median_ns_per_byte=` and `min=` with a number each, and fails at a fault. Needs rt and rustc on the path.
set -eu
here=$(cd "$(dirname "$0")" && pwd)
"$here/../build.sh" lexer
exec "$here/out/lexer" "$1" "$2" "$here/out/joined"
