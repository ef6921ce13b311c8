#!/bin/sh
# Prints how places compare with plain Rust. Needs rt and rustc on the path.
set -eu
here=$(cd "$(dirname "$0")" && pwd)
"$here/../build.sh" place
exec "$here/out/place"
