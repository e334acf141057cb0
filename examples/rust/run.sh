#!/usr/bin/env bash
# Builds the archive and the program from a fresh checkout, and runs it; a job file may be given. Ends with a status other than 0 where an
# answer is not the one that is wanted. Needs the Rattle kit and rustc.
set -euo pipefail
here=$(cd "$(dirname "$0")" && pwd)
top=$(cd "$here/../.." && pwd)
kit=$(dirname "$(rt doc)")
(cd "$top/crates/dagrelk" && rt lib)
mkdir -p "$here/out"
rustc --edition 2024 -O -o "$here/out/run" "$here/main.rs" \
  -C link-arg="$top/crates/dagrelk/out/libdagrelk.a" -C link-arg="$kit/c/liblibc_c.a"
"$here/out/run" "$@"
