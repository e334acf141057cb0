#!/usr/bin/env bash
# Builds the archive and both programs from a fresh checkout, and runs them. Ends with a status other than 0 where an answer is not the
# one that is wanted. Needs the Rattle kit and a C compiler (CC, else gcc).
set -euo pipefail
here=$(cd "$(dirname "$0")" && pwd)
top=$(cd "$here/../.." && pwd)
kit=$(dirname "$(rt doc)")
(cd "$top/crates/dagrelk" && rt lib)
mkdir -p "$here/out"
for name in net threads; do
  "${CC:-gcc}" -std=gnu11 -O2 -Wall -Wextra -I "$top/include" -o "$here/out/$name" "$here/$name.c" \
    "$top/crates/dagrelk/out/libdagrelk.a" "$kit/c/liblibc_c.a" -lpthread
done
"$here/out/net"
"$here/out/threads"
