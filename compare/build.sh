#!/bin/sh
# build.sh OUT                makes OUT/compare, which compares by the program saltjob alone, and OUT/second, which runs a job from standard input
# build.sh OUT ARCHIVE..      makes OUT/compare with the C call too (libdagrelk.a, then liblibc_c.a of the kit)
set -eu
here=$(cd "$(dirname "$0")" && pwd)
out=$1
shift
mkdir -p "$out"
flags="-std=c++17 -O3 -fno-math-errno -Wall -Wextra"
: "${CXX:=g++}"
$CXX $flags -DSECOND_MAIN "$here/engine.cpp" -o "$out/second"
if [ $# -gt 0 ]; then
  $CXX $flags "$here/compare.cpp" "$@" -lpthread -o "$out/compare"
else
  $CXX $flags -DPROGRAM_ONLY "$here/compare.cpp" -o "$out/compare"
fi
