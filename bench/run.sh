#!/usr/bin/env bash
# The benchmark, in one command: builds both engines and prints time, space and instructions of each case side by side.
# Needs the Rattle kit, g++ and, for the instructions, valgrind. Nothing else should run on the machine.
set -euo pipefail
here=$(cd "$(dirname "$0")" && pwd)
top=$(cd "$here/.." && pwd)
kit=$(dirname "$(rt doc)")
for name in bench_calls dagrelk; do (cd "$top/crates/$name" && rt lib > /dev/null); done
mkdir -p "$here/out"
"${CXX:-g++}" -std=c++17 -O3 -fno-math-errno -march=x86-64-v2 -Wall -Wextra -Wl,--wrap=malloc -o "$here/out/bench" "$here/bench.cpp" \
  "$top/crates/bench_calls/out/libbench_calls.a" "$top/crates/dagrelk/out/libdagrelk.a" "$kit/c/liblibc_c.a" -lpthread
bench="$here/out/bench"
"$bench" time
"$bench" space
command -v valgrind > /dev/null || exit 0
count() { valgrind --tool=callgrind --callgrind-out-file=/dev/null "$bench" only "$1" "$2" 2>&1 | sed -n 's/.*Collected : \([0-9]*\).*/\1/p'; }
printf '%-80s %12s %12s %7s\n' 'instructions, without text' ours second ratio
for ((n = 0; n < $("$bench" cases); ++n)); do
  name=$("$bench" only 0 $((2 * n)) | sed 's/: [0-9]*$//')
  read -r times off <<< "$("$bench" times "$n")"
  # Starting the program is taken off where nothing else is: an empty run of it.
  nothing=$(valgrind --tool=callgrind --callgrind-out-file=/dev/null "$bench" times "$n" 2>&1 | sed -n 's/.*Collected : \([0-9]*\).*/\1/p')
  for engine in 0 1; do
    if [ "$off" = 1 ]; then less=$(count $engine $((2 * n + 1))); else less=$nothing; fi
    took[engine]=$((($(count $engine $((2 * n))) - less) / times))
  done
  printf '%-80s %12d %12d %7s\n' "$name" "${took[0]}" "${took[1]}" "$(awk "BEGIN { printf \"%.2f\", ${took[0]} / ${took[1]} }")"
done
