#!/usr/bin/env bash
# Proves every crate (what an earlier run on this machine proved of the same files counts), tries the must-fail edits, runs the programs
# and the tests, and compares `saltjob` with the second engine. Fails too where an edit could not be tried, and where an example is not the
# one that the gate runs. Needs the Rattle kit and a C++ compiler (CXX, else g++). The last line is rt's count.
set -euo pipefail
cd "$(dirname "$0")"
# The example jobs and the README's picture are what the gate runs and compares.
for job in examples/jobs/*.job; do
  name=$(basename "$job" .job)
  cmp "$job" "crates/job_cases/data/example_$name.job"
  cmp "examples/jobs/$name.out" "crates/job_cases/data/example_$name.out"
done
cmp docs/picture.job crates/saltpic/data/job.txt
cmp docs/picture.svg crates/saltpic/stdout
room=$(mktemp -d)
trap 'rm -rf "$room"' EXIT
rt ci 2>&1 | tee "$room/log" | sed -u '$d' || { tail -n 1 "$room/log"; exit 1; }
if grep -E '^rt: ok' "$room/log" | grep -qE ', [1-9][0-9]* bad'; then
  echo "test.sh: an edit of must-fail/ could not be tried: read the lines BAD EDIT above" >&2
  exit 1
fi
# The gate has just built the program.
compare/build.sh "$room"
"$room/compare" --program crates/saltjob/out/saltjob 3000 1
tail -n 1 "$room/log"
