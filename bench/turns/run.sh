#!/usr/bin/env bash
# Proves, builds and runs the program of this folder, over the libraries of the repository, and the lock of std beside it.
set -eu
here=$(cd "$(dirname "$0")" && pwd)
top=$(cd "$here/../.." && pwd)
dir=${BENCH_DIR:-/tmp/cudrakh-bench}
work=$dir/turns
mkdir -p "$work"
rsync -a --delete --exclude=turn_bench "$top/crates" "$top/HANDLES" "$work/" 2>/dev/null ||
  { rm -rf "$work/crates"; cp -a "$top/crates" "$top/HANDLES" "$work/"; }
{ cat "$top/crates.txt"; echo; grep '^live_tests:' "$top/crates.txt" | sed 's/^live_tests/turn_bench/'; } >"$work/crates.txt"
crate=$work/crates/turn_bench
mkdir -p "$crate/src" "$crate/specs" "$crate/proofs"
for name in main turns ingests; do cp "$here/$name.txt" "$crate/src/$name.rt"; done
renamed() { sed 's/live_tests/turn_bench/g' "$@"; }
renamed "$top/crates/live_tests/src/parts.rt" "$here/parts.txt" >"$crate/src/parts.rt"
files='specs/Lib specs/Heads proofs/Sending proofs/parts/arrival/Answers proofs/parts/batch/Answers proofs/parts/created/Answers'
for file in $files proofs/parts/in_turns/Answers; do
  mkdir -p "$(dirname "$crate/$file")"
  renamed "$top/crates/live_tests/$file.antt" >"$crate/$file.antt"
done
while read -r from to; do
  mkdir -p "$(dirname "$crate/proofs/$to")"
  cp "$here/proofs/$from.txt" "$crate/proofs/$to.antt"
done <<LIST
lib Lib
arrivals parts/arrivals_of/Answers
arrivals_loop parts/arrivals_of/Invariants
batch parts/batch_of/Answers
by_two ingests/by_two/Answers
ingest ingests/ingest/Answers
ingest_loop ingests/ingest/Invariants
take_turns turns/take_turns/Invariants
rounds turns/rounds/Invariants
LIST
rustc --edition 2021 -C opt-level=3 -o "$dir/mutex" "$here/mutex.rs"
cd "$crate"
rt run
"$dir/mutex"
