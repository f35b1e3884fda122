#!/usr/bin/env bash
# Measures the program beside its peers: run.sh [PACKETS..]
set -eu
here=$(cd "$(dirname "$0")" && pwd)
dir=${BENCH_DIR:-/tmp/cudrakh-bench}
program=$here/../crates/cudrakh/out/cudrakh
mkdir -p "$dir"
for name in dumps plain; do
  [ "$dir/$name" -nt "$here/$name.rs" ] || rustc --edition 2021 -C opt-level=3 -o "$dir/$name" "$here/$name.rs"
done
# without the library's header there is no SQLite to compare with
if echo '#include <sqlite3.h>' | cc -E - >/dev/null 2>&1; then
  [ "$dir/sqlite" -nt "$here/sqlite.c" ] || cc -O2 -o "$dir/sqlite" "$here/sqlite.c" -lsqlite3
fi
exec python3 "$here/measure.py" "$here" "$dir" "$program" "${@:-250000 1000000}"
