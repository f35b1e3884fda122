#!/bin/sh
# Draws the cells that `cudrakh query` printed, over time, a panel for each ask, with gnuplot (Debian: gnuplot-nox). A decimal stands at its value,
# a label at its raw number; of a replay only the number of its packets is told. The answer is read from standard input or ANSWER; the sheet of its asks gives the panels their parameters' names.
set -eu
export LC_ALL=C

usage() {
  echo 'usage: plot.sh [--ask FILE] PICTURE [ANSWER]    (PICTURE ends in .svg or .png)' >&2
  exit 2
}

fail() {
  echo "plot.sh: $1" >&2
  exit 1
}

asks=/dev/null
if [ "${1-}" = --ask ]; then
  [ $# -gt 2 ] || usage
  asks=$2
  shift 2
fi
[ $# -eq 1 ] || [ $# -eq 2 ] || usage
case $1 in
  *.svg) terminal=svg ;;
  *.png) terminal=pngcairo ;;
  *) usage ;;
esac
command -v gnuplot >/dev/null || fail 'gnuplot is missing; on Debian: apt-get install gnuplot-nox'

work=$(mktemp -d)
trap 'rm -rf "$work"' EXIT
cat -- "$asks" >"$work/asks"
cat -- "${2:--}" >"$work/answer"

# the cells, and what gnuplot is to do with them
awk -v terminal="$terminal" '
  function fail(why) {
    print "plot.sh: " why >"/dev/stderr"
    exit failed = 1
  }

  # a text between quotes of gnuplot
  function quoted(text) {
    gsub(/\047/, "\047\047", text)
    return "\047" text "\047"
  }

  # a label as a mark of an axis, where gnuplot takes % for a format
  function mark(label) {
    if (length(label) > 24) label = substr(label, 1, 22) ".."
    gsub(/%/, "%%", label)
    return label
  }

  # a margin beside what lies from low to high
  function margin(low, high) {
    return high > low ? (high - low) / 8 : (high < 0 ? -high : high) / 8 + 1
  }

  # the picture of one ask
  function panel(k,    n, low, high, at, tics) {
    print "set title " quoted(name[k] (cells[k] ? "" : packets[k] ? ": " packets[k] " packets" : ": no cells")) " offset 0,-0.5"
    if (k == asks) {
      print "set xtics time format " quoted(clock)
      printf "set xlabel day(%.3f) . (day(%.3f) eq day(%.3f) ? \"\" : \" to \" . day(%.3f)) . \", UTC\"\n", first, first, last, last
    }
    printf "$cells%d << end\n", k
    for (n = 1; n <= cells[k]; n++) {
      at = labelled[k] ? raw[k, n] : text[k, n]
      printf "%.3f %s\n", time[k, n], at
      if (n == 1 || at + 0 < low) low = at + 0
      if (n == 1 || at + 0 > high) high = at + 0
      if (labelled[k] && !((k, at) in seen)) {
        seen[k, at] = 1
        tics = tics (tics == "" ? "" : ", ") quoted(mark(text[k, n])) " " at
      }
    }
    print "end"
    printf "set yrange [%.9g:%.9g]\n", low - margin(low, high), high + margin(low, high)
    print !cells[k] ? "unset ytics" : labelled[k] ? "set ytics (" tics ")" : "set ytics autofreq"
    if (cells[k]) printf "plot $cells%d using 1:2 with points pointtype 7 pointsize 0.35 linecolor \"#1f4e79\" notitle\n", k
    else print "plot NaN notitle"
  }

  # the sheet of asks; where it was answered, no field has a comma or a quote in it
  FILENAME ~ /\/asks$/ {
    gsub(/["\r]/, "")
    if (FNR > 1 && $0 != "") {
      split($0, field, ",")
      name[++names] = field[2]
    }
    next
  }

  /^ask [0-9]+ front [0-9]+$/ && !open {
    open = ++asks
    if (asks > names) name[asks] = "ask " asks
    next
  }

  open && match($0, /^cell -?[0-9]+ [0-9]+ -?[0-9]+ /) {
    value = substr($0, RLENGTH + 1)
    if (length(value) > widest) widest = length(value)
    if (value !~ /^-?[0-9]+(\.[0-9]+)?$/) labelled[asks] = 1
    n = ++cells[asks]
    time[asks, n] = $2 / 1000
    raw[asks, n] = $4
    text[asks, n] = value
    if (!total++ || time[asks, n] < first) first = time[asks, n]
    if (total == 1 || time[asks, n] > last) last = time[asks, n]
    next
  }

  open && /^packet / { packets[asks]++; next }

  open && $0 == "end " (cells[asks] + packets[asks] + 0) { open = 0; next }

  { fail("line " FNR " is none of an answer: " $0) }

  END {
    if (failed) exit 1
    if (open || !asks) fail("the answer isn\047t whole")
    if (!total) fail("no cells")
    beside = last > first ? (last - first) / 50 : 1
    clock = last - first > 172800 ? "%m-%d %H:%M" : last - first < 10 ? "%H:%M:%.1S" : "%H:%M:%S"
    height = asks < 200 ? 90 + 140 * asks : 30000
    printf "set terminal %s size 900,%d noenhanced font \"sans,10\" background \"white\"\n", terminal, height
    printf "set multiplot layout %d,1 margins %.4f,0.96,%.6f,%.6f", asks, (7 * (widest > 24 ? 24 : widest) + 30) / 900, 55 / height, 1 - 30 / height
    printf " spacing 0,%.6f\n", 36 / height
    printf "set xrange [%.3f:%.3f]\n", first - beside, last + beside
    print "set xtics time format \"\""
    print "set grid"
    print "day(t) = strftime(\"%Y-%m-%d\", t)"
    for (k = 1; k <= asks; k++) panel(k)
  }
' "$work/asks" "$work/answer" >"$work/script"
gnuplot "$work/script" >"$work/picture"
cat "$work/picture" >"$1"
