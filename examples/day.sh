#!/usr/bin/env bash
# A day of an archive, in a folder that is removed at the end: one is made of made packets, and asked; another one is made of three sheets, two stations' dumps are loaded at once, it is asked, opened again, and compared with its packets.
set -eu
cd "$(dirname "$0")"
folder=$(mktemp -d)
trap 'rm -rf "$folder"' EXIT
# of packets that are made
export YARCH_HOME=$folder/made
../cudrakh make 7
../cudrakh query --ask made.csv | sed -n '/^ask/{p;n;p}'

export YARCH_HOME=$folder/archive
../cudrakh create parameters.csv calibrations.csv containers.csv
../cudrakh load link-1.dump link-2.dump
../cudrakh query --ask asks.csv
../cudrakh recover
../cudrakh verify

# another archive of the first dump, whose packets of two kinds have tables of their own
export YARCH_HOME=$folder/routed
../cudrakh create parameters.csv calibrations.csv containers.csv tables.sql
../cudrakh load --route route.sql --link 1 link-1.dump
