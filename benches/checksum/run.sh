#!/bin/sh
# Builds the checksum as a static library and times it beside a table-driven loop in C.
# Run it from anywhere; it works in the repository's root and writes only below target/.
set -eu
cd "$(dirname "$0")/../.."
tools/staticlib.sh
mkdir -p target/benches
gcc -std=gnu11 -O3 -Wall -Wextra -o target/benches/checksum benches/checksum/main.c target/staticlib/libcodec.a
nm --print-size --size-sort --radix=d target/benches/checksum | awk '$4 == "ciu32_checksum" || $4 == "table_checksum" || $4 == "table" { print $4 ": " $2 + 0 " bytes" }'
target/benches/checksum
