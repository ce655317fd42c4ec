#!/bin/sh
# Builds the programs `host` and `bench` into target/bin. It works in the repository's root; each program is proved first.
set -eu
cd "$(dirname "$0")/.."
mkdir -p target/bin
for program in host bench; do
    if ! (cd "crates/$program" && rt run </dev/null) >target/bin/said 2>&1; then
        cat target/bin/said
        exit 1
    fi
    cp "crates/$program/out/$program" "target/bin/$program"
done
