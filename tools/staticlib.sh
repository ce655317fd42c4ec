#!/bin/sh
# Builds the host's side for C: target/staticlib/libcodec.a. It works in the repository's root.
set -eu
cd "$(dirname "$0")/.."
mkdir -p target/staticlib
if ! (cd crates/codec_c && rt lib) >target/staticlib/said 2>&1; then
    cat target/staticlib/said
    exit 1
fi
cp crates/codec_c/out/libcodec_c.a target/staticlib/libcodec.a
