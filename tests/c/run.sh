#!/bin/sh
# Builds the host's side as a static library, links a C program with it, and compares what the program prints.
set -eu
cd "$(dirname "$0")/../.."
tools/staticlib.sh
mkdir -p target/tests
gcc -std=gnu11 -O2 -Wall -Wextra -Werror -o target/tests/c tests/c/main.c target/staticlib/libcodec.a
target/tests/c >target/tests/c.out
diff tests/c/expected target/tests/c.out
echo "C: $(wc -l <tests/c/expected) lines as expected"
