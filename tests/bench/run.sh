#!/bin/sh
# Runs the program `bench` on every stored run and compares what it prints with
# what is stored. Prints one line a run, and a closing line; the exit status is 0
# only if nothing differs.
#
#     tools/programs.sh && tests/bench/run.sh
#
# A stored run is NAME.in with NAME.out. The outputs were printed by `model.py`,
# which is no part of the program. Works in the repository's root and writes only
# below target/.

cd "$(dirname "$0")/../.." || exit 1
bench=target/bin/bench
runs=0
differ=0

if [ ! -x "$bench" ]; then
    echo "$bench is not there"
    exit 1
fi
scratch=target/tests/bench
mkdir -p "$scratch" || exit 1
out=$scratch/out
wanted=$scratch/wanted

# compare NAME STATUS EXPECTED: counts one run, whose output is in $out.
compare() {
    runs=$((runs + 1))
    if [ "$2" -ne 0 ]; then
        differ=$((differ + 1))
        echo "$1: ended with status $2"
    elif cmp -s "$3" "$out"; then
        echo "$1: equal, $(wc -l < "$out" | tr -d ' ') lines"
    else
        differ=$((differ + 1))
        echo "$1: DIFFERS ($3 is <, the program >)"
        diff "$3" "$out" | cut -c 1-160 | head -n 10
    fi
}

for input in tests/bench/*.in; do
    name=$(basename "$input" .in)
    "$bench" < "$input" > "$out"
    compare "$name" $? "tests/bench/$name.out"
done

# One whole life of a part.
"$bench" < crates/bench/stdin > "$out"
compare life $? crates/bench/stdout

# Both programs together.
sh tests/bench/round_trip.sh > "$out"
compare round_trip $? tests/bench/round_trip.expected

# 200,000 lines are read in a few seconds.
awk 'BEGIN { for (i = 0; i < 100000; i++) print "(in 5A)\n(in 5A 5)" }' > "$scratch/in"
awk 'BEGIN { for (i = 0; i < 100000; i++) print "(out B3)\n(bad line)" }' > "$wanted"
timeout 20 "$bench" < "$scratch/in" > "$out"
compare many_lines $? "$wanted"

# A line of three million bytes is one bad line, and does nothing.
awk 'BEGIN { printf "(in"; for (i = 0; i < 1000000; i++) printf " 5A"; print ")" }' > "$scratch/in"
printf '(in 85)\n(in 5A)\n' >> "$scratch/in"
printf '(bad line)\n(out B3)\n' > "$wanted"
timeout 20 "$bench" < "$scratch/in" > "$out"
compare long_line $? "$wanted"

echo "$runs runs, $differ differ"
[ "$differ" -eq 0 ]
