#!/bin/sh
# Tries the snippets of docs/LOADER.md: the right ones must be proved, and each misuse
# must be refused for its own reason and no other. Prints one line a snippet, and a
# closing line; the exit status is 0 only if all came out so.
#
#     tests/misuse/run.sh
#
# Works in a folder of its own outside the repository: the loader, the crates below it,
# and a crate `misuse` that holds one snippet at a time.
set -u
cd "$(dirname "$0")/../.." || exit 1
page=docs/LOADER.md
scratch=$(mktemp -d) || exit 1
trap 'rm -rf "$scratch"' EXIT
trap 'exit 1' HUP INT TERM

below=$(sed -n 's/^loader://p' crates.txt)
for crate in loader flash_kinds $below; do
    mkdir -p "$scratch/crates/$crate"
    for folder in src specs proofs; do
        [ ! -d "crates/$crate/$folder" ] || cp -R "crates/$crate/$folder" "$scratch/crates/$crate/" || exit 1
    done
    grep "^$crate:" crates.txt >>"$scratch/crates.txt" || exit 1
done
echo "misuse: loader flash_kinds$below" >>"$scratch/crates.txt"
mkdir -p "$scratch/crates/misuse/src"

# snippet NAME: prints the lines of the block behind the marker of that name.
snippet() {
    awk -v marker=": $1 -->" '
        /^<!-- / { here = substr($0, length($0) - length(marker) + 1) == marker; next }
        /^```rust$/ && here { inside = 1; next }
        /^```$/ { inside = 0; here = 0 }
        inside' "$page"
}

tried='' wrong=0 refused=0

# try NAME [HEAD]: checks the snippet, behind the block of that name if there is one.
try() {
    tried="$tried $1"
    {
        printf '#![tactic(auto)]\n\n'
        [ $# -lt 2 ] || { snippet "$2" && echo; }
        snippet "$1"
    } >"$scratch/crates/misuse/src/lib.rt"
    (cd "$scratch/crates/misuse" && rt check) >"$scratch/said" 2>&1
    status=$?
    # what is held against the snippet, one line each
    sed -n -e 's/^[^ ]*src\/lib\.rt:[0-9]*:[0-9]*: error\[/error[/p' -e 's/^note: [^ ]*src\/lib\.rt:[0-9]*:[0-9]*: //p' -e 's/^fn misuse::.* the borrow checker/the borrow checker/p' "$scratch/said" >"$scratch/held"
}

failed() {
    wrong=$((wrong + 1))
    echo "$1: $2 (status $status)"
    sed 's/^/    /' "$scratch/said" | cut -c 1-300 | tail -n 12
}

# accepted NAME FUNCTIONS [HEAD]
accepted() {
    name=$1 functions=$2
    shift 2
    try "$name" "$@"
    if [ "$status" -eq 0 ] && [ ! -s "$scratch/held" ] && grep -q "^logic=proved functions=$functions " "$scratch/said"; then
        echo "$name: proved, $functions functions"
    else
        failed "$name" "NOT PROVED"
    fi
}

# misuse NAME REASON: one thing is held against it, which begins so.
misuse() {
    try "$1" head
    if [ "$status" -ne 0 ] && [ "$(wc -l <"$scratch/held")" -eq 1 ] && REASON=$2 awk 'index($0, ENVIRON["REASON"]) != 1 { exit 1 }' "$scratch/held"; then
        refused=$((refused + 1))
        echo "$1: refused, $2"
    else
        failed "$1" "NOT REFUSED AS EXPECTED"
    fi
}

accepted main_loop 3
accepted right_use 3 head
misuse ticket_used_twice 'error[borrow-e0382]: use of moved value: `ticket`'
misuse loader_used_after_off 'error[borrow-e0382]: borrow of moved value: `loader`'
misuse ticket_let_go 'it is not proved that what `drop` requires holds at this call (`drop-ticket-requires`)'
misuse ticket_forgotten 'the borrow checker does not cover this function yet: a call of `core::mem::forget`: it passes `loader::ticket::Ticket::drop`'
misuse work_unheard 'error[linear-value-let-go]: this value is let go, since nothing takes it, and `Worked` is not `Drop`'
misuse answer_unheard 'error[linear-value-let-go]: a value with no name is held after one branch here and not another, so it is let go, and `Worked` is not `Drop`'
misuse loader_let_go 'error[linear-value-let-go]: `loader` is let go where its block ends'
misuse ticket_made 'error[private-field]: field `spent` of struct `Ticket` is private'

# The page has these snippets and no others.
marked=$(sed -n -e 's/^<!-- accepted: \(.*\) -->$/\1/p' -e 's/^<!-- misuse: \(.*\) -->$/\1/p' "$page")
if [ "$(printf '%s\n' $marked | sort)" != "$(printf '%s\n' $tried | sort)" ]; then
    wrong=$((wrong + 1))
    echo "$page has other snippets:" $marked
fi
[ "$wrong" -eq 0 ] || { echo "$wrong came out wrong"; exit 1; }
echo "$refused misuses refused as expected"
