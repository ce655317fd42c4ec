#!/bin/sh
# A page makes the round trip through both programs: `host` writes the frames,
# `bench` is the part that answers them, and `host` reads its answers. Prints each
# request with the code that came back, and the page row by row: as it was before,
# as it was sent, as it was read back.
#
#     tools/programs.sh && tests/bench/round_trip.sh
#
# It works in the repository's root and writes only below target/. What it must print
# is stored in round_trip.expected.

cd "$(dirname "$0")/../.." || exit 1
host=target/bin/host
bench=target/bin/bench
scratch=target/tests/round_trip
mkdir -p "$scratch" || exit 1

# The page to send, 512 bytes, and its checksum.
page=$(awk 'BEGIN { for (i = 0; i < 512; i++) printf " %02X", (7 * i + int(i / 256)) % 256 }')
checksum=4859

# Two words stand in the page already, so that without the erase the write would
# be refused.
cat > "$scratch/requests" <<END
(write 08000000 00 11 22 33)
(write 080001FC 44 55 66 77)
(read 08000000 512)
(erase AA 0 1)
(write 08000000$page)
(crc 08000000 512 $checksum)
(read 08000000 512)
END

# Requests to frames; then the greeting, and works enough behind each frame; then
# all answers but the greeting's back to the host.
"$host" < "$scratch/requests" > "$scratch/frames" || exit 1
{ echo '(in 5A)'; awk '{ print; print "(work 128)" }' "$scratch/frames"; } > "$scratch/session"
"$bench" < "$scratch/session" > "$scratch/replies" || exit 1
sed -n 's/^(out /(answer /p' "$scratch/replies" | sed 1d > "$scratch/answers"
"$host" < "$scratch/answers" > "$scratch/codes" || exit 1

# Side by side, bytes in the order of their addresses. The third
# answer has the page before, the seventh the page read back.
awk -v page="$page" '
function row(bytes, first,    i, text) {
    for (i = first; i < first + 16; i++)
        text = text (i > first && (i - first) % 4 == 0 ? " " : "") bytes[i]
    return text
}
FNR == 1 { file++ }
{ gsub(/[()]/, "") }
file == 1 { request[FNR] = length($0) > 40 ? substr($0, 1, 26) " .." : $0; requests = FNR }
file == 2 { code[FNR] = $1 == "code" ? $2 : $0; codes = FNR }
file == 2 && FNR == 3 { for (i = 3; i <= NF; i++) before[i - 3] = $i }
file == 2 && FNR == 7 { for (i = 3; i <= NF; i++) back[i - 3] = $i; count = NF - 2 }
END {
    for (i = 1; i <= requests || i <= codes; i++) {
        printf "%-32s %s\n", request[i], code[i]
        if (code[i] != "90") refused++
    }
    split(page, sent_from_1)
    for (i = 1; i <= 512; i++) {
        sent[i - 1] = sent_from_1[i]
        if (back[i - 1] == sent_from_1[i]) equal++
    }
    printf "\n%-8s  %-35s  %-35s  %s\n", "address", "before", "sent", "read back"
    for (i = 0; i < 512; i += 16)
        printf "%08X  %-35s  %-35s  %s\n", 134217728 + i, row(before, i), row(sent, i), row(back, i)
    print ""
    if (equal == 512 && count == 512 && requests == 7 && codes == 7 && !refused) {
        print "page round trip: 512 bytes equal"
        exit 0
    }
    printf "page round trip: %d of 512 bytes equal, %d requests refused\n", equal, refused
    exit 1
}' "$scratch/requests" "$scratch/codes"
