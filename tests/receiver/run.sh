#!/usr/bin/env bash
# The chapter "From a receiver" of docs/USING.md: a program that plays a receiver records PDUs with the two functions of samples/recorder.h into a pipe, and
# `barzhilup log` reads it live. Needs gcc, and target/bin/barzhilup (scripts/build).
set -euo pipefail
here=$(cd "$(dirname "$0")" && pwd)
project=$(cd "$here/../.." && pwd)
program=$project/target/bin/barzhilup
work=$(mktemp -d)
trap 'kill $(jobs -p) 2>/dev/null || true; rm -rf "$work"' EXIT
cd "$work"
checks=0
failed=0

same() { # ABOUT EXPECTED CAME
    checks=$((checks + 1))
    if [ "$2" != "$3" ]; then
        failed=$((failed + 1))
        printf 'failed: %s\n  expected: %s\n  came:     %s\n' "$1" "$2" "$3"
    fi
}

# How many PDUs a log has.
logged() { # FILE
    grep -c '^[0-9]*,\(received\|lost\|refused\),' "$1" || true
}

# Waits until a log has so many PDUs, some 20 seconds at most.
wait_for() { # FILE PDUS
    local turn
    for ((turn = 0; turn < 1000; turn += 1)); do
        if [ -f "$1" ] && [ "$(logged "$1")" -ge "$2" ]; then return; fi
        sleep 0.02
    done
    return 1
}

gcc -std=c99 -Wall -Wextra -Wpedantic -Werror -O2 -o player "$here/player.c"
"$program" generate --in "$project/samples/packets" --length 512 --mode 1 --crc-start 255 --out sent 2>/dev/null
"$program" log --in sent --mode 1 --crc-start 255 --format csv --out sent.csv 2>/dev/null
pdus=$(logged sent.csv)

# A drive in which each tenth PDU and five in a row do not come, PDU by PDU: what came of each is in the log before the next one comes.
mkfifo pdus lines
"$program" log --in pdus --mode 1 --crc-start 255 --format csv --out live.csv 2>live.err &
logger=$!
./player sent pdus <lines &
player=$!
exec 9>lines
for ((n = 0; n < 40; n += 1)); do
    if ((n % 10 == 9 || (n > 20 && n < 26))); then echo lost; else echo; fi >>asked
    tail -n 1 asked >&9
    wait_for live.csv $((n + 1)) || break
    same "PDU $n is in the log before the next comes" $((n + 1)) "$(logged live.csv)"
done
same "PDUs that are logged before the next one comes" 40 "$n"
for ((; n < pdus; n += 1)); do echo; done >>rest
cat rest >&9 || true
exec 9>&-
status=0
wait "$player" || status=$?
same "the receiver's status" 0 "$status"
wait "$logger" || status=$?
same "the log's status" 0 "$status"
same "the last line" ",end,,,,,,,,whole,,,,,$pdus" "$(tail -n 1 live.csv)"

# It is the log of the same records in a file.
cat asked rest | ./player sent file
"$program" log --in file --mode 1 --crc-start 255 --format csv --out file.csv 2>file.err
same "the log of a pipe and of a file" "" "$(cmp file.csv live.csv 2>&1 || true)"
same "what is said of a pipe and of a file" "" "$(cmp file.err live.err 2>&1 || true)"
same "PDUs marked lost" "$(grep -c lost asked)" "$(grep -c '^[0-9]*,lost' live.csv)"

# A recording that cannot be written, and lengths that no record has.
cat >refused.c <<'C'
#include "recorder.h"
int main(void) {
    static uint8_t pdu[65536];
    FILE *full = fopen("/dev/full", "wb");
    FILE *out = fopen("/dev/null", "wb");
    return record_pdu(out, pdu, 0) == -1 && record_pdu(out, pdu, 65536) == -1 && record_pdu(out, pdu, 65535) == 0 && record_lost(out) == 0 &&
                   record_pdu(full, pdu, 96) != 0 && record_lost(full) != 0
               ? 0
               : 1;
}
C
gcc -std=c99 -Wall -Wextra -Wpedantic -Werror -I "$project/samples" -o refused refused.c
status=0
./refused || status=$?
same "what cannot be recorded is said" 0 "$status"

# The page shows the file's own lines.
shown=$(awk '/^## /{ c = $0 == "## From a receiver" } c && /^    / { sub(/^ +/, ""); print }' "$project/docs/USING.md" | grep -v '^mkfifo \|^target/bin/barzhilup \|^receiver ')
same "lines that docs/USING.md shows" "" "$(grep -vxFf <(sed 's/^ *//' "$project/samples/recorder.h") <<<"$shown" || true)"
same "lines that docs/USING.md shows, some" yes "$([ "$(wc -l <<<"$shown")" -ge 10 ] && echo yes)"

echo "receiver: $checks checks, $failed failed"
[ "$failed" = 0 ]
