#!/usr/bin/env bash
# Builds the C tests against the static library and runs them, plainly and with gcc's sanitizers, and some of them under valgrind where that is
# installed, compares the header code with libfec where that is, and tries the header in C from C99 to C23 and in C++ from C++11 to C++20.
# Needs gcc and g++ and a built libbarzhilup.a (scripts/libraries): in target/staticlib under the project's root, or in the directory that
# BARZHILUP_LIB names.
set -euo pipefail

root=$(cd "$(dirname "$0")/../.." && pwd)
libraries=${BARZHILUP_LIB:-$root/target/staticlib}
library=$libraries/libbarzhilup.a
if [ ! -f "$library" ]; then
    echo "C: no $library; build it first (scripts/libraries), or name its directory in BARZHILUP_LIB" >&2
    exit 1
fi

build=$(mktemp -d)
trap 'rm -rf "$build"' EXIT
warnings=(-Wall -Wextra -Wpedantic -Werror -I "$root/include")

# Builds and runs a test.
run() { # NAME
    local test=$1
    echo "C99, gcc, $test:"
    gcc -std=c99 "${warnings[@]}" -O2 -o "$build/$test" "$root/tests/c/$test.c" "$library"
    "$build/$test"

    echo "C99, gcc, $test, address and undefined behaviour sanitizers:"
    gcc -std=c99 "${warnings[@]}" -O2 -g -fsanitize=address,undefined -fno-sanitize-recover=all \
        -o "$build/sanitized" "$root/tests/c/$test.c" "$library"
    "$build/sanitized"
}

for test in header_test marks_test writer_test receiver_test latency_test shares_test batch_test pair_test entitled_test join_test snapshot_test \
    panel_test registers_test counts_test inline_test; do
    run "$test"
done

# The sanitizers do not see inside the library; valgrind does. These are the tests that take it a few seconds each.
if command -v valgrind >/dev/null; then
    for test in inline_test writer_test entitled_test latency_test shares_test; do
        echo "valgrind, $test:"
        valgrind --quiet --error-exitcode=9 --leak-check=no "$build/$test"
    done
else
    echo "valgrind is not installed: no test is run under it"
fi

# libfec, where it is installed (Debian: apt-get install libfec-dev).
if gcc -std=c99 "${warnings[@]}" -O2 -o "$build/fec_test" "$root/tests/c/fec_test.c" "$library" -lfec 2>"$build/fec.log"; then
    "$build/fec_test"
elif grep -q 'fec\.h: No such file\|cannot find -lfec' "$build/fec.log"; then
    echo "libfec is not installed: the header code is not compared with it"
else
    cat "$build/fec.log" >&2
    exit 1
fi

# The example of docs/USING.md: it has to print what that page says.
gcc -std=c99 "${warnings[@]}" -o "$build/example" "$root/tests/c/example.c" "$library"
if [ "$("$build/example")" != $'PSD, 3 bytes\npacket 0, 5 bytes' ]; then
    echo "C: the example does not print what it should" >&2
    exit 1
fi
# The lines of it that the page shows, among what is indented in the chapter on C: all but the commands and what it prints.
shown=$(awk '/^## /{ c = $0 == "## C" } c && /^    / { sub(/^ +/, ""); print }' "$root/docs/USING.md" | grep -v '^cc \|^PSD, 3 bytes$\|^packet 0, 5 bytes$')
if [ "$(wc -l <<<"$shown")" -lt 10 ] || grep -vxFf <(sed 's/^ *//' "$root/tests/c/example.c") <<<"$shown"; then
    echo "C: docs/USING.md shows lines that the example does not have" >&2
    exit 1
fi
echo "C99, gcc: the example of docs/USING.md prints what it should, and has the lines that are shown"

cat > "$build/header.cpp" <<'CPP'
#include "barzhilup.h"

int main()
{
    const uint8_t piece[1] = {0x01};
    barzhilup_receiver receiver = barzhilup_open_receiver(0, 0).receiver;
    uint32_t log[1] = {0};
    uint8_t pdu[96] = {0};
    barzhilup_piece list[2] = {{7, 7, false}, {7, 7, false}};
    receiver.known = true;
    const barzhilup_stepped stepped = barzhilup_mark_lost_in_place(&receiver, log, 1);
    const bool lost = stepped.refusal == 0 && stepped.words == 1 && log[0] == 0xc0060000
                      && !receiver.known;
    pdu[12] = 2; // one piece, from 16 to its locator
    pdu[13] = 15;
    pdu[14] = 17;
    pdu[16] = 0x01;
    pdu[17] = 0x31;
    barzhilup_write_parity(pdu, sizeof pdu);
    const barzhilup_reading reading =
        barzhilup_list_pieces(pdu, sizeof pdu, BARZHILUP_CRC_START, list, 2);
    const bool listed = reading.refusal == 0 && list[0].start == 16 && list[0].length == 1
                        && list[0].right && list[1].start == 7 && !list[1].right;
    const barzhilup_part part = barzhilup_chosen(pdu, 95, pdu, sizeof pdu);
    const bool chosen = part.bytes == pdu && part.length == sizeof pdu;
    const bool opened =
        barzhilup_open_receiver_with(0, 0, BARZHILUP_CRC_START_OFF_AIR).receiver.crc_start == 255
        && barzhilup_crc8_from(255, piece, sizeof piece) == 0x9d;
    const bool version = barzhilup_version() == BARZHILUP_VERSION;
    return barzhilup_crc8(piece, sizeof piece) == 0x31 && lost && listed && chosen && opened && version
               ? 0
               : 1;
}
CPP
for standard in c++11 c++14 c++17 c++20; do
    g++ -std="$standard" "${warnings[@]}" -Wconversion -Wold-style-cast -o "$build/header_cpp" "$build/header.cpp" "$library"
    "$build/header_cpp"
done
echo "C++11 to C++20, g++: the header compiles, and calls through it answer right"

for standard in c99 c11 c17 c2x; do
    gcc -std="$standard" "${warnings[@]}" -Wconversion -fsyntax-only -x c "$root/include/barzhilup.h"
done
echo "C99 to C23, gcc: the header compiles by itself"
