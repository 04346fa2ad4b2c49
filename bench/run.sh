#!/usr/bin/env bash
# How fast the library is, and how much stack it uses; docs/PERFORMANCE.md says what came of it.
# - the eight sums beside the same with a power of a for each byte, the parity by shares beside that by division, the header code with marked
#   places and without beside libfec, the CRC-8 beside plain C (header.c);
# - writing and receiving PDUs, of short packets too, beside the same job in plain C with libfec (plain.c) and beside the referee, as times and as
#   counts of instructions, with how they grow (pdus.c), how far each is from copying and packing its bytes, and which functions have how much of it;
# - eight PDUs received in one call beside eight calls (batch.c);
# - a pair of PDUs received, and the better one chosen, beside plain C and beside two calls (pair.c);
# - two logs joined beside plain C (join.c);
# - the stack of each exported function (stack.c).
# It measures and judges nothing but that all of them answer the same, and is no part of the gate. It takes about a minute, on one core;
# other load on the machine shows in the times, and not in the counts.
# Needs gcc and built libcapi.a, libpanel.a and libpower_sums.a: in target/staticlib under the project's root, or in the directory that BARZHILUP_LIB names.
# Used where they are installed, else what they are for is left out: libfec (Debian: apt-get install libfec-dev), cargo, valgrind.
set -euo pipefail

root=$(cd "$(dirname "$0")/.." && pwd)
bench=$root/bench
libraries=${BARZHILUP_LIB:-$root/target/staticlib}
library=$libraries/libcapi.a
panel=$libraries/libpanel.a
sums=$libraries/libpower_sums.a
for built in "$library" "$panel" "$sums"; do
    if [ ! -f "$built" ]; then
        echo "bench: no $built; build the libraries first, or name their directory in BARZHILUP_LIB" >&2
        exit 1
    fi
done

build=$(mktemp -d)
trap 'rm -rf "$build"' EXIT

# ---- What there is beside the library ----------------------------------------

defined=()
linked=()
fec="libfec not installed (apt-get install libfec-dev): the header code stands alone, and the plain C program is left out"
printf '#include <stddef.h>\n#include <fec.h>\nint main(void) { return init_rs_char(8, 0x11d, 1, 1, 8, 159) == NULL; }\n' > "$build/fec.c"
if gcc -o "$build/fec" "$build/fec.c" -lfec 2> "$build/fec.log"; then
    defined+=(-DWITH_LIBFEC)
    linked+=(-lfec)
    fec="libfec $(dpkg-query -W -f '${Version}' libfec-dev 2> "$build/dpkg.log" || echo 'of unknown version')"
fi

referee="cargo not installed: the referee is left out"
beside=()
if command -v cargo > "$build/which.log"; then
    BARZHILUP_LIB=$libraries CARGO_TARGET_DIR=$build/cargo cargo build --quiet --offline --release --manifest-path "$bench/referee/Cargo.toml"
    beside=(-DWITH_REFEREE "$build/cargo/release/libreferee_bench.a" -lpthread -ldl -lm)
    referee=$(rustc --version)
fi

# ---- Building ----------------------------------------------------------------

# A program's name, and its files and words besides. All symbols are bound at its start, so that nothing of that is measured.
compile() {
    local name=$1
    shift
    gcc -std=c99 -Wall -Wextra -Wpedantic -Werror -O3 -I "$root/include" "${defined[@]}" -Wl,-z,now -o "$build/$name" "$bench/$name.c" "$bench/peers.c" "$@"
}

compile header "$bench/timing.c" "$library" "$sums" "${linked[@]}"
compile pdus "$bench/agree.c" "$bench/drives.c" "$bench/limits.c" "$bench/plain.c" "$bench/timing.c" "$library" "${beside[@]}" "${linked[@]}"
compile batch "$bench/drives.c" "$bench/timing.c" "$library" "${linked[@]}"
compile pair "$bench/drives.c" "$bench/plain.c" "$bench/timing.c" "$library" "${linked[@]}"
compile join "$bench/timing.c" "$library" "${linked[@]}"
compile stack "$bench/drives.c" "$bench/plain.c" "$panel" "$library" "${linked[@]}" -lpthread

# ---- Counts of instructions --------------------------------------------------

# A callgrind file's functions, the costliest first, each with its own share of the instructions in percent.
shares() {
    awk '
        # fn=(number) name; the name stands only where the number comes first, also at a call.
        match($0, /^c?fn=\([0-9]+\)/) {
            number = substr($0, index($0, "=") + 1, RLENGTH - index($0, "="))
            if (length($0) > RLENGTH) name[number] = substr($0, RLENGTH + 2)
            if ($0 ~ /^fn=/) own = number
            next
        }
        /^calls=/ { called = 1; next }
        /^[-+*0-9]/ { if (!called) cost[own] += $2; called = 0; next }
        /^totals:/ { total = $2 }
        END {
            for (number in cost) {
                share = 100 * cost[number] / total
                if (share >= 1 && name[number] !~ /main|^counted$|^0x/) printf "%.1f %% %s\n", share, name[number]
            }
        }' "$1" | sort -rn | paste -sd ',' | sed 's/,/, /g'
}

count() {
    local options=(--tool=callgrind --callgrind-out-file="$build/calls" --collect-atstart=no --toggle-collect=counted --dump-after=counted)
    valgrind "${options[@]}" "$build/pdus" once > "$build/labels" 2> "$build/valgrind.log"
    local i=0 label
    while IFS= read -r label; do
        i=$((i + 1))
        sed -n 's/^totals: //p' "$build/calls.$i"
    done < "$build/labels" > "$build/counts"
    "$build/pdus" counts "$build/counts"
    printf '\nWhose instructions these are, from 1 %% on; what is inlined counts for the caller\n'
    i=0
    local seen=""
    while IFS= read -r label; do
        i=$((i + 1))
        case "$seen" in *"|$label|"*) break ;; esac
        seen="$seen|$label|"
        case "$label" in
        *referee) ;;
        *) printf '%-42s %s\n' "$label:" "$(shares "$build/calls.$i")" ;;
        esac
    done < "$build/labels"
}

# ---- Running -----------------------------------------------------------------

model=$(sed -n '/^model name/{s/^[^:]*: *//p;q}' /proc/cpuinfo)
echo "CPU: ${model:-unknown}; $(nproc) cores; load when this began: $(cut -d ' ' -f 1 /proc/loadavg)"
echo "Compiler of these programs: $(gcc --version | sed -n 1p); of the library: $(rt version 2> "$build/rt.log" || echo 'a Rattle toolchain')"
echo "Peers: $fec; referee: $referee"
"$build/header"
echo
"$build/pdus"
if command -v valgrind > "$build/which.log"; then
    count
else
    printf '\nvalgrind is not installed: instructions are not counted.\n'
fi
"$build/batch"
"$build/pair"
"$build/join"
"$build/stack"
