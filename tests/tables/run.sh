#!/usr/bin/env bash
# Holds functions, structs, numbers and words in the Rattle crates, the C header, the Rust crate, the referee and the Python module against each
# other (tables.py), and then tries it on copies that are spoiled in one place, each of which it has to find.
# Needs gcc, Python 3.8 or later, and the built shared library: in target/staticlib under the project's root, or in the directory that BARZHILUP_LIB
# names.
set -euo pipefail
here=$(cd "$(dirname "$0")" && pwd)
root=$(cd "$here/../.." && pwd)
if ! python3 -c 'import sys; sys.exit(sys.version_info < (3, 8))' 2>/dev/null; then
    echo "Python 3.8 is not installed: the tables are not compared"
    exit 0
fi
export BARZHILUP_LIB=${BARZHILUP_LIB:-$root/target/staticlib}
BARZHILUP_LIB=$(cd "$BARZHILUP_LIB" && pwd)
python3 "$here/tables.py" "$root"

work=$(mktemp -d)
trap 'rm -rf "$work"' EXIT
spoiled=0

# A fresh copy with one place changed, by an expression of sed in a file; what the comparison says has to have these words.
spoil() { # FILE EXPRESSION WORDS
    rm -rf "$work/copy"
    mkdir -p "$work/copy/bindings/rust" "$work/copy/referee"
    cp -r "$root/include" "$work/copy"
    cp -r "$root/bindings/python" "$work/copy/bindings"
    cp -r "$root/bindings/rust/src" "$root/bindings/rust/Cargo.toml" "$work/copy/bindings/rust"
    cp -r "$root/referee/tests" "$work/copy/referee"
    (cd "$root" && tar -cf - crates/*/src) | tar -xf - -C "$work/copy"
    sed -i "$2" "$work/copy/$1"
    if cmp -s "$root/$1" "$work/copy/$1"; then
        echo "tables: $2 changes nothing in $1" >&2
        exit 1
    fi
    if python3 "$here/tables.py" "$work/copy" >"$work/said" 2>&1 || ! grep -q "^tables: differs: $3" "$work/said"; then
        echo "tables: $1 spoiled by $2 is not found" >&2
        cat "$work/said" >&2
        exit 1
    fi
    spoiled=$((spoiled + 1))
}

header=include/barzhilup.h
spoil $header 's/^    uint16_t held;/    uint32_t held;/' 'header and the crates: .*: '
spoil $header 's/^    uint8_t pfirst;/    uint8_t plast_;/' 'header and the crates: barzhilup_read, answer'
spoil $header 's/^#define BARZHILUP_REFUSED_MARKS 19/#define BARZHILUP_REFUSED_MARKS 29/' 'header and Rust: refusals'
spoil $header 's/^#define BARZHILUP_LOG_WORDS 8400/#define BARZHILUP_LOG_WORDS 8300/' 'header and Python: LOG_WORDS'
spoil $header 's/^#define BARZHILUP_ENHANCED 1/#define BARZHILUP_ENHANCED 2/' 'header and Python: ENHANCED'
spoil $header 's/return "wrong CRC"/return "CRC wrong"/' "header and the program's words: note 2"
spoil $header 's/^uint32_t barzhilup_write_parity(uint8_t \*pdu/uint32_t barzhilup_write_parity(const uint8_t *pdu/' 'header and the crates: barzhilup_write_parity, argument 1, by pointer'
spoil $header 's/^\( \*    13        0, core           \)12/\116/' "header's modes and the library: mode 13, stream 0"
spoil crates/receiver/src/lib.rt 's/^    pub entitled: u8,/    pub entitled: u16,/' 'header and the crates: barzhilup_receive, argument 1'
spoil crates/settings/src/lib.rt 's/^    pub blend: u8,/    pub gain: u8,/' 'header and the crates: barzhilup_write, argument 2'
spoil crates/capi/src/lib.rt 's/latency: u8) -> Trial/latency: u32) -> Trial/' 'header and the crates: barzhilup_try_latency, argument 5'
spoil crates/causes/src/lib.rt 's/La out of place/La misplaced/' "header and the program's words: 9"
spoil crates/commands/src/lib.rt 's/barzhilup 0\.1\.0/barzhilup 0.1.1/' 'versions: the program'
spoil bindings/rust/src/ffi.rs 's/pub(crate) missing: u32,/pub(crate) missing: u16,/' 'header and Rust: barzhilup_receive, argument 1'
spoil bindings/rust/src/refusal.rs 's/Refusal::Room => 17,/Refusal::Room => 16,/' 'header and Rust: refusals'
spoil referee/tests/product/receiver.rs 's/^    pub last: u8,/    pub last: u16,/' 'header and the referee: barzhilup_receive, argument 1'
spoil bindings/python/barzhilup.py 's/("sent", _u16)/("sent", _u32)/' 'header and Python: barzhilup_writer: '
spoil bindings/python/barzhilup.py 's/"barzhilup_choose": (_u32, \[_bytes, _size, /"barzhilup_choose": (_u32, [_bytes, _u32, /' 'header and Python: barzhilup_choose, argument 2'
spoil bindings/python/barzhilup.py 's/19: "over eight marks/19: "over nine marks/' 'header and Python: words for 19'
echo "tables: $spoiled spoiled copies, each found"
