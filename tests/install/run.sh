#!/usr/bin/env bash
# Installs the program and the library under a prefix of its own, and uses them from there alone: the example of docs/USING.md is built through
# pkg-config with the shared library and with the archive and has to print what that page says, and so have the program and its manual pages.
# Needs gcc and what scripts/install needs; pkg-config and man where they are installed.
set -euo pipefail

here=$(cd "$(dirname "$0")" && pwd)
project=$(cd "$here/../.." && pwd)
work=$(mktemp -d)
trap 'rm -rf "$work"' EXIT
prefix=$work/prefix
checks=0
failed=0

# A check: what it is about, what is expected and what came.
same() {
    checks=$((checks + 1))
    if [ "$2" != "$3" ]; then
        failed=$((failed + 1))
        printf 'failed: %s\n  expected: %s\n  came:     %s\n' "$1" "$2" "$3"
    fi
}

# The exit status of a command, whose output goes to the file said.
status_of() {
    local status=0
    "$@" >"$work/said" 2>&1 || status=$?
    echo "$status"
}

same "an installation succeeds" 0 "$(status_of bash "$project/scripts/install" "$prefix")"
grep -v '^install: ' "$work/said" | grep -v '^libraries: \|^build: \|^rt: ' && same "what is said" "a line for each file" "others"
places=$(sed -n 's/^install: \([^ ]*\).*/\1/p' "$work/said" | sort)
same "each file that is said is there, and no other" "$(find "$prefix" -not -type d | sort)" "$places"

# What was built last, with the times.
built() {
    find "$project/target/bin" "$project/target/staticlib" -printf '%p %T@\n' | sort
}

# Once more: files of its own are replaced, others stay, and nothing is built that is current.
echo kept >"$prefix/lib/other"
before=$(built)
same "an installation over another succeeds" 0 "$(status_of bash "$project/scripts/install" "$prefix")"
same "a file that is not its own stays" kept "$(cat "$prefix/lib/other")"
same "what is current is not built again" "$before" "$(built)"
rm "$prefix/lib/other"

# What cannot be done, or was asked wrongly, has a status of its own, and nothing is put anywhere.
same "no prefix" 2 "$(status_of bash "$project/scripts/install")"
same "two prefixes" 2 "$(status_of bash "$project/scripts/install" "$work/a" "$work/b")"
same "an option" 2 "$(status_of bash "$project/scripts/install" --help)"
: >"$work/file"
same "a prefix that is a file fails" yes "$([ "$(status_of bash "$project/scripts/install" "$work/file")" != 0 ] && echo yes)"
same "and the file stays empty" "" "$(cat "$work/file")"

# Characters that pkg-config or the manual take for their own.
for character in '"' "'" '`' '$' '#' \\ $'\n'; do
    same "a prefix with $(printf %q "$character")" 2 "$(status_of bash "$project/scripts/install" "$work/no${character}prefix")"
    same "and nothing is put there" "" "$(find "$work" -maxdepth 1 -name 'no*')"
done

# Below DESTDIR the files name the prefix itself.
same "an installation below DESTDIR succeeds" 0 "$(DESTDIR=$work/packed status_of bash "$project/scripts/install" /opt/barzhilup)"
same "its pkg-config file names the prefix" prefix=/opt/barzhilup "$(head -n 1 "$work/packed/opt/barzhilup/lib/pkgconfig/barzhilup.pc")"

# A prefix with a space; what is below it is looked at with the rest.
spaced="$work/a prefix"
same "an installation under a prefix with a space succeeds" 0 "$(status_of bash "$project/scripts/install" "$spaced")"

# The program.
same "the program's version" "barzhilup $(sed -n 's/^Version: //p' "$prefix/lib/pkgconfig/barzhilup.pc")" "$("$prefix/bin/barzhilup" --version)"

# A program in C, as its author would build it.
cp "$project/tests/c/example.c" "$work/example.c"
said=$'PSD, 3 bytes\npacket 0, 5 bytes'
if command -v pkg-config >/dev/null; then
    export PKG_CONFIG_PATH=$prefix/lib/pkgconfig
    libdir=$(pkg-config --variable=libdir barzhilup)
    # shellcheck disable=SC2046
    gcc -o "$work/shared" "$work/example.c" $(pkg-config --cflags --libs barzhilup)
    # shellcheck disable=SC2046
    gcc -o "$work/static" "$work/example.c" $(pkg-config --cflags barzhilup) "$libdir/libbarzhilup.a"
    same "the example with the shared library" "$said" "$(LD_LIBRARY_PATH=$libdir "$work/shared")"
    same "it is linked by its soname" libbarzhilup.so.0 "$(readelf -d "$work/shared" | sed -n 's/.*\[\(libbarzhilup.*\)\]/\1/p')"
    same "it runs with the one that is installed" "$libdir/$(readlink "$libdir/libbarzhilup.so")" \
        "$(LD_LIBRARY_PATH=$libdir ldd "$work/shared" | sed -n 's/.*libbarzhilup[^ ]* => \([^ ]*\).*/\1/p')"
    same "the example with the archive" "$said" "$("$work/static")"
    same "it needs no shared one" "" "$(readelf -d "$work/static" | sed -n 's/.*\[\(libbarzhilup.*\)\]/\1/p')"
    # A space in the answer of pkg-config has a backslash before it, for a shell that reads it once more.
    (cd "$work" && export PKG_CONFIG_PATH=$spaced/lib/pkgconfig && eval gcc -o spaced example.c "$(pkg-config --cflags --libs barzhilup)")
    same "the example with the shared library there" "$said" "$(LD_LIBRARY_PATH=$spaced/lib "$work/spaced")"
    same "pkg-config's directory there" "$spaced/lib" "$(PKG_CONFIG_PATH=$spaced/lib/pkgconfig pkg-config --variable=libdir barzhilup)"
else
    echo "pkg-config is not installed: the example is not built through it"
fi

# The Python module, with the library that is installed beside it.
if python3 -c 'import sys; sys.exit(sys.version_info < (3, 8))' 2>/dev/null; then
    found=$(cd / && env -u BARZHILUP_LIB PYTHONDONTWRITEBYTECODE=1 PYTHONPATH="$prefix/share/barzhilup/python" \
        python3 -c 'import barzhilup; print(barzhilup._c._name, barzhilup.Writer(0).write([b"audio"], 96).ended)')
    same "the Python module finds the library and writes" "$prefix/lib/libbarzhilup.so.0 1" "$found"
fi

# Manual pages, with a page for each subcommand.
subs=$("$prefix/bin/barzhilup" --help | sed -n 's/^  \([a-z]\+\) .*/\1/p')
# shellcheck disable=SC2086
for name in barzhilup $(printf 'barzhilup-%s ' $subs); do
    same "the manual has $name(1)" yes "$([ -s "$prefix/share/man/man1/$name.1" ] && echo yes)"
done
for sub in $subs; do
    same "barzhilup(1) names barzhilup-$sub(1)" yes "$(grep -qF "barzhilup\\-$sub" "$prefix/share/man/man1/barzhilup.1" && echo yes)"
done
same "the manual has libbarzhilup(3)" yes "$([ -s "$prefix/share/man/man3/libbarzhilup.3" ] && echo yes)"
# The functions that the page names are those of the header, but for the ones that the header's own functions use: those that stand for NULL, and a part of
# the walk through a log.
functions=$(sed 's|/\*.*||; s|^ \*.*||' "$prefix/include/barzhilup.h" | grep -o 'barzhilup_[a-z0-9_]*(' | tr -d '(' | sort -u |
    grep -vx 'barzhilup_.*_or_null\|barzhilup_\(bytes\|lengths\|sizes\|words\|pieces\)_\(read\|written\)\|barzhilup_log_holds')
same "over 30 functions are found in the header" yes "$([ "$(wc -l <<<"$functions")" -gt 30 ] && echo yes)"
same "libbarzhilup(3) has each function of the header, and no other" "$functions" \
    "$(grep -o 'barzhilup_[a-z0-9_]*' "$prefix/share/man/man3/libbarzhilup.3" | sort -u)"
if man --version 2>/dev/null | grep -q '^man '; then
    for page in "$prefix"/share/man/man[13]/*; do
        same "${page##*/} has no fault" "" "$(LC_ALL=C.UTF-8 MANWIDTH=100 man --warnings -l "$page" 2>&1 >/dev/null)"
    done
    shown=$(LC_ALL=C.UTF-8 MANWIDTH=100 man -l "$prefix/share/man/man1/barzhilup-log.1" | col -bx)
    same "barzhilup-log(1) has what --help says" "" \
        "$("$prefix/bin/barzhilup" log --help | sed 1,2d | while IFS= read -r line; do grep -qF -- "$line" <<<"$shown" || echo "$line"; done)"
    shown=$(LC_ALL=C.UTF-8 MANWIDTH=1000 man -l "$spaced/share/man/man3/libbarzhilup.3" | col -bx)
    same "libbarzhilup(3) names the files under a prefix with a space" yes \
        "$(grep -qF "$spaced/lib/libbarzhilup.a and $spaced/lib/libbarzhilup.so, built" <<<"$shown" && echo yes)"
else
    echo "man is not installed: the pages are not shown"
fi

echo "install: $checks checks, $failed wrong"
[ "$failed" -eq 0 ]
