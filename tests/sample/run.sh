#!/usr/bin/env bash
# The sample drive of README, by the proved program and by the one that scripts/try compiles without proofs: every file of the drive is the same, and so is each
# exit status. Needs target/bin/barzhilup (scripts/build).
set -euo pipefail
cd "$(dirname "$0")/../.."
work=$(mktemp -d)
trap 'rm -rf "$work"' EXIT
checks=0 failed=0

same() { # WHAT EXPECTED CAME
    checks=$((checks + 1))
    if [ "$2" != "$3" ]; then
        failed=$((failed + 1))
        printf 'failed: %s\n  expected: %s\n  came:     %s\n' "$1" "$2" "$3"
    fi
}

# The exit status of a program for some words.
status_of() { # PROGRAM WORD...
    local status=0
    "$@" >"$work/said" 2>&1 || status=$?
    echo "$status"
}

# Runs the sample drive with the program of a directory, and keeps its files.
drive() { # DIRECTORY
    BARZHILUP_BIN=$1 bash scripts/sample >"$work/$(basename "$1").said" 2>&1
    mv target/drive "$work/$(basename "$1")"
}

bash scripts/try
drive target/bin
drive target/try
for file in sent received log.csv coverage.svg; do
    [ -s "$work/bin/$file" ] || same "$file has bytes" yes no
    same "$file is the same" "$(sha256sum <"$work/bin/$file")" "$(sha256sum <"$work/try/$file")"
done
same "what is said is the same" "$(cat "$work/bin.said")" "$(sed '$d' "$work/try.said")"
for words in --help "log --help" nothing "log --in $work/missing" "log --in $work/bin/sent --out $work/bin/sent" "coverage --rows x"; do
    # shellcheck disable=SC2086
    same "the status of: barzhilup $words" "$(status_of target/bin/barzhilup $words)" "$(status_of target/try/barzhilup $words)"
done
echo "sample: $checks checks, $failed failed"
exit $((failed > 0))
