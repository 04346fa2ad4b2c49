#!/usr/bin/env bash
# After rt ci, or by itself: each wrong program of a must-fail edit is refused by itself, for a fact that does not hold. Every crate's edits, or those of the crates
# that are given; edits.py says how.
set -euo pipefail
cd "$(dirname "$0")/../.."
# shellcheck source=scripts/kit.sh
. scripts/kit.sh
over=
if is_proved; then over=ci; fi
exec env BARZHILUP_OVER="$over" python3 -B tests/edits/edits.py "$@"
