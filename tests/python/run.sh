#!/usr/bin/env bash
# Runs the tests of the Python module, where Python 3.8 or later is installed.
# Needs the built shared library and program: in target/staticlib and target/bin under the project's root, or in the directories that BARZHILUP_LIB
# and BARZHILUP_BIN name.
set -euo pipefail
cd "$(dirname "$0")/../.."
if ! python3 -c 'import sys; sys.exit(sys.version_info < (3, 8))' 2>/dev/null; then
    echo "Python 3.8 is not installed: the Python module is not tested"
    exit 0
fi
library=${BARZHILUP_LIB:-target/staticlib}/libbarzhilup.so
program=${BARZHILUP_BIN:-target/bin}/barzhilup
for built in "$library" "$program"; do
    if [ ! -e "$built" ]; then
        echo "Python: no $built; build it first (scripts/libraries, scripts/build)" >&2
        exit 1
    fi
done
PYTHONDONTWRITEBYTECODE=1 python3 -W error -m unittest discover --start-directory bindings/python/tests
