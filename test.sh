#!/bin/sh
# All tests. First every proof, must-fail edit and program, by the gate `rt ci` on the checkout as it stands; then the tool for sheets, the
# pages for readers and planners, the C host and the differential test over the static library, and the built program's lines.
# The last line is the gate's, 'N passed, M failed'; a status other than 0 says that something failed.
set -eu
cd "$(dirname "$0")"
scratch=$(mktemp -d)
trap 'rm -rf "$scratch"' EXIT

{ rt ci 2>&1 || echo $? >"$scratch/status"; } | tee "$scratch/gate"
[ ! -e "$scratch/status" ] || exit "$(cat "$scratch/status")"
# The gate passes where edits of must-fail/ cannot be tried, and only counts them in its line `rt: ok`, as "2 bad": here they fail.
bad=$(sed -n 's/^rt: ok.*, \([0-9]*\) bad.*/\1/p' "$scratch/gate")
[ "${bad:-0}" -eq 0 ] || {
    echo "test.sh: $bad edits are bad, and show nothing until they are mended"
    exit 1
}

python3 tools/test_sheet.py
tools/reading --check >/dev/null
python3 tools/test_codes.py
tools/codes --check >/dev/null
host/test.sh
./run.sh >/dev/null
python3 tools/test_program.py
tail -n 1 "$scratch/gate"
