#!/bin/sh
# An example hire from end to end: desk -> shelf -> tenant, with the real programs.
#   DESK, TENANT, STREAM  the host programs (target/hosts)
#   SHELF                 the shelf program (target/bin/shelf), with its arguments if it takes any
#   OUT                   the folder for what is made: the sheets, the shelf's lines, the plan, the pictures
set -eu
here=$(cd "$(dirname "$0")" && pwd)
top=$(dirname "$here")
DESK=${DESK:-$top/target/hosts/desk}
TENANT=${TENANT:-$top/target/hosts/tenant}
STREAM=${STREAM:-$top/target/hosts/stream}
OUT=${OUT:-$top/target/hire}
unit=7 tenancy=300 disks=6
# SHELF may hold arguments, so it is not quoted
shelf() { if [ -n "${SHELF:-}" ]; then $SHELF; else "$top/target/bin/shelf"; fi; }
mkdir -p "$OUT"

echo "The desk writes the settings sheet of unit $unit for tenancy $tenancy."
"$DESK" settings $unit $tenancy "$here/disks.csv" -o "$OUT/settings.sheet"

echo "The tenant writes the read request."
"$TENANT" request $unit $tenancy $disks "$here/blocks.txt" -o "$OUT/request.sheet"

echo "The shelf is rented, set, asked for a plan and about the disks of block 4, and returned. It answers:"
"$STREAM" $unit rent $tenancy settings "$OUT/settings.sheet" request 2964 "$OUT/request.sheet" \
    why 4 each "$OUT/request.sheet" return $tenancy >"$OUT/calls"
shelf <"$OUT/calls" >"$OUT/answers"
sed 's/^/    /' "$OUT/answers"

echo "The tenant reads the plan:"
echo
"$TENANT" plan $unit $tenancy "$OUT/answers" --disks "$here/disks.csv" --request "$here/blocks.txt" --calls "$OUT/calls" \
    --svg "$OUT/hire.svg"

echo
echo "The tenant asks why block 4 is not read from another disk:"
echo
"$TENANT" why $unit $tenancy "$OUT/answers" --calls "$OUT/calls" --block 4 --svg "$OUT/why.svg"
