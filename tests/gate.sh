#!/bin/sh
# The merge gate's proofs, must-fail edits, tests and programs: `rt ci` over every crate, at the top of this checkout as it stands.
# Status 1 where rt ci fails, and where its line `rt: ok` counts must-fail edits that are bad: rt ci itself passes those.
# All that it says is in target/ci.log; its last two lines are the line `rt: ok` and 'N passed, 0 failed'.
set -u
cd "$(dirname "$0")/.." || exit 1
mkdir -p target || exit 1
log=target/ci.log
{ ${RT:-rt} ci 2>&1; echo "status $?" >"$log.status"; } | tee "$log"
[ "$(cat "$log.status")" = 'status 0' ] || exit 1
ok=$(tail -n 2 "$log" | sed -n '1s/^rt: ok;/&/p')
[ -n "$ok" ] || { echo 'gate: rt ci ended without its line "rt: ok"' >&2; exit 1; }
tail -n 1 "$log" | grep -qxE '[0-9]+ passed, 0 failed' || { echo 'gate: the last line of rt ci is not "N passed, 0 failed"' >&2; exit 1; }
if printf '%s\n' "$ok" | grep -qE ', [1-9][0-9]* bad(;|$)'; then
    grep 'BAD EDIT' "$log" >&2
    echo 'gate: there are must-fail edits that are bad' >&2
    exit 1
fi
